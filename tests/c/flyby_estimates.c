/*
** flyby_estimates.c: every kind of double as an estimate of a flyby's root.
**
** Where the verdict on an estimate turns, as the tolerance grows, tells the
** whole numbers just below and just above it, its f and c, one by one: f
** where the root is above the estimate, and c where it is below.
*/
#include <math.h>

#include "flyby.h"
#include "nans.h"

/* Both sides of where the verdict turns: from Refuted on, to Confirmed. */
static void turns(struct place at, struct flyby g, double estimate,
                  int32_t refuted, int32_t confirmed)
{
    if (refuted >= 0)
        flyby_verdict_is(at, g, estimate, (uint32_t)refuted, 0, 17);
    if (refuted + 1 < confirmed) {
        flyby_verdict_is(at, g, estimate, (uint32_t)refuted + 1, 0, 18);
        flyby_verdict_is(at, g, estimate, (uint32_t)confirmed - 1, 0, 18);
    }
    flyby_verdict_is(at, g, estimate, (uint32_t)confirmed, 0, 16);
}

/* The root some thousand units above: its ends say when f + n is there. */
static void below_root(struct place at, double estimate, int32_t f)
{
    struct flyby g = { last_m_above((uint32_t)f + 1000, 2 * ONE), 2 * ONE };
    struct stripeawn_enclosure e = plain_enclosure(g);

    turns(at, g, estimate, e.lower - f - 1, e.upper - f);
}

/* The root some thousand units below, or 0: the ends say when c - n is. */
static void above_root(struct place at, double estimate, int32_t c)
{
    int32_t x = c > 2000 ? c - 1000 : 0;
    struct flyby g = { last_m_above((uint32_t)x, 2 * ONE), 2 * ONE };
    struct stripeawn_enclosure e = plain_enclosure(g);

    turns(at, g, estimate, c - e.upper - 1, c - e.lower);
}

static void rounded(struct place at, double estimate, int32_t f, int32_t c)
{
    if (f + 1000 <= TOP)
        below_root(at, estimate, f);
    above_root(at, estimate, c);
}

static void refused(struct place at, double estimate)
{
    static const struct flyby flybys[] = { { 0, ONE }, { 1, 2 * ONE },
                                           { MOST_M, ONE },
                                           { MOST_M, MOST_B } };
    size_t i;

    for (i = 0; i < COUNT(flybys); i++) {
        flyby_verdict_is(at, flybys[i], estimate, 0, 4, 0);
        flyby_verdict_is(at, flybys[i], estimate, 65535, 4, 0);
    }
}

/* Either zero is 0. */
static void test_zeros(void)
{
    rounded(HERE, 0.0, 0, 0);
    rounded(HERE, from_bits(SIGN), 0, 0);
}

/* The least doubles are above 0, or below it. */
static void test_subnormals(void)
{
    rounded(HERE, from_bits(1), 0, 1);
    rounded(HERE, from_bits(2), 0, 1);
    rounded(HERE, from_bits(UINT64_C(0x0008000000000000)), 0, 1);
    rounded(HERE, from_bits(UINT64_C(0x000FFFFFFFFFFFFF)), 0, 1);
    rounded(HERE, from_bits(UINT64_C(0x0010000000000000)), 0, 1);
    refused(HERE, from_bits(SIGN | 1));
    refused(HERE, from_bits(SIGN | UINT64_C(0x000FFFFFFFFFFFFF)));
    refused(HERE, from_bits(SIGN | UINT64_C(0x0010000000000000)));
}

/* Whole units, their halves and the doubles next to them. */
static void test_on_and_off_grid(void)
{
    static const int32_t counts[] = { 1, 2, 3, 1000, 524288, ONE / 2, ONE - 1,
                                      ONE, ONE + 1, 421657428, TOP - 2 };
    size_t i;

    for (i = 0; i < COUNT(counts); i++) {
        int32_t f = counts[i];
        uint64_t bits = to_bits(units(f));

        rounded(HERE, units(f), f, f);
        rounded(HERE, from_bits(bits + 1), f, f + 1);
        rounded(HERE, from_bits(bits - 1), f - 1, f);
        rounded(HERE, units(f) + units(1) / 2, f, f + 1);
        rounded(HERE, units(f) - units(1) / 4, f - 1, f);
    }
}

/* 2 is taken and the next double is not, nor one unit more, nor T units. */
static void test_greatest(void)
{
    rounded(HERE, units(TOP - 1), TOP - 1, TOP - 1);
    rounded(HERE, BELOW_2, TOP - 1, TOP);
    rounded(HERE, 2.0, TOP, TOP);
    refused(HERE, ABOVE_2);
    refused(HERE, units(TOP + 1));
    refused(HERE, 2.5);
    refused(HERE, 3.0);
    refused(HERE, units(H));
    refused(HERE, units(T));
}

/* Far above: 2^4 radian and more would wrap in 32 bits of units. */
static void test_large(void)
{
    refused(HERE, 4.0);
    refused(HERE, 16.0);
    refused(HERE, 17.0);
    refused(HERE, 68719476736.0);
    refused(HERE, 68719476737.0);
    refused(HERE, 1e300);
    refused(HERE, from_bits(INFINITE - 1));
    refused(HERE, from_bits(INFINITE));
}

/* A flyby has no mirror: nothing below 0 is taken. */
static void test_below_zero(void)
{
    refused(HERE, -units(1) / 2);
    refused(HERE, -units(1));
    refused(HERE, -1.0);
    refused(HERE, -2.0);
    refused(HERE, -ABOVE_2);
    refused(HERE, -16.0);
    refused(HERE, -1e300);
    refused(HERE, from_bits(SIGN | (INFINITE - 1)));
    refused(HERE, from_bits(SIGN | INFINITE));
}

static void test_nans(void)
{
    size_t i;

    for (i = 0; i < NANS; i++)
        refused(HERE, nan_of(i));
}

/* Doubles with all their digits, of every size from 2^-40 radian up. */
static void test_any(void)
{
    uint64_t random = 7;
    int i;

    for (i = 0; i < 1500; i++) {
        double estimate = ldexp(2 * random_fraction(&random), -(i % 40));

        rounded(HERE, estimate, (int32_t)floor(estimate * ONE),
                (int32_t)ceil(estimate * ONE));
    }
}

void test_flyby_estimates(void)
{
    test_zeros();
    test_subnormals();
    test_on_and_off_grid();
    test_greatest();
    test_large();
    test_below_zero();
    test_nans();
    test_any();
}
