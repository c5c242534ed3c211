/*
** estimates.c: every kind of double as an estimate, on both sides of 0.
**
** With A = 0 the root is M, so that a few verdicts and distances tell the
** whole numbers just below and just above an estimate, its f and c, one by
** one. Each estimate has its mirror judged too, against M below 0.
*/
#include "check.h"
#include "nans.h"

/* Whole estimate: within 0 units of f and of nothing else. */
static void whole(struct place at, double estimate, int32_t f)
{
    verdict_is(at, f, 0, estimate, 0, 1, 0, 16);
    distance_is(at, f, 0, estimate, 0, 0, 0);
    if (f > 0) {
        verdict_is(at, f - 1, 0, estimate, 0, 1, 0, 17);
        distance_is(at, f - 1, 0, estimate, 0, 1, 1);
    }
    if (f < H) {
        verdict_is(at, f + 1, 0, estimate, 0, 1, 0, 17);
        distance_is(at, f + 1, 0, estimate, 0, 1, 1);
    }
}

/* Between f and f + 1: within 0 units of neither, within 1 of both alone. */
static void between(struct place at, double estimate, int32_t f)
{
    verdict_is(at, f, 0, estimate, 0, 1, 0, 17);
    verdict_is(at, f + 1, 0, estimate, 0, 1, 0, 17);
    verdict_is(at, f, 0, estimate, 1, 1, 0, 16);
    verdict_is(at, f + 1, 0, estimate, 1, 1, 0, 16);
    distance_is(at, f, 0, estimate, 0, 0, 1);
    distance_is(at, f + 1, 0, estimate, 0, 0, 1);
    if (f > 0) {
        verdict_is(at, f - 1, 0, estimate, 1, 1, 0, 17);
        distance_is(at, f - 1, 0, estimate, 0, 1, 2);
    }
    if (f + 2 <= H) {
        verdict_is(at, f + 2, 0, estimate, 1, 1, 0, 17);
        distance_is(at, f + 2, 0, estimate, 0, 1, 2);
    }
}

/* Refused beside M = 0 and M above it, and its mirror beside M below. */
static void refused(struct place at, double estimate)
{
    verdict_is(at, 0, 0, estimate, 0, 1, 4, 0);
    verdict_is(at, 1, 0, estimate, 0, 1, 4, 0);
    verdict_is(at, H, ONE, estimate, 65535, 5, 4, 0);
    distance_is(at, 0, 0, estimate, 4, 0, 0);
    distance_is(at, 1, 0, estimate, 4, 0, 0);
    distance_is(at, H, ONE, estimate, 4, 0, 0);
}

/* Either zero is 0 for every M. */
static void test_zeros(void)
{
    static const int32_t anomalies[] = { 0, 1, 2, H };
    size_t i;

    whole(HERE, 0.0, 0);
    whole(HERE, from_bits(SIGN), 0);
    for (i = 0; i < COUNT(anomalies); i++) {
        int32_t m = anomalies[i];
        uint32_t verdict = m <= 1 ? 16 : 17;

        verdict_is(HERE, m, 0, 0.0, 1, 1, 0, verdict);
        verdict_is(HERE, m, 0, from_bits(SIGN), 1, 1, 0, verdict);
        distance_is(HERE, m, 0, 0.0, 0, (uint32_t)m, (uint32_t)m);
        distance_is(HERE, m, 0, from_bits(SIGN), 0, (uint32_t)m,
                    (uint32_t)m);
    }
}

static void test_subnormals(void)
{
    between(HERE, from_bits(1), 0);
    between(HERE, from_bits(2), 0);
    between(HERE, from_bits(UINT64_C(0x0008000000000000)), 0);
    between(HERE, from_bits(UINT64_C(0x000FFFFFFFFFFFFF)), 0);
    between(HERE, from_bits(UINT64_C(0x0010000000000000)), 0);
    refused(HERE, from_bits(SIGN | 1));
    refused(HERE, from_bits(SIGN | UINT64_C(0x000FFFFFFFFFFFFF)));
    refused(HERE, from_bits(SIGN | UINT64_C(0x0010000000000000)));
}

/* Whole units, their halves and the doubles next to them. */
static void test_on_and_off_grid(void)
{
    static const int32_t counts[] = { 1, 2, 3, 1000, 524288, ONE - 1, ONE,
                                      ONE + 1, 421657428, H - 2 };
    size_t i;

    for (i = 0; i < COUNT(counts); i++) {
        int32_t f = counts[i];
        uint64_t bits = to_bits(units(f));

        whole(HERE, units(f), f);
        between(HERE, from_bits(bits + 1), f);
        between(HERE, from_bits(bits - 1), f - 1);
        between(HERE, units(f) + units(1) / 2, f);
        between(HERE, units(f) - units(1) / 4, f - 1);
    }
}

/* T units are taken and the next double is not. */
static void test_greatest(void)
{
    uint64_t top = to_bits(units(T));

    whole(HERE, units(H), H);
    verdict_is(HERE, H, 0, units(T), 64, 1, 0, 16);
    verdict_is(HERE, H, 0, units(T), 63, 1, 0, 17);
    verdict_is(HERE, H, 0, from_bits(top - 1), 64, 1, 0, 16);
    verdict_is(HERE, H, 0, from_bits(top - 1), 63, 1, 0, 17);
    verdict_is(HERE, H, 0, units(T - 1), 63, 1, 0, 16);
    verdict_is(HERE, H, 0, units(T - 1), 62, 1, 0, 17);
    distance_is(HERE, H, 0, units(T), 0, 64, 64);
    distance_is(HERE, H, 0, from_bits(top - 1), 0, 63, 64);
    distance_is(HERE, H, 0, units(T - 1), 0, 63, 63);
    refused(HERE, from_bits(top + 1));
    refused(HERE, units(T + 1));
    refused(HERE, 3.2);
}

/* Far above: 2^4 radian and more would wrap in 32 bits of units. */
static void test_large(void)
{
    refused(HERE, 16.0);
    refused(HERE, 17.0);
    refused(HERE, 68719476736.0);
    refused(HERE, 68719476737.0);
    refused(HERE, 1e300);
    refused(HERE, from_bits(INFINITE - 1));
    refused(HERE, from_bits(INFINITE));
}

/* On the other side of 0 than M; M = 0 takes none below 0. */
static void test_opposing(void)
{
    refused(HERE, -units(1) / 2);
    refused(HERE, -units(1));
    refused(HERE, -1.0);
    refused(HERE, -3.0);
    refused(HERE, -units(T));
    refused(HERE, -units(T + 1));
    refused(HERE, -16.0);
    refused(HERE, from_bits(SIGN | (INFINITE - 1)));
    refused(HERE, from_bits(SIGN | INFINITE));
}

static void test_nans(void)
{
    size_t i;

    for (i = 0; i < NANS; i++)
        refused(HERE, nan_of(i));
}

void test_estimates(void)
{
    test_zeros();
    test_subnormals();
    test_on_and_off_grid();
    test_greatest();
    test_large();
    test_opposing();
    test_nans();
}
