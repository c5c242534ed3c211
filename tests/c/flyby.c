/*
** flyby.c: bounds of sinh and the two end tests of flybys: numbers that are
** written out, each limit on both sides of it, and over the whole range the
** sums of all the terms and the sinh of the mathematical library.
*/
#include <inttypes.h>
#include <math.h>

#include "flyby.h"

/* Numbers worked out in exact fractions. */
static void test_stated_sinh(void)
{
    sinh_is(HERE, 0, 0, 0, 0);
    sinh_is(HERE, 1, 0, 1, 11);
    sinh_is(HERE, 2, 0, 2, 12);
    sinh_is(HERE, 16384, 0, 16384, 16394);
    sinh_is(HERE, 1000000, 0, 1000002, 1000012);
    sinh_is(HERE, ONE / 2, 0, 139880455, 139880465);
    sinh_is(HERE, ONE - 1, 0, 315465664, 315465675);
    sinh_is(HERE, ONE, 0, 315465666, 315465676);
    sinh_is(HERE, ONE + 1, 0, 315465668, 315465678);
    sinh_is(HERE, ONE / 2 * 3, 0, 571574099, 571574108);
    sinh_is(HERE, TOP - 1, 0, 973577920, 973577930);
    sinh_is(HERE, TOP, 0, 973577924, 973577934);
}

/* 2^29 is taken and what is above is not, such as the T of sine. */
static void test_sinh_limits(void)
{
    sinh_is(HERE, TOP + 1, 10, 0, 0);
    sinh_is(HERE, TOP + 65536, 10, 0, 0);
    sinh_is(HERE, H, 10, 0, 0);
    sinh_is(HERE, T, 10, 0, 0);
    sinh_is(HERE, INT32_MAX, 10, 0, 0);
    sinh_is(HERE, UINT32_C(0x80000000), 10, 0, 0);
    sinh_is(HERE, FAR, 10, 0, 0);
}

/* Small numbers, those around powers of two, and the rest. */
static void test_sums(void)
{
    uint64_t random = 1;
    uint32_t x, power;

    for (x = 0; x < 1 << 20; x += 97)
        sinh_by_rule(HERE, x);
    for (power = 8; power <= TOP; power *= 2)
        for (x = power - 3; x <= power + 3 && x <= TOP; x++)
            sinh_by_rule(HERE, x);
    for (x = TOP - 2000; x <= TOP; x++)
        sinh_by_rule(HERE, x);
    for (x = 0; x < 40000; x++)
        sinh_by_rule(HERE, (uint32_t)(random_bits(&random) % (TOP + 1)));
}

/*
** About the sinh, near each other and growing with x, from one x to the next
** by one unit at least. The library's sinh, in units, is off by far less than
** a thousandth.
*/
static void shape_is(uint32_t x)
{
    struct stripeawn_bounds here = stripeawn_flyby_sinh(x);
    struct stripeawn_bounds next = stripeawn_flyby_sinh(x + 1);
    double value = sinh(x * STRIPEAWN_UNIT) * ONE;

    check(HERE,
          (double)here.lo <= value + 0.001 && value - 0.001 <= (double)here.hi,
          "sinh x=%" PRIu32 " is %f, outside its bounds", x, value);
    check(HERE,
          x == 0 ? here.lo == here.hi
                 : here.lo < here.hi && here.hi - here.lo <= 20,
          "sinh x=%" PRIu32 " has bounds %" PRId64 " and %" PRId64, x,
          here.lo, here.hi);
    check(HERE,
          x == TOP || (here.lo < next.lo && here.hi < next.hi &&
                       next.hi <= INT64_C(1073741824)),
          "sinh x=%" PRIu32 " does not grow", x);
}

static void test_shape(void)
{
    uint32_t x;

    for (x = 0; x < 1000; x++)
        shape_is(x);
    for (x = 1000; x < TOP - 104729; x += 104729)
        shape_is(x);
    for (x = TOP - 1000; x <= TOP; x++)
        shape_is(x);
}

/* A number and a B, with the M from and up to which an end is accepted. */
struct turn {
    uint32_t x, b, lower_from, upper_to;
};

static const struct turn turns[] = {
    { 1, ONE, 10, 0 },
    { 524288, ONE, 10, 0 },
    { ONE, ONE, 47030220, 47030210 },
    { ONE, 2 * ONE, 362495896, 362495876 },
    { ONE / 2, MOST_B, 425304132, 425304092 },
    { TOP, ONE, 436707022, 436707012 },
    { TOP, 2 * ONE, 1410284956, 1410284936 },
};

/* Both tests at one M, 0 or one to either side of where one turns. */
static void ends_at(struct place at, struct turn t, uint32_t m)
{
    struct flyby f = { m, t.b };

    flyby_end_is(at, LOWER, t.x, f, 0, m >= t.lower_from);
    flyby_end_is(at, UPPER, t.x, f, 0, m <= t.upper_to);
}

static void turn_is(struct place at, struct turn t)
{
    ends_at(at, t, t.lower_from - 1);
    ends_at(at, t, t.lower_from);
    ends_at(at, t, t.upper_to);
    ends_at(at, t, t.upper_to + 1);
    ends_at(at, t, 0);
    ends_at(at, t, MOST_M);
}

static void test_stated_turns(void)
{
    size_t i;

    for (i = 0; i < COUNT(turns); i++)
        turn_is(HERE, turns[i]);
}

/* Where each test turns by the rule, as far as M goes. */
static void test_turns(void)
{
    uint64_t random = 2;
    int i, turned = 0;

    for (i = 0; i < 12000; i++) {
        uint32_t x = 1 + (uint32_t)(random_bits(&random) % TOP);
        uint32_t b = random_flyby(&random).b;
        struct stripeawn_bounds sums = plain_sinh(x);
        int64_t from = (b * sums.hi + ONE - 1) / ONE - x;
        struct turn t = { x, b, (uint32_t)from, last_m_above(x, b) };

        if (from > MOST_M)
            continue;
        turn_is(HERE, t);
        turned++;
    }
    check(HERE, turned > 10000, "only %d turns are within M", turned);
}

/* Whatever B is, 0 is a lower end always and an upper end for M = 0 only. */
static void test_at_zero(void)
{
    uint64_t random = 3;
    int i;

    for (i = 0; i < 2000; i++) {
        struct flyby f = random_flyby(&random), still = { 0, f.b };
        uint64_t bits = random_bits(&random);
        uint32_t x = 1 + (uint32_t)(bits % TOP >> (bits >> 32) % 29);

        flyby_end_is(HERE, LOWER, 0, f, 0, 1);
        flyby_end_is(HERE, UPPER, 0, f, 0, f.m == 0);
        flyby_end_is(HERE, LOWER, 0, still, 0, 1);
        flyby_end_is(HERE, UPPER, 0, still, 0, 1);
        flyby_end_is(HERE, LOWER, x, still, 0, 0);
        flyby_end_is(HERE, UPPER, x, still, 0, 1);
    }
}

/* Every edge of x against every edge of M and of B, next ones included. */
static void test_edges(void)
{
    static const uint32_t numbers[] = { 0, 1, 2, 16383, 16384, 16385, 756157,
                                        ONE - 1, ONE, ONE + 1, 432299576,
                                        TOP - 1, TOP };
    static const uint32_t anomalies[] = { 0, 1, 9, 10, 11, 47030210, 47030220,
                                          436707012, 436707022, 1410284936,
                                          1410284956, MOST_M - 1, MOST_M };
    static const uint32_t eccentricities[] = { ONE, ONE + 1, 2 * ONE,
                                               740131757, 740131758,
                                               MOST_B - 1, MOST_B };
    size_t x, m, b;

    for (x = 0; x < COUNT(numbers); x++)
        for (m = 0; m < COUNT(anomalies); m++)
            for (b = 0; b < COUNT(eccentricities); b++) {
                struct flyby f = { anomalies[m], eccentricities[b] };

                ends_by_rule(HERE, numbers[x], f);
            }
}

/* Each limit: the last number that is taken, and those next to it. */
static void test_end_limits(void)
{
    static const struct flyby good = { ONE, ONE }, most = { MOST_M, MOST_B };
    static const struct flyby bad[] = { { MOST_M + 1, ONE }, { FAR, ONE },
                                        { 0, ONE - 1 }, { 0, 0 }, { 0, 1 },
                                        { 0, MOST_B + 1 }, { 0, FAR } };
    static const uint32_t above[] = { TOP + 1, T, INT32_MAX,
                                      UINT32_C(0x80000000), FAR };
    uint32_t upper;
    size_t i;

    for (upper = LOWER; upper <= UPPER; upper++) {
        flyby_end_is(HERE, upper, TOP, good, 0, upper);
        flyby_end_is(HERE, upper, TOP, most, 0, upper);
        for (i = 0; i < COUNT(above); i++) {
            flyby_end_is(HERE, upper, above[i], good, 10, 0);
            flyby_end_is(HERE, upper, above[i], most, 10, 0);
        }
        for (i = 0; i < COUNT(bad); i++)
            flyby_end_is(HERE, upper, 0, bad[i], bad[i].m ? 1 : 2, 0);
    }
}

void test_flyby(void)
{
    test_stated_sinh();
    test_sinh_limits();
    test_sums();
    test_shape();
    test_stated_turns();
    test_turns();
    test_at_zero();
    test_edges();
    test_end_limits();
}
