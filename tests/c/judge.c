/*
** judge.c: verdicts on estimates.
*/
#include "check.h"

/* A small residual is no proof: 2^-9 radian at M = 0, e = 1. */
static void test_flattered(void)
{
    uint32_t depth;

    for (depth = 1; depth <= 5; depth++)
        verdict_is(HERE, 0, ONE, units(524288), 1000, depth, 0, 18);
    verdict_is(HERE, 0, ONE, units(1048576), 1000, 5, 0, 17);
}

/* Confirmed at tolerance 0, Undecided at 1. */
static void test_wider_loses(void)
{
    verdict_is(HERE, 0, ONE, 0.0, 0, 5, 0, 16);
    verdict_is(HERE, 0, ONE, 0.0, 1, 5, 0, 18);
    verdict_is(HERE, 0, ONE, 0.0, 0, 1, 0, 16);
    verdict_is(HERE, 0, ONE, 0.0, 1, 1, 0, 18);
}

/* With A = 0 the root is M, and a tolerance reaches it or does not. */
static void test_reach(void)
{
    static const int32_t tolerances[] = { 0, 1, 2, 1000, 65534, 65535 };
    int32_t m = 400000000;
    size_t i;

    for (i = 0; i < COUNT(tolerances); i++) {
        int32_t n = tolerances[i];

        verdict_is(HERE, m, 0, units(m - n), n, 1, 0, 16);
        verdict_is(HERE, m, 0, units(m - n - 1), n, 1, 0, 17);
        verdict_is(HERE, m, 0, units(m + n), n, 1, 0, 16);
        verdict_is(HERE, m, 0, units(m + n + 1), n, 1, 0, 17);
    }
}

/* Off the grid the nearer whole unit must not help: half a unit too far. */
static void test_reach_off_grid(void)
{
    int32_t m = 400000000, n;
    double half = units(1) / 2;

    for (n = 0; n < 4; n++) {
        verdict_is(HERE, m, 0, units(m + n) + half, n, 1, 0, 17);
        verdict_is(HERE, m, 0, units(m - n) - half, n, 1, 0, 17);
        verdict_is(HERE, m, 0, units(m + n) - half, n, 1, 0, n ? 16 : 17);
        verdict_is(HERE, m, 0, units(m - n) + half, n, 1, 0, n ? 16 : 17);
    }
}

/* A tolerance that reaches to 0 or past it. */
static void test_clamp_low(void)
{
    verdict_is(HERE, 0, 0, units(5), 5, 1, 0, 16);
    verdict_is(HERE, 0, 0, units(5), 6, 1, 0, 16);
    verdict_is(HERE, 0, 0, units(5), 65535, 1, 0, 16);
    verdict_is(HERE, 0, 0, units(5), 4, 1, 0, 17);
    verdict_is(HERE, 0, 0, units(1), 0, 1, 0, 17);
    verdict_is(HERE, 3, 0, units(1), 2, 1, 0, 16);
    verdict_is(HERE, 3, 0, units(1), 1, 1, 0, 17);
    verdict_is(HERE, 0, ONE, units(2), 2, 5, 0, 18);
    verdict_is(HERE, 0, ONE, units(2), 3, 5, 0, 18);
}

/* A tolerance that reaches to T or past it. */
static void test_clamp_high(void)
{
    verdict_is(HERE, H, 0, units(H), 63, 1, 0, 16);
    verdict_is(HERE, H, 0, units(H), 64, 1, 0, 16);
    verdict_is(HERE, H, 0, units(H), 65, 1, 0, 16);
    verdict_is(HERE, H, 0, units(T), 64, 1, 0, 16);
    verdict_is(HERE, H, 0, units(T), 63, 1, 0, 17);
    verdict_is(HERE, H, 0, units(T), 65535, 1, 0, 16);
    verdict_is(HERE, H - 65471, 0, units(T), 65535, 1, 0, 16);
    verdict_is(HERE, H - 65472, 0, units(T), 65535, 1, 0, 17);
    verdict_is(HERE, H, ONE, units(T), 1000, 1, 0, 18);
    verdict_is(HERE, H, ONE, units(T), 1000, 5, 0, 16);
}

/* The enclosure here is 268435450 to 268435461 at depth 5. */
static void test_at_the_enclosure(void)
{
    int32_t m = 42554808;

    verdict_is(HERE, m, ONE, units(268435455), 6, 5, 0, 16);
    verdict_is(HERE, m, ONE, units(268435455), 5, 5, 0, 18);
    verdict_is(HERE, m, ONE, units(268435465), 15, 5, 0, 16);
    verdict_is(HERE, m, ONE, units(268435465), 4, 5, 0, 18);
    verdict_is(HERE, m, ONE, units(268435465), 3, 5, 0, 17);
    verdict_is(HERE, m, ONE, units(268435446), 15, 5, 0, 16);
    verdict_is(HERE, m, ONE, units(268435446), 4, 5, 0, 18);
    verdict_is(HERE, m, ONE, units(268435446), 3, 5, 0, 17);
}

/* Settled at one depth, the same at every greater one. */
static void test_depths(void)
{
    static const uint32_t wanted[5] = { 18, 16, 16, 16, 16 };
    static const uint32_t far_off[5] = { 18, 17, 17, 17, 17 };
    uint32_t depth;

    for (depth = 1; depth <= 5; depth++) {
        verdict_is(HERE, 42554808, ONE, units(268435456), 2000, depth, 0,
                   wanted[depth - 1]);
        verdict_is(HERE, 42554808, ONE, units(268335456), 2000, depth, 0,
                   far_off[depth - 1]);
        verdict_is(HERE, 42554808, ONE, units(300000000), 2000, depth, 0, 17);
    }
}

static void test_limits(void)
{
    verdict_is(HERE, H, 0, units(H), 0, 1, 0, 16);
    verdict_is(HERE, H + 1, 0, units(H), 0, 1, 1, 0);
    verdict_is(HERE, INT32_MAX, 0, units(H), 0, 1, 1, 0);
    verdict_is(HERE, INT32_MIN, 0, -units(H), 0, 1, 1, 0);
    verdict_is(HERE, 0, ONE, 0.0, 0, 1, 0, 16);
    verdict_is(HERE, 0, ONE + 1, 0.0, 0, 1, 2, 0);
    verdict_is(HERE, 0, 0, 0.0, 0, 0, 3, 0);
    verdict_is(HERE, 0, 0, 0.0, 0, 5, 0, 16);
    verdict_is(HERE, 0, 0, 0.0, 0, 6, 3, 0);
    verdict_is(HERE, 0, 0, 0.0, 0, 257, 3, 0);
    verdict_is(HERE, 0, 0, 0.0, 65535, 1, 0, 16);
    verdict_is(HERE, 0, 0, 0.0, 65536, 1, 5, 0);
    verdict_is(HERE, 0, 0, 0.0, FAR, 1, 5, 0);
}

void test_judge(void)
{
    test_flattered();
    test_wider_loses();
    test_reach();
    test_reach_off_grid();
    test_clamp_low();
    test_clamp_high();
    test_at_the_enclosure();
    test_depths();
    test_limits();
}
