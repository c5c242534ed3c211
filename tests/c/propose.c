/*
** propose.c: the shift-and-add proposal and its certificate.
*/
#include <math.h>

#include "check.h"

struct stated {
    int32_t m;
    uint32_t a;
    struct stripeawn_proposal wanted;
};

/* Numbers worked out with whole numbers of any size. */
static const struct stated stated[] = {
    { 0, 0, { 0, 0, 0, 0, 0 } },
    { 1, 0, { 0, 0, 0, 0, 0 } },
    { H, 0, { 0, 843314850, 0, 0, 3 } },
    { 0, 1, { 0, 0, 0, 0, 0 } },
    { 1, 1, { 0, 0, 0, 0, 1 } },
    { H, 1, { 0, 843314850, 0, 0, 3 } },
    { 1, ONE, { 0, 1048514, 1048514, 268433424, 19 } },
    { 2, ONE, { 0, 1048514, 1048514, 268433424, 17 } },
    { H - 1, ONE, { 0, 843314850, 3, -268435464, 4 } },
    { H, ONE, { 0, 843314850, 3, -268435464, 4 } },
    { 1000, ONE - 1, { 0, 7569260, 7568261, 268328751, 14 } },
    { 3, ONE - 4000, { 0, 393158, 393156, 268431172, 18 } },
    { 42554808, ONE, { 0, 268435460, 225880650, 145036293, 4 } },
    { 421657428, ONE / 2, { 0, 542502662, 120845242, -58402269, 4 } },
    { 100000000, 241591910, { 0, 326602754, 226602763, 83772525, 5 } },
    { 734064451, 67147247, { 0, 755614010, 21549555, -63595354, 3 } },
    { ONE, ONE / 4, { 0, 331821120, 63385661, 22042174, 2 } },
    { 700000000, 200000000, { 0, 760633190, 60633187, -190587555, 2 } },
};

/* The rotations end at -1048514 here; E is brought up to 0, y stays. */
static const struct stated below_zero[] = {
    { 0, ONE, { 0, 0, -1048514, 268433403, 20 } },
    { 0, ONE - 1, { 0, 0, -1048514, 268433400, 20 } },
};

static const struct stated refused[] = {
    { H + 1, 0, { 1, 0, 0, 0, 0 } },
    { INT32_MAX, ONE, { 1, 0, 0, 0, 0 } },
    { INT32_MIN, ONE, { 1, 0, 0, 0, 0 } },
    { 0, ONE + 1, { 2, 0, 0, 0, 0 } },
    { H, FAR, { 2, 0, 0, 0, 0 } },
    { H + 1, ONE + 1, { 1, 0, 0, 0, 0 } },
};

static void test_table(const struct stated *table, size_t count)
{
    size_t i;

    for (i = 0; i < count; i++)
        proposal_is(HERE, table[i].m, table[i].a, table[i].wanted);
}

/*
** Whether the width 2^j around the angle is accepted at depth 5. No end goes
** past 0 or past T, on the side of M.
*/
static int certified(int32_t angle, struct given g, uint32_t j)
{
    int32_t width = INT32_C(1) << j;
    int32_t least = g.m < 0 ? -T : 0, greatest = g.m < 0 ? 0 : T;
    int32_t low = angle - least > width ? angle - width : least;
    int32_t high = greatest - angle > width ? angle + width : greatest;

    return end_of(LOWER, low, g, 5).accepted &&
           end_of(UPPER, high, g, 5).accepted;
}

/* By the library's own end tests: j is accepted and no smaller one is. */
static void smallest_certificate(struct given g)
{
    struct stripeawn_proposal got = proposal_of(g);
    int32_t size = g.m < 0 ? -got.angle : got.angle;
    uint32_t j;

    check(HERE, got.code == 0 && size >= 0 && size <= T && got.j <= 30,
          "propose m=%.17g e=%.17g", g.m, g.e);
    for (j = 0; j <= got.j && j <= 30; j++)
        check(HERE, certified(got.angle, g, j) == (j == got.j),
              "certificate %lu of m=%.17g e=%.17g is not the smallest",
              (unsigned long)got.j, g.m, g.e);
}

static void test_smallest_certificate(void)
{
    uint64_t random = 5;
    uint32_t a, i;
    int32_t m;

    for (m = 0; m <= H; m += 30000001)
        for (a = 0; a <= ONE; a += ONE / 16) {
            smallest_certificate(grid(m, a));
            smallest_certificate(grid(-m, a));
        }
    for (i = 0; i < 4000; i++)
        smallest_certificate(random_doubles(&random));
}

/*
** The rotations take the size of M and A rounded down: on the grid all but j
** is the same there.
*/
static void test_rounded_down(void)
{
    uint64_t random = 6;
    uint32_t i;

    for (i = 0; i < 4000; i++) {
        struct given g = random_doubles(&random);
        double m = fabs(g.m);
        struct stripeawn_proposal wanted =
            stripeawn_propose((int32_t)(m * ONE), (uint32_t)(g.e * ONE));

        wanted.j = proposal_of(g).j;
        given_proposal_is(HERE, doubles(m, g.e), wanted);
    }
}

void test_propose(void)
{
    test_table(stated, COUNT(stated));
    test_table(below_zero, COUNT(below_zero));
    test_table(refused, COUNT(refused));
    test_smallest_certificate();
    test_rounded_down();
}
