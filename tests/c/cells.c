/*
** cells.c: doubles off the grid: which corner of their cell each test goes
** by, and numbers worked out with whole numbers of any size.
*/
#include <math.h>

#include "check.h"

/* An end is accepted at m and a, not one m further in, nor at a + step. */
struct turn {
    int upper;
    int32_t x;
    uint32_t depth;
    int32_t m;
    uint32_t a;
    int step;
};

/* The A that counts changes with the sign of the bound of sine at x. */
static const struct turn turns[] = {
    { LOWER, ONE, 5, 60000000, 247703679, -1 },
    { LOWER, ONE, 1, 60000000, 250122548, -1 },
    { LOWER, 400000000, 3, 200000000, 200652707, -1 },
    { LOWER, 20000000, 5, 1000000, 255249790, -1 },
    { LOWER, 700000000, 1, 720000000, 57513541, 1 },
    { LOWER, 843314000, 2, H, 11380, 1 },
    { LOWER, 843314854, 5, H, ONE / 2, 1 },
    { UPPER, ONE, 5, 60000000, 247703671, 1 },
    { UPPER, ONE, 1, 60000000, 247646084, 1 },
    { UPPER, 400000000, 3, 200000000, 200652696, 1 },
    { UPPER, 20000000, 5, 1000000, 255249750, 1 },
    { UPPER, 700000000, 1, 620000000, 121742424, 1 },
    { UPPER, 760000000, 2, 740000000, 65010205, 1 },
    { UPPER, 843314000, 2, 843312000, 288666, 1 },
};

/* What is accepted stays so in the cells that end there, and in no other. */
static void turns_at(struct turn t)
{
    int m_step = t.upper ? 1 : -1;
    struct given at = as_doubles(grid(t.m, t.a));
    double m[2], e[2];
    int i, k;

    for (i = 0; i < 2; i++) { /* 0 the way it stays accepted, 1 the other */
        m[i] = nextafter(at.m, i ? 4.0 * m_step : -4.0 * m_step);
        e[i] = nextafter(at.e, i ? 2.0 * t.step : -2.0 * t.step);
        if (fabs(m[i]) <= units(H))
            given_end_is(HERE, t.upper, t.x, doubles(m[i], at.e), t.depth, 0,
                         !i);
        given_end_is(HERE, t.upper, t.x, doubles(at.m, e[i]), t.depth, 0, !i);
    }
    for (i = 0; i < 2; i++)
        for (k = 0; k < 2; k++)
            if (fabs(m[i]) <= units(H))
                given_end_is(HERE, t.upper, t.x, doubles(m[i], e[k]), t.depth,
                             0, !i && !k);
}

static void test_turns(void)
{
    size_t i;

    for (i = 0; i < COUNT(turns); i++) {
        struct turn t = turns[i];

        given_end_is(HERE, t.upper, t.x, grid(t.m, t.a), t.depth, 0, 1);
        given_end_is(HERE, t.upper, t.x, grid(t.m, t.a + t.step), t.depth, 0,
                     0);
        turns_at(t);
    }
}

/* Enclosures by depth, a code 6 as two zeros, and the proposal. */
static const struct {
    double m, e;
    int32_t ends[5][2];
    struct stripeawn_proposal proposal;
} stated[] = {
    { 0.1, 0.9,
      { { 168624882, 169347715 }, { 169340723, 169340780 },
        { 169340758, 169340780 }, { 169340758, 169340780 },
        { 169340758, 169340780 } },
      { 0, 169340770, 142497227, 195092774, 4 } },
    { 2.5, 0.3,
      { { 665943297, 721112093 }, { 708545618, 709639323 },
        { 709568953, 709572105 }, { 709571997, 709572003 },
        { 709571999, 709572003 } },
      { 0, 709572012, 38483354, -70740472, 4 } },
    { 3.14, 0.99,
      { { 0, 0 }, { 0, 0 }, { 843040818, 843102836 },
        { 843099914, 843100026 }, { 843100016, 843100024 } },
      { 0, 843100032, 212671, -265751012, 4 } },
    { 0.1, 0.5,
      { { 53336149, 53336831 }, { 53336826, 53336831 },
        { 53336826, 53336831 }, { 53336826, 53336831 },
        { 53336826, 53336831 } },
      { 0, 53336818, 26493276, 131576988, 4 } },
    { 1e-6, 0.999999,
      { { 4844640, 4863013 }, { 4844640, 4863013 }, { 4844640, 4863013 },
        { 4844640, 4863013 }, { 4844640, 4863013 } },
      { 0, 4816858, 4816590, 268391960, 16 } },
    { 1e-300, 1.0,
      { { 0, 952744 }, { 0, 952744 }, { 0, 952744 }, { 0, 952744 },
        { 0, 952744 } },
      { 0, 0, -1048514, 268433403, 20 } },
    { ABOVE_0, ABOVE_0,
      { { 0, 2 }, { 0, 2 }, { 0, 2 }, { 0, 2 }, { 0, 2 } },
      { 0, 0, 0, 0, 1 } },
    { BELOW_H, BELOW_1,
      { { 0, 0 }, { 0, 0 }, { 0, 0 }, { 843314749, 843314862 },
        { 843314853, 843314860 } },
      { 0, 843314850, 5, -268435462, 4 } },
    { BELOW_H, ABOVE_0,
      { { 843314852, 843314857 }, { 843314854, 843314857 },
        { 843314854, 843314857 }, { 843314854, 843314857 },
        { 843314854, 843314857 } },
      { 0, 843314850, 0, 0, 3 } },
};

static void test_stated(void)
{
    uint32_t depth;
    size_t i;

    for (i = 0; i < COUNT(stated); i++) {
        struct given g = doubles(stated[i].m, stated[i].e);

        for (depth = 1; depth <= 5; depth++) {
            const int32_t *ends = stated[i].ends[depth - 1];

            given_enclosure_is(HERE, g, depth, ends[1] != 0 ? 0 : 6, ends[0],
                               ends[1]);
        }
        given_proposal_is(HERE, g, stated[i].proposal);
    }
}

/* The enclosure at 0.1, 0.9 is 169340758 to 169340780 from depth 3 on. */
static void test_stated_verdicts(void)
{
    struct given g = doubles(0.1, 0.9);

    given_verdict_is(HERE, g, units(169340769), 11, 5, 0, 16);
    given_verdict_is(HERE, g, units(169340769), 10, 5, 0, 18);
    given_verdict_is(HERE, g, units(169340769) + 1e-12, 11, 5, 0, 18);
    given_verdict_is(HERE, g, units(169340769), 11, 2, 0, 18);
    given_verdict_is(HERE, g, units(169340792), 11, 5, 0, 17);
    given_verdict_is(HERE, g, units(169340791), 11, 5, 0, 18);
    given_verdict_is(HERE, g, units(169340746), 11, 5, 0, 17);
    given_verdict_is(HERE, g, units(169340747), 11, 5, 0, 18);
    given_settled_is(HERE, g, units(169340769), 11, 0, 16, 3);
    given_settled_is(HERE, g, units(169340769), 10, 0, 18, 5);
    given_settled_is(HERE, g, units(169340792), 11, 0, 17, 2);
    given_settled_is(HERE, g, units(169340746), 11, 0, 17, 3);
}

/* Estimates about the same enclosure, in whole units and between them. */
static void test_stated_distances(void)
{
    struct given g = doubles(0.1, 0.9);

    given_distance_is(HERE, g, units(169340769), 0, 0, 11);
    given_distance_is(HERE, g, units(169340769) + 1e-12, 0, 0, 12);
    given_distance_is(HERE, g, units(169340792), 0, 12, 34);
    given_distance_is(HERE, g, units(169340792) - 1e-12, 0, 11, 34);
    given_distance_is(HERE, g, units(169340746), 0, 12, 34);
    given_distance_is(HERE, g, units(169340746) + 1e-12, 0, 11, 34);
    given_distance_is(HERE, g, units(169340758) - 1e-12, 0, 0, 23);
    given_distance_is(HERE, g, units(169340780) + 1e-12, 0, 0, 23);
    given_distance_is(HERE, doubles(1e-300, 1.0), 1e-300, 0, 0, 952744);
    given_distance_is(HERE, doubles(BELOW_H, BELOW_1), BELOW_H, 0, 0, 5);
}

void test_cells(void)
{
    test_turns();
    test_stated();
    test_stated_verdicts();
    test_stated_distances();
}
