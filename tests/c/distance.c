/*
** distance.c: how far from the root an estimate certainly is: numbers that
** are written out, and each limit on both sides of it.
**
** Each call with M above 0 goes on to its mirror, and from the grid to
** doubles. Every kind of double as an estimate is in estimates.c, the order
** of codes in order.c, and what holds of all distances in distance_laws.c.
*/
#include <float.h>
#include <math.h>

#include "check.h"

/* M = 0, e = 1: 2^-9 radian has a small residual, and the root is 0. */
static void test_flattered(void)
{
    distance_is(HERE, 0, ONE, 0x1p-9, 0, 524288, 524288);
    distance_is(HERE, 0, ONE, 0x1p-8, 0, 1048576, 1048576);
    distance_is(HERE, 0, ONE, 0.0, 0, 0, 0);
    distance_is(HERE, 0, ONE, -0.0, 0, 0, 0);
    distance_is(HERE, 0, ONE, ABOVE_0, 0, 0, 1);
    distance_is(HERE, 0, ONE, units(1) / 2, 0, 0, 1);
    distance_is(HERE, 0, ONE, units(1), 0, 1, 1);
    distance_is(HERE, 0, ONE, units(3) / 2, 0, 1, 2);
    distance_is(HERE, 0, ONE, units(T), 0, 843314920, 843314920);
    given_distance_is(HERE, doubles(-0.0, 1.0), 0x1p-9, 0, 524288, 524288);
}

/* An estimate of x units, and how far off it is. */
struct row {
    double x;
    uint32_t least, most;
};

static void rows_are(struct place at, int32_t m, uint32_t a,
                     const struct row *rows, size_t count)
{
    size_t i;

    for (i = 0; i < count; i++)
        distance_is(at, m, a, rows[i].x * STRIPEAWN_UNIT, 0, rows[i].least,
                    rows[i].most);
}

/* With A = 0 the root is M, and both ends are. */
static void test_circle(void)
{
    static const struct row rows[] = {
        { 0, 7, 7 }, { 5, 2, 2 },   { 5.5, 1, 2 },  { 6, 1, 1 },
        { 6.5, 0, 1 }, { 7, 0, 0 }, { 7.25, 0, 1 }, { 8, 1, 1 },
        { 8.5, 1, 2 }, { 9, 2, 2 }, { 9.75, 2, 3 },
        { T, 843314913, 843314913 },
    };

    rows_are(HERE, 7, 0, rows, COUNT(rows));
}

/* The enclosure here is 268435450 to 268435461, eleven units. */
static const struct row about_ends[] = {
    { 0, 268435450, 268435461 },
    { 0.5, 268435449, 268435461 },
    { 268435448, 2, 13 },
    { 268435448.5, 1, 13 },
    { 268435449, 1, 12 },
    { 268435449.5, 0, 12 }, /* its c is the lower end, and its f below */
    { 268435450, 0, 11 },
    { 268435450.5, 0, 11 },
    { 268435451, 0, 10 },
    { 268435455, 0, 6 },
    { 268435455.5, 0, 6 },
    { 268435456, 0, 6 },
    { 268435456.5, 0, 7 },
    { 268435460, 0, 10 },
    { 268435460.5, 0, 11 },
    { 268435461, 0, 11 },
    { 268435461.5, 0, 12 }, /* its f is the upper end, and its c above */
    { 268435462, 1, 12 },
    { 268435462.5, 1, 13 },
    { 268435463, 2, 13 },
    { T, 574879459, 574879470 },
};

static void test_about_ends(void)
{
    rows_are(HERE, 42554808, ONE, about_ends, COUNT(about_ends));
}

/* The doubles next to an end count as the units that they lie between. */
static void test_next_to_ends(void)
{
    uint64_t lower = to_bits(units(268435450));
    uint64_t upper = to_bits(units(268435461));

    distance_is(HERE, 42554808, ONE, from_bits(lower - 1), 0, 0, 12);
    distance_is(HERE, 42554808, ONE, from_bits(lower + 1), 0, 0, 11);
    distance_is(HERE, 42554808, ONE, from_bits(upper - 1), 0, 0, 11);
    distance_is(HERE, 42554808, ONE, from_bits(upper + 1), 0, 0, 12);
}

/* Near the parabolic limit the enclosure is 756153 to 952744. */
static void test_wide(void)
{
    static const struct row rows[] = {
        { 0, 756153, 952744 },     { 756151.5, 1, 196593 },
        { 756152.5, 0, 196592 },   { 756153, 0, 196591 },
        { 850000, 0, 102744 },     { 854448, 0, 98296 },
        { 854448.5, 0, 98296 },    { 854449, 0, 98296 },
        { 854449.5, 0, 98297 },    { 952744, 0, 196591 },
        { 952744.5, 0, 196592 },   { 952745.5, 1, 196593 },
        { 1048576, 95832, 292423 }, { T, 842362176, 842558767 },
    };

    rows_are(HERE, 1, ONE, rows, COUNT(rows));
}

/*
** Close to pi, where the lesser depths have no upper end or another one, and
** depth 5 always has one: 843314853 to 843314860, and with the other A and M
** 755614007 to 755614010, which is 755613999 to 755614010 at depth 4.
*/
static void test_depth_5(void)
{
    distance_is(HERE, H, ONE, units(H), 0, 0, 4);
    distance_is(HERE, H, ONE, units(843314850), 0, 3, 10);
    distance_is(HERE, H, ONE, units(T), 0, 60, 67);
    distance_is(HERE, H, ONE, 0.0, 0, 843314853, 843314860);
    distance_is(HERE, -H, ONE, units(-H), 0, 0, 4);
    distance_is(HERE, -H, ONE, -0.0, 0, 843314853, 843314860);
    distance_is(HERE, 734064451, 67147247, units(755614000), 0, 7, 10);
    distance_is(HERE, 734064451, 67147247, units(755614012), 0, 2, 5);
}

/*
** The ends are 218439871 and 218439890, though the judge accepts 218439873 as
** a lower end: most may be above the n of a Confirmed claim.
*/
static void test_confirmed_farther(void)
{
    double estimate = 218439883.5 * STRIPEAWN_UNIT;

    verdict_is(HERE, 23322495, 268435404, estimate, 11, 4, 0, 16);
    distance_is(HERE, 23322495, 268435404, estimate, 0, 0, 13);
}

static void test_anomalies(void)
{
    distance_is(HERE, H, 0, units(H), 0, 0, 0);
    distance_is(HERE, H + 1, 0, units(H), 1, 0, 0);
    distance_is(HERE, INT32_MAX, 0, units(H), 1, 0, 0);
    distance_is(HERE, -H, 0, units(-H + 2), 0, 2, 2);
    distance_is(HERE, -H - 1, 0, units(-H), 1, 0, 0);
    distance_is(HERE, INT32_MIN, 0, units(-H), 1, 0, 0);
}

static void test_eccentricities(void)
{
    distance_is(HERE, 1, ONE, units(850000), 0, 0, 102744);
    distance_is(HERE, 1, ONE + 1, units(850000), 2, 0, 0);
    distance_is(HERE, 1, FAR, units(850000), 2, 0, 0);
    distance_is(HERE, 0, ONE + 1, 0.0, 2, 0, 0);
}

/* For M below 0 by itself: T units are taken, and the next double is not. */
static void test_estimates_below_0(void)
{
    uint64_t bottom = to_bits(units(-T));

    distance_is(HERE, -H, 0, units(-T), 0, 64, 64);
    distance_is(HERE, -H, 0, from_bits(bottom - 1), 0, 63, 64);
    distance_is(HERE, -H, 0, from_bits(bottom + 1), 4, 0, 0);
    distance_is(HERE, -1, 0, -ABOVE_0, 0, 0, 1);
    distance_is(HERE, -1, 0, ABOVE_0, 4, 0, 0);
    distance_is(HERE, -1, 0, units(1), 4, 0, 0);
    distance_is(HERE, -1, 0, 0.0, 0, 1, 1);
    distance_is(HERE, -1, 0, -0.0, 0, 1, 1);
}

/* M of H units in size and e = 1 as doubles, and what is next to them. */
static void test_doubles_at_limits(void)
{
    static const double bad_anomalies[] = { ABOVE_H, PI, 16.0, DBL_MAX,
                                            INFINITY, NAN };
    static const double bad_eccentricities[] = { ABOVE_1, 2.0, DBL_MAX,
                                                 INFINITY, NAN, -ABOVE_0,
                                                 -1.0, -INFINITY };
    size_t i;

    given_distance_is(HERE, doubles(H_DOUBLE, 1.0), units(H), 0, 0, 4);
    given_distance_is(HERE, doubles(BELOW_H, BELOW_1), units(H), 0, 0, 4);
    given_distance_is(HERE, doubles(1.0, -0.0), 1.0, 0, 0, 0);
    for (i = 0; i < COUNT(bad_anomalies); i++)
        given_distance_is(HERE, doubles(bad_anomalies[i], 1.0), units(H), 1,
                          0, 0);
    for (i = 0; i < COUNT(bad_eccentricities); i++)
        given_distance_is(HERE, doubles(H_DOUBLE, bad_eccentricities[i]),
                          units(H), 2, 0, 0);
}

/* Equal inputs have one answer, whatever was asked before. */
static void test_one_answer(void)
{
    size_t i, k;

    for (i = 0; i < COUNT(about_ends); i++)
        for (k = 0; k < COUNT(about_ends); k++) {
            stripeawn_distance(-1, ONE, -about_ends[k].x * STRIPEAWN_UNIT);
            rows_are(HERE, 42554808, ONE, &about_ends[i], 1);
        }
}

void test_distance(void)
{
    test_flattered();
    test_circle();
    test_about_ends();
    test_next_to_ends();
    test_wide();
    test_depth_5();
    test_confirmed_farther();
    test_anomalies();
    test_eccentricities();
    test_estimates_below_0();
    test_doubles_at_limits();
    test_one_answer();
}
