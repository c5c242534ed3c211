/*
** doubles.c: M and e as doubles: every limit on both sides, how they are
** rounded, and numbers worked out with whole numbers of any size.
**
** Each call with M above 0 goes on to its mirror, so that the limits are held
** for both signs. What is on the grid the other files hold for doubles too.
*/
#include <float.h>
#include <math.h>

#include "check.h"
#include "nans.h"

/* Every entry answers with this code and zeros beside it. */
static void refused(struct place at, double m, double e, uint32_t code)
{
    struct stripeawn_proposal none = { code, 0, 0, 0, 0 };
    struct given g = doubles(m, e);

    given_end_is(at, LOWER, 0, g, 5, code, 0);
    given_end_is(at, UPPER, 0, g, 5, code, 0);
    given_enclosure_is(at, g, 5, code, 0, 0);
    given_proposal_is(at, g, none);
    given_verdict_is(at, g, 0.0, 65535, 5, code, 0);
    given_settled_is(at, g, 0.0, 65535, code, 0, 0);
    given_distance_is(at, g, 0.0, code, 0, 0);
}

/* Every entry answers with code 0. */
static void taken(struct place at, double m, double e)
{
    struct given g = doubles(m, e);

    check(at,
          end_of(LOWER, 0, g, 5).code == 0 &&
              end_of(UPPER, 0, g, 5).code == 0 &&
              enclosure_of(g, 5).code == 0 && proposal_of(g).code == 0 &&
              verdict_of(g, 0.0, 0, 5).code == 0 &&
              settled_of(g, 0.0, 0).code == 0 &&
              distance_of(g, 0.0).code == 0,
          "m=%a e=%a is refused", m, e);
    if (m > 0)
        taken(at, -m, e);
}

static void test_limits(void)
{
    static const double eccentricities[] = { 0.0, -0.0, ABOVE_0, 1e-300, 0.5,
                                             BELOW_1, 1.0 };
    static const double anomalies[] = { 0.0, -0.0, ABOVE_0, 1e-300, 1.0,
                                        BELOW_H, H_DOUBLE };
    static const double bad_eccentricities[] = {
        ABOVE_1, 1 + STRIPEAWN_UNIT, 2.0, 16.0, DBL_MAX, INFINITY, -INFINITY,
        -DBL_MAX, -1.0, -ABOVE_1, -STRIPEAWN_UNIT, -1e-300, -ABOVE_0
    };
    static const double bad_anomalies[] = { ABOVE_H, PI, 3.2, 6.0, 16.0,
                                            360.0, DBL_MAX, INFINITY };
    size_t i, k;

    for (i = 0; i < COUNT(anomalies); i++) {
        for (k = 0; k < COUNT(eccentricities); k++)
            taken(HERE, anomalies[i], eccentricities[k]);
        for (k = 0; k < COUNT(bad_eccentricities); k++)
            refused(HERE, anomalies[i], bad_eccentricities[k], 2);
    }
    for (i = 0; i < COUNT(bad_anomalies); i++) {
        for (k = 0; k < COUNT(eccentricities); k++)
            refused(HERE, bad_anomalies[i], eccentricities[k], 1);
        for (k = 0; k < COUNT(bad_eccentricities); k++)
            refused(HERE, bad_anomalies[i], bad_eccentricities[k], 1);
    }
}

/* Quiet and signalling, of both signs: a code, and never taken for 0. */
static void test_nans(void)
{
    size_t i;

    for (i = 0; i < NANS; i++) {
        double nan = nan_of(i);

        refused(HERE, nan, 0.0, 1);
        refused(HERE, nan, 1.0, 1);
        refused(HERE, nan, nan, 1);
        refused(HERE, 0.0, nan, 2);
        refused(HERE, 1.0, nan, 2);
        refused(HERE, -1.0, nan, 2);
        given_verdict_is(HERE, doubles(0.1, 0.9), nan, 0, 5, 4, 0);
        given_distance_is(HERE, doubles(0.1, 0.9), nan, 4, 0, 0);
    }
}

/* Depths, angles and tolerances at their limits and past them. */
static void test_other_limits(void)
{
    struct given g = doubles(0.1, 0.9);

    given_enclosure_is(HERE, g, 0, 3, 0, 0);
    given_enclosure_is(HERE, g, 6, 3, 0, 0);
    given_end_is(HERE, LOWER, 0, g, 0, 3, 0);
    given_end_is(HERE, LOWER, 0, g, 1, 0, 1);
    given_end_is(HERE, UPPER, T, g, 5, 0, 1);
    given_end_is(HERE, UPPER, T, g, 6, 3, 0);
    given_end_is(HERE, UPPER, T + 1, g, 5, 10, 0);
    given_end_is(HERE, LOWER, T + 1, g, 1, 10, 0);
    given_end_is(HERE, LOWER, -1, g, 1, 10, 0);
    given_verdict_is(HERE, g, 0.0, 0, 0, 3, 0);
    given_verdict_is(HERE, g, 0.0, 0, 1, 0, 17);
    given_verdict_is(HERE, g, 0.0, 65535, 5, 0, 17);
    given_verdict_is(HERE, g, 0.0, 65536, 5, 5, 0);
    given_verdict_is(HERE, g, 0.0, 0, 6, 3, 0);
}

/* The same of estimates; the enclosure is 169340758 to 169340780. */
static void test_limits_of_estimates(void)
{
    struct given g = doubles(0.1, 0.9);
    double past = from_bits(to_bits(units(T)) + 1);

    given_verdict_is(HERE, g, units(T), 0, 5, 0, 17);
    given_verdict_is(HERE, g, past, 0, 5, 4, 0);
    given_verdict_is(HERE, g, -ABOVE_0, 0, 5, 4, 0);
    given_verdict_is(HERE, g, -0.0, 0, 5, 0, 17);
    given_verdict_is(HERE, g, INFINITY, 0, 5, 4, 0);
    given_distance_is(HERE, g, units(T), 0, 673974140, 673974162);
    given_distance_is(HERE, g, past, 4, 0, 0);
    given_distance_is(HERE, g, -ABOVE_0, 4, 0, 0);
    given_distance_is(HERE, g, -0.0, 0, 169340758, 169340780);
    given_distance_is(HERE, g, ABOVE_0, 0, 169340757, 169340780);
    given_distance_is(HERE, g, INFINITY, 4, 0, 0);
}

/* Less than a unit from 0, M still has a side; with e = 0 the root is M. */
static void test_sides(void)
{
    static const double small[] = { ABOVE_0, 1e-300, STRIPEAWN_UNIT / 2 };
    size_t i;

    for (i = 0; i < COUNT(small); i++) {
        struct given g = doubles(small[i], 0.0);

        given_end_is(HERE, LOWER, -1, g, 1, 10, 0);
        given_end_is(HERE, UPPER, -1, g, 1, 10, 0);
        given_end_is(HERE, LOWER, 0, g, 1, 0, 1);
        given_end_is(HERE, UPPER, 0, g, 1, 0, 0);
        given_end_is(HERE, LOWER, 1, g, 1, 0, 0);
        given_end_is(HERE, UPPER, 1, g, 1, 0, 1);
        given_enclosure_is(HERE, g, 1, 0, 0, 1);
        given_verdict_is(HERE, g, -small[i], 1, 1, 4, 0);
        given_verdict_is(HERE, g, small[i], 1, 1, 0, 16);
        given_verdict_is(HERE, g, small[i], 0, 1, 0, 18);
        given_verdict_is(HERE, g, -0.0, 1, 1, 0, 16);
        given_distance_is(HERE, g, -small[i], 4, 0, 0);
        given_distance_is(HERE, g, small[i], 0, 0, 1);
        given_distance_is(HERE, g, -0.0, 0, 0, 1);
        given_distance_is(HERE, g, units(2), 0, 1, 2);
    }
}

/* Both zeros are 0, and not below it. */
static void test_zeros(void)
{
    static const double zeros[] = { 0.0, -0.0 };
    size_t i, k;

    for (i = 0; i < 2; i++)
        for (k = 0; k < 2; k++) {
            struct given g = doubles(zeros[i], zeros[k]);

            given_end_is(HERE, LOWER, -1, g, 1, 10, 0);
            given_end_is(HERE, UPPER, 1, g, 1, 0, 1);
            given_end_is(HERE, UPPER, 0, g, 1, 0, 1);
            given_enclosure_is(HERE, g, 1, 0, 0, 0);
            given_verdict_is(HERE, g, -ABOVE_0, 0, 1, 4, 0);
            given_verdict_is(HERE, g, zeros[k], 0, 1, 0, 16);
            given_distance_is(HERE, g, -ABOVE_0, 4, 0, 0);
            given_distance_is(HERE, g, zeros[k], 0, 0, 0);
            given_distance_is(HERE, g, ABOVE_0, 0, 0, 1);
        }
}

/* With e = 0 the enclosure is M rounded down and up, whatever the depth. */
static void test_rounding(void)
{
    static const struct {
        double m;
        int32_t down, up;
    } rounded[] = {
        { 0x1p-28, 1, 1 },
        { 0x1.0000000000001p-28, 1, 2 },
        { 0x1.fffffffffffffp-29, 0, 1 },
        { 0.1, 26843545, 26843546 },
        { 0x1.fffffffcp-2, 134217727, 134217728 },
        { 1.0, ONE, ONE },
        { ABOVE_1, ONE, ONE + 1 },
        { BELOW_1, ONE - 1, ONE },
        { 3.0, 805306368, 805306368 },
        { 3.1, 832149913, 832149914 },
        { BELOW_H, H - 1, H },
        { H_DOUBLE, H, H },
    };
    uint32_t depth;
    size_t i;

    for (i = 0; i < COUNT(rounded); i++)
        for (depth = 1; depth <= 5; depth++)
            given_enclosure_is(HERE, doubles(rounded[i].m, 0.0), depth, 0,
                               rounded[i].down, rounded[i].up);
}

void test_doubles(void)
{
    test_limits();
    test_nans();
    test_other_limits();
    test_limits_of_estimates();
    test_sides();
    test_zeros();
    test_rounding();
}
