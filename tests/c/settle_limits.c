/*
** settle_limits.c: the judge that takes no depth at each limit, on both sides
** of it, with zeros beside every code.
**
** With A = 0 the root is M, which depth 1 knows. Each call with M above 0
** goes on to its mirror, and from the grid to doubles.
*/
#include <float.h>
#include <math.h>

#include "check.h"

/* A code and zeros beside it. */
static void refused(struct place at, struct given g, double estimate,
                    uint32_t n, uint32_t code)
{
    given_settled_is(at, g, estimate, n, code, 0, 0);
}

static void test_anomalies(void)
{
    settled_is(HERE, H, 0, units(H), 0, 0, 16, 1);
    settled_is(HERE, H + 1, 0, units(H), 0, 1, 0, 0);
    settled_is(HERE, INT32_MAX, 0, units(H), 0, 1, 0, 0);
    settled_is(HERE, -H, 0, units(-H), 0, 0, 16, 1);
    settled_is(HERE, -H - 1, 0, units(-H), 0, 1, 0, 0);
    settled_is(HERE, INT32_MIN, 0, units(-H), 0, 1, 0, 0);
}

static void test_eccentricities(void)
{
    settled_is(HERE, H, ONE, units(H), 10, 0, 16, 5);
    settled_is(HERE, H, ONE + 1, units(H), 10, 2, 0, 0);
    settled_is(HERE, H, FAR, units(H), 10, 2, 0, 0);
}

static void test_tolerances(void)
{
    settled_is(HERE, 65535, 0, 0.0, 65534, 0, 17, 1);
    settled_is(HERE, 65535, 0, 0.0, 65535, 0, 16, 1);
    settled_is(HERE, 65535, 0, 0.0, 65536, 5, 0, 0);
    settled_is(HERE, 65535, 0, 0.0, FAR, 5, 0, 0);
}

/* T units are taken, and the next double is not. */
static void test_greatest_estimate(void)
{
    uint64_t top = to_bits(units(T)), bottom = to_bits(units(-T));

    settled_is(HERE, H, 0, units(T), 64, 0, 16, 1);
    settled_is(HERE, H, 0, units(T), 63, 0, 17, 1);
    settled_is(HERE, H, 0, from_bits(top + 1), 64, 4, 0, 0);
    settled_is(HERE, -H, 0, units(-T), 64, 0, 16, 1);
    settled_is(HERE, -H, 0, units(-T), 63, 0, 17, 1);
    settled_is(HERE, -H, 0, from_bits(bottom + 1), 64, 4, 0, 0);
}

/* Next to 0: either zero is 0, and what opposes M is refused. */
static void test_least_estimates(void)
{
    static const int32_t anomalies[] = { 0, 1 };
    size_t i;

    for (i = 0; i < COUNT(anomalies); i++) {
        int32_t m = anomalies[i];
        uint32_t at_zero = m == 0 ? 16 : 17;

        settled_is(HERE, m, 0, 0.0, 0, 0, at_zero, 1);
        settled_is(HERE, m, 0, -0.0, 0, 0, at_zero, 1);
        settled_is(HERE, m, 0, ABOVE_0, 0, 0, 17, 1);
        settled_is(HERE, m, 0, ABOVE_0, 1, 0, 16, 1);
        settled_is(HERE, m, 0, DBL_MIN - ABOVE_0, 1, 0, 16, 1);
        settled_is(HERE, m, 0, -ABOVE_0, 1, 4, 0, 0);
        settled_is(HERE, m, 0, -DBL_MIN, 1, 4, 0, 0);
        settled_is(HERE, m, 0, units(-1), 1, 4, 0, 0);
    }
    settled_is(HERE, -1, 0, ABOVE_0, 1, 4, 0, 0);
    settled_is(HERE, -1, 0, -ABOVE_0, 1, 0, 16, 1);
}

/* Quiet and signalling NaNs and infinities of both signs, in each place. */
static void test_no_numbers(void)
{
    static const uint64_t payloads[] = {
        UINT64_C(0), UINT64_C(0x0000000000000001),
        UINT64_C(0x0008000000000000), UINT64_C(0x000FFFFFFFFFFFFF),
    };
    size_t i;

    for (i = 0; i < 2 * COUNT(payloads); i++) {
        uint64_t sign = i % 2 ? SIGN : 0;
        double none = from_bits(sign | INFINITE | payloads[i / 2]);

        settled_is(HERE, 0, 0, none, 0, 4, 0, 0);
        settled_is(HERE, H, ONE, none, 65535, 4, 0, 0);
        refused(HERE, doubles(0.1, 0.9), none, 0, 4);
        refused(HERE, doubles(none, 0.9), 0.0, 0, 1);
        refused(HERE, doubles(0.1, none), 0.0, 0, 2);
        refused(HERE, doubles(none, none), none, FAR, 1);
        refused(HERE, doubles(0.1, none), none, FAR, 2);
        refused(HERE, doubles(0.1, 0.9), none, FAR, 4);
    }
}

/* M of H units in size and e = 1 as doubles, and what is next to them. */
static void test_doubles_at_limits(void)
{
    static const double bad_anomalies[] = { ABOVE_H, PI, 3.2, 16.0, DBL_MAX };
    static const double bad_eccentricities[] = { ABOVE_1, 2.0, DBL_MAX,
                                                 -ABOVE_0, -1.0, -DBL_MAX };
    size_t i;

    given_settled_is(HERE, doubles(H_DOUBLE, 1.0), units(H), 10, 0, 16, 5);
    given_settled_is(HERE, doubles(BELOW_H, 1.0), units(H), 10, 0, 16, 5);
    given_settled_is(HERE, doubles(H_DOUBLE, BELOW_1), units(H), 10, 0, 16,
                     5);
    given_settled_is(HERE, doubles(1.0, -0.0), 1.0, 0, 0, 16, 1);
    given_settled_is(HERE, doubles(-0.0, 0.0), 0.0, 0, 0, 16, 1);
    for (i = 0; i < COUNT(bad_anomalies); i++)
        refused(HERE, doubles(bad_anomalies[i], 1.0), units(H), 10, 1);
    for (i = 0; i < COUNT(bad_eccentricities); i++)
        refused(HERE, doubles(H_DOUBLE, bad_eccentricities[i]), units(H), 10,
                2);
}

/* Less than a unit from 0 a double M has a side, and either zero has one. */
static void test_sides(void)
{
    static const double small[] = { ABOVE_0, 1e-300, STRIPEAWN_UNIT / 2 };
    static const double zeros[] = { 0.0, -0.0 };
    size_t i;

    for (i = 0; i < COUNT(small); i++) {
        struct given g = doubles(small[i], 0.0);

        given_settled_is(HERE, g, small[i], 1, 0, 16, 1);
        given_settled_is(HERE, g, small[i], 0, 0, 18, 5);
        refused(HERE, g, -small[i], 1, 4);
    }
    for (i = 0; i < COUNT(zeros); i++) {
        struct given g = doubles(zeros[i], 0.0);

        given_settled_is(HERE, g, ABOVE_0, 1, 0, 16, 1);
        refused(HERE, g, -ABOVE_0, 1, 4);
    }
}

void test_settle_limits(void)
{
    test_anomalies();
    test_eccentricities();
    test_tolerances();
    test_greatest_estimate();
    test_least_estimates();
    test_no_numbers();
    test_doubles_at_limits();
    test_sides();
}
