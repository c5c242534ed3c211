/*
** step_limits.c: a step at each limit, on both sides of it, with zeros beside
** every code.
**
** With A = 0 a step goes to M. Each step with M above 0 goes on to its
** mirror.
*/
#include <float.h>
#include <math.h>

#include "steps.h"

/* By both methods: to M, where A is 0; or refused with a code. */
static void goes_to_m(struct place at, int32_t m, double estimate)
{
    struct start newton = { m, 0, estimate, 1 };
    struct start halley = { m, 0, estimate, 2 };

    step_is(at, newton, step_to(newton, units(m)));
    step_is(at, halley, step_to(halley, units(m)));
}

static void refused(struct place at, int32_t m, uint32_t a, double estimate,
                    uint32_t code)
{
    struct start newton = { m, a, estimate, 1 };
    struct start halley = { m, a, estimate, 2 };

    step_is(at, newton, refused_step(code));
    step_is(at, halley, refused_step(code));
}

static void test_anomalies(void)
{
    goes_to_m(HERE, H, 1.0);
    goes_to_m(HERE, H - 1, 1.0);
    refused(HERE, H + 1, 0, 1.0, 1);
    refused(HERE, T, 0, 1.0, 1);
    refused(HERE, INT32_MAX, 0, 1.0, 1);
    goes_to_m(HERE, -H, -1.0);
    goes_to_m(HERE, -H + 1, -1.0);
    refused(HERE, -H - 1, 0, -1.0, 1);
    refused(HERE, -INT32_MAX, 0, -1.0, 1);
    refused(HERE, INT32_MIN, 0, -1.0, 1);
    refused(HERE, INT32_MIN, 0, 0.0, 1);
}

/* e = 1 is taken: from H units near the root, and flat at M = 0. */
static void test_eccentricities(void)
{
    struct start from = { H, ONE, 0x1.921fb54p+1, 1 };
    struct start flat = { 0, ONE, 0.0, 1 };

    step_is(HERE, from, step_to(from, 0x1.921fb52cp+1));
    step_is(HERE, flat, no_step());
    refused(HERE, H, ONE + 1, 0x1.921fb54p+1, 2);
    refused(HERE, 0, ONE + 1, 0.0, 2);
    refused(HERE, 1, FAR, 1.0, 2);
    /* 0 if only the low bytes were read */
    refused(HERE, 1, UINT32_C(0x80000000), 1.0, 2);
}

/* T units are taken, and the next double is not. */
static void test_greatest_estimate(void)
{
    goes_to_m(HERE, H, 0x1.921fb74p+1);
    goes_to_m(HERE, 1, 0x1.921fb73ffffffp+1);
    refused(HERE, H, 0, 0x1.921fb74000001p+1, 4);
    refused(HERE, 0, 0, 0x1.921fb74000001p+1, 4);
    refused(HERE, H, ONE, units(T + 1), 4);
    goes_to_m(HERE, -H, -0x1.921fb74p+1);
    refused(HERE, -H, 0, -0x1.921fb74000001p+1, 4);
    refused(HERE, 1, 0, 4.0, 4);
    /* 0 and 1 in units if they were wrapped in 32 bits */
    refused(HERE, 1, 0, 16.0, 4);
    refused(HERE, 1, 0, 16.0 + units(1), 4);
    refused(HERE, 1, 0, 1e300, 4);
    refused(HERE, 1, 0, DBL_MAX, 4);
}

/* Either zero is 0 for every M, and what opposes M is refused. */
static void test_least_estimates(void)
{
    static const int32_t anomalies[] = { 0, 1, H };
    size_t i;

    for (i = 0; i < COUNT(anomalies); i++) {
        int32_t m = anomalies[i];

        goes_to_m(HERE, m, 0.0);
        goes_to_m(HERE, m, -0.0);
        goes_to_m(HERE, m, ABOVE_0);
        goes_to_m(HERE, m, DBL_MIN - ABOVE_0);
        goes_to_m(HERE, m, DBL_MIN);
        refused(HERE, m, 0, -ABOVE_0, 4);
        refused(HERE, m, 0, -DBL_MIN, 4);
        refused(HERE, m, ONE, units(-1), 4);
        refused(HERE, m, ONE, units(-T), 4);
        refused(HERE, m, 0, -DBL_MAX, 4);
    }
    goes_to_m(HERE, -1, 0.0);
    goes_to_m(HERE, -1, -0.0);
    goes_to_m(HERE, -1, -ABOVE_0);
    refused(HERE, -1, 0, ABOVE_0, 4);
    refused(HERE, -1, 0, units(1), 4);
    refused(HERE, -H, ONE, units(T), 4);
}

/* Quiet and signalling NaNs and infinities of both signs. */
static void test_no_numbers(void)
{
    static const uint64_t payloads[] = {
        UINT64_C(0), UINT64_C(0x0000000000000001),
        UINT64_C(0x0008000000000000), UINT64_C(0x000FFFFFFFFFFFFF),
    };
    size_t i;

    for (i = 0; i < 2 * COUNT(payloads); i++) {
        uint64_t sign = i % 2 ? SIGN : 0;
        double none = from_bits(sign | INFINITE | payloads[i / 2]);

        refused(HERE, 0, 0, none, 4);
        refused(HERE, 1, 0, none, 4);
        refused(HERE, -1, 0, none, 4);
        refused(HERE, H, ONE, none, 4);
    }
}

/* Numbers that are 1 or 2 if only their low bytes were read. */
static void test_methods(void)
{
    static const uint32_t methods[] = {
        0, 3, 4, 255, 256, 257, 258, UINT32_C(65537), UINT32_C(65538),
        UINT32_C(0x80000001), UINT32_C(0x80000002), FAR - 1, FAR
    };
    size_t i;

    goes_to_m(HERE, 7, 1.0);
    for (i = 0; i < COUNT(methods); i++) {
        struct start from = { 7, 0, 1.0, methods[i] };
        struct start flat = { 0, ONE, 0.0, methods[i] };

        step_is(HERE, from, refused_step(21));
        step_is(HERE, flat, refused_step(21));
    }
}

/* Minus zero leads where plus zero does, on either side of 0. */
static void test_either_zero(void)
{
    uint64_t random = 75;
    int i;

    for (i = 0; i < 2000; i++) {
        struct given g = brought_to_grid(random_doubles(&random));
        struct start from = { (int32_t)g.m, (uint32_t)g.e, 0.0,
                              1 + (uint32_t)i % 2 };
        struct stripeawn_stepped plus =
            stripeawn_step(from.m, from.a, 0.0, from.method);

        from.estimate = -0.0;
        step_is(HERE, from, plus);
    }
}

void test_step_limits(void)
{
    test_anomalies();
    test_eccentricities();
    test_greatest_estimate();
    test_least_estimates();
    test_no_numbers();
    test_methods();
    test_either_zero();
}
