/*
** bench_step.c: the part of bench.c with cosine, and with steps.
**
** A step alone is timed with one method for all starts, a judged one with
** each start's own.
*/
#include "bench_step.h"
#include "both_sides.h"
#include "timing.h"

#define COSINE_OF(P, X) {                                                   \
        struct stripeawn_bounds r = P##_cosine((uint32_t)(X), DEPTH);       \
        sum += (uint64_t)r.lo * 3 + (uint64_t)r.hi; }
#define COSINE(P) COSINE_OF(P, angles[i])
#define COSINE_SMALL(P) COSINE_OF(P, small_angles[i])

/* An estimate goes into the sum in units. */
#define IN_UNITS(estimate) (uint64_t)(int64_t)((estimate) * STRIPEAWN_RADIAN)
#define STEP_BY(P, METHOD) {                                                \
        struct stripeawn_stepped r =                                        \
            P##_step(starts[i].m, starts[i].a, starts[i].estimate, METHOD); \
        sum += IN_UNITS(r.estimate) * 3 + r.step; }
#define NEWTON(P) STEP_BY(P, STRIPEAWN_NEWTON)
#define HALLEY(P) STEP_BY(P, STRIPEAWN_HALLEY)
#define JUDGED(P) {                                                         \
        struct stripeawn_judged_step r =                                    \
            P##_step_judged(starts[i].m, starts[i].a, starts[i].estimate,   \
                            starts[i].method, TOLERANCE, DEPTH);            \
        sum += IN_UNITS(r.estimate) * 3 + r.step + r.verdict; }

BOTH_SIDES(cosine, COSINE)
BOTH_SIDES(cosine_small, COSINE_SMALL)
BOTH_SIDES(newton, NEWTON)
BOTH_SIDES(halley, HALLEY)
BOTH_SIDES(judged, JUDGED)

void measure_cosine(long rounds)
{
    measure("cosine", library_cosine, plain_cosine_pass, rounds);
    measure("cosine, X < 2^20", library_cosine_small, plain_cosine_small_pass,
            rounds);
}

void measure_steps(long rounds)
{
    measure("step, Newton", library_newton, plain_newton_pass, rounds);
    measure("step, Halley", library_halley, plain_halley_pass, rounds);
    measure("step_judged", library_judged, plain_judged_pass, rounds);
}
