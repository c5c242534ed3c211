/*
** steps.c: one comparison for each entry that makes a step, and the rule of a
** step in doubles, with the library's own bounds of sine and cosine.
*/
#include <inttypes.h>
#include <math.h>

#include "steps.h"

/* Zero stays plus zero. */
static double mirrored(double estimate)
{
    return estimate == 0 ? 0.0 : -estimate;
}

struct start mirror_of_start(struct start from)
{
    from.m = -from.m;
    from.estimate = -from.estimate;
    return from;
}

void step_is(struct place at, struct start from,
             struct stripeawn_stepped wanted)
{
    struct stripeawn_stepped got =
        stripeawn_step(from.m, from.a, from.estimate, from.method);

    check(at,
          got.code == wanted.code && got.step == wanted.step &&
              to_bits(got.estimate) == to_bits(wanted.estimate),
          "step m=%" PRId32 " a=%" PRIu32 " estimate=%a method=%" PRIu32
          ": code %" PRIu32 " step %" PRIu32 " estimate %a, wanted %" PRIu32
          " %" PRIu32 " %a",
          from.m, from.a, from.estimate, from.method, got.code, got.step,
          got.estimate, wanted.code, wanted.step, wanted.estimate);
    if (from.m > 0) {
        wanted.estimate = mirrored(wanted.estimate);
        step_is(at, mirror_of_start(from), wanted);
    }
}

void judged_step_is(struct place at, struct start from, uint32_t n,
                    uint32_t depth, struct stripeawn_judged_step wanted)
{
    struct stripeawn_judged_step got = stripeawn_step_judged(
        from.m, from.a, from.estimate, from.method, n, depth);

    check(at,
          got.code == wanted.code && got.step == wanted.step &&
              to_bits(got.estimate) == to_bits(wanted.estimate) &&
              got.verdict == wanted.verdict,
          "judged step m=%" PRId32 " a=%" PRIu32 " estimate=%a method=%"
          PRIu32 " n=%" PRIu32 " depth=%" PRIu32 ": code %" PRIu32 " step %"
          PRIu32 " estimate %a verdict %" PRIu32 ", wanted %" PRIu32
          " %" PRIu32 " %a %" PRIu32,
          from.m, from.a, from.estimate, from.method, n, depth, got.code,
          got.step, got.estimate, got.verdict, wanted.code, wanted.step,
          wanted.estimate, wanted.verdict);
    if (from.m > 0) {
        wanted.estimate = mirrored(wanted.estimate);
        judged_step_is(at, mirror_of_start(from), n, depth, wanted);
    }
}

struct stripeawn_stepped refused_step(uint32_t code)
{
    struct stripeawn_stepped s = { code, 0, 0.0 };

    return s;
}

struct stripeawn_stepped no_step(void)
{
    struct stripeawn_stepped s = { 0, 3, 0.0 };

    return s;
}

struct stripeawn_stepped step_to(struct start from, double estimate)
{
    struct stripeawn_stepped s = { 0, from.method, estimate };

    return s;
}

struct stripeawn_judged_step with_verdict(struct stripeawn_stepped s,
                                          uint32_t verdict)
{
    struct stripeawn_judged_step j = { s.code, s.step, s.estimate, verdict };

    return j;
}

/*
** The operations. Each result is stored, so that every one is rounded to a
** double by itself, and no compiler makes one operation of two.
*/
static double less(double a, double b)
{
    volatile double result = a - b;

    return result;
}

static double times(double a, double b)
{
    volatile double result = a * b;

    return result;
}

static double over(double a, double b)
{
    volatile double result = a / b;

    return result;
}

struct raw_step raw_step_of(struct start from)
{
    double estimate = from.m < 0 ? -from.estimate : from.estimate;
    uint32_t f = (uint32_t)floor(estimate * 268435456.0);
    double s = (double)stripeawn_sine(f, 5).lo / 268435456.0;
    double k = (double)stripeawn_cosine(f, 5).lo / 268435456.0;
    double m = fabs((double)from.m) / 268435456.0;
    double e = from.a / 268435456.0;
    double g = times(e, s);
    double residual = less(less(estimate, m), g);
    double slope = less(1.0, times(e, k));
    struct raw_step raw = { slope, 0.0 };

    if (from.method == 1) {
        raw.next = less(estimate, over(residual, slope));
        return raw;
    }
    raw.divisor = less(times(times(2.0, slope), slope), times(residual, g));
    raw.next = less(estimate, over(times(times(2.0, residual), slope),
                                   raw.divisor));
    return raw;
}

/* No comparison holds of a NaN, so that one is not handed over either. */
struct stripeawn_stepped step_by_rule(struct start from)
{
    struct raw_step raw = raw_step_of(from);

    if (raw.divisor == 0 || !(raw.next >= 0 && raw.next <= units(T)))
        return no_step();
    return step_to(from, raw.next == 0   ? 0.0
                         : from.m < 0 ? -raw.next
                                      : raw.next);
}
