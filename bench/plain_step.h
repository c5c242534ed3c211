/*
** plain_step.h: a step of Newton or Halley in doubles, part of plain.c.
**
** An operation in doubles is rounded once, as the rule has it: the benchmark
** is compiled so that none is fused with another.
*/
#ifndef PLAIN_STEP_H
#define PLAIN_STEP_H

#include "plain_cosine.h"
#include "plain_judge.h"

/*
** Lo and CosLo at depth 5 for x at most T. The depths stand in one line, so
** that the compiler leaves out what is for the upper bound alone.
*/
static inline int64_t sine_low(uint32_t x)
{
    struct series s = begin(x);

    next_depth(&s, DIVISORS_1);
    next_depth(&s, DIVISORS_2);
    next_depth(&s, DIVISORS_3);
    next_depth(&s, DIVISORS_4);
    next_depth(&s, DIVISORS_5);
    return s.lo;
}

static inline int64_t cosine_low(uint32_t x)
{
    struct series s = begin_cosine(x);

    next_depth(&s, COSINE_DIVISORS_1);
    next_depth(&s, COSINE_DIVISORS_2);
    next_depth(&s, COSINE_DIVISORS_3);
    next_depth(&s, COSINE_DIVISORS_4);
    next_depth(&s, COSINE_DIVISORS_5);
    return s.lo;
}

/* Where a step leads; by a divisor of zero to an infinity or a NaN. */
static inline double next_estimate(struct cell c, double estimate,
                                   uint32_t method)
{
    uint32_t x = in_units(estimate).down;
    double s = (double)sine_low(x) * STRIPEAWN_UNIT; /* these are exact */
    double k = (double)cosine_low(x) * STRIPEAWN_UNIT;
    double m = c.m.down * STRIPEAWN_UNIT, e = c.a.down * STRIPEAWN_UNIT;
    double g = e * s;
    double residual = estimate - m - g, slope = 1.0 - e * k;

    if (method == STRIPEAWN_NEWTON)
        return estimate - residual / slope;
    return estimate - 2.0 * residual * slope /
                          (2.0 * slope * slope - residual * g);
}

/* The step of a call whose codes have all been tested. */
static inline struct stripeawn_stepped take_step(struct cell c,
                                                 double estimate,
                                                 uint32_t method)
{
    struct stripeawn_stepped flat = { 0, STRIPEAWN_FLAT, 0.0 };
    struct stripeawn_stepped taken = { 0, method, 0.0 };

    taken.estimate = next_estimate(c, estimate, method);
    return within(taken.estimate, STRIPEAWN_X_MAX) ? taken : flat;
}

/* The codes so far, and code 21 after them. */
static uint32_t method_code(uint32_t code, uint32_t method)
{
    return code == 0 && method != STRIPEAWN_NEWTON &&
                   method != STRIPEAWN_HALLEY
               ? 21
               : code;
}

static struct stripeawn_stepped step(struct problem p, double estimate,
                                     uint32_t method)
{
    struct stripeawn_stepped refused = {
        method_code(estimate_code(p.code, estimate), method), 0, 0.0
    };

    if (refused.code != 0)
        return refused;
    return take_step(p.cell, estimate, method);
}

/* The step, and the verdict on where it leads at the problem's depth. */
static struct stripeawn_judged_step step_judged(struct problem p,
                                                double estimate,
                                                uint32_t method, uint32_t n)
{
    struct stripeawn_judged_step answer = {
        method_code(claim_code(p.code, estimate, n), method), 0, 0.0, 0
    };
    struct stripeawn_stepped taken;

    if (answer.code != 0)
        return answer;
    taken = take_step(p.cell, estimate, method);
    answer.step = taken.step;
    answer.estimate = taken.estimate;
    if (taken.step != STRIPEAWN_FLAT)
        answer.verdict = decide(p.cell, taken.estimate, n, p.depth).verdict;
    return answer;
}

#endif
