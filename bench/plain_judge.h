/*
** plain_judge.h: what is said of an estimate over a cell, shared by plain.c
** and plain_double.c: the judge and the distance.
**
** At one depth every term up to it is made, as everywhere else here. Where
** the least depth is looked for, the terms of an angle are made once and no
** further than the depth that accepts it.
*/
#ifndef PLAIN_JUDGE_H
#define PLAIN_JUDGE_H

#include "plain_cell.h"

/* In place of a depth: each one is tried, from 1 on. */
enum { EACH_DEPTH = 0 };

/* The least depth that accepts an end, or 0. */
static inline uint32_t least_depth(uint32_t x, struct cell c,
                                   end_test *accepts)
{
    struct series s = begin(x);

    next_depth(&s, DIVISORS_1);
    if (accepts(x, c, s))
        return 1;
    next_depth(&s, DIVISORS_2);
    if (accepts(x, c, s))
        return 2;
    next_depth(&s, DIVISORS_3);
    if (accepts(x, c, s))
        return 3;
    next_depth(&s, DIVISORS_4);
    if (accepts(x, c, s))
        return 4;
    next_depth(&s, DIVISORS_5);
    return accepts(x, c, s) ? 5 : 0;
}

/* The least of the depths tried that accepts an end, or 0. */
static uint32_t lower_from(uint32_t x, struct cell c, uint32_t depth)
{
    if (depth == EACH_DEPTH)
        return least_depth(x, c, lower_by);
    return lower(x, c, depth) ? depth : 0;
}

static uint32_t upper_from(uint32_t x, struct cell c, uint32_t depth)
{
    if (depth == EACH_DEPTH)
        return least_depth(x, c, upper_by);
    return upper(x, c, depth) ? depth : 0;
}

static struct stripeawn_settled decided(uint32_t verdict, uint32_t depth)
{
    struct stripeawn_settled answer = { 0, verdict, depth };

    return answer;
}

/*
** The verdict on a claim whose codes have all been tested, and the least of
** the depths tried that gives it. At most one end refutes a claim. It is
** inline so that a call at one depth has nothing of those that try each.
*/
static inline struct stripeawn_settled decide(struct cell c, double estimate,
                                              uint32_t n, uint32_t depth)
{
    struct span s = in_units(estimate);
    uint32_t p = s.up > n ? s.up - n : 0;
    uint32_t q = s.down + n;
    uint32_t low, high;

    if (q > STRIPEAWN_X_MAX)
        q = STRIPEAWN_X_MAX;
    low = lower_from(p, c, depth);
    high = low != 0 ? upper_from(q, c, depth) : 0;
    if (high != 0)
        return decided(16, low > high ? low : high);
    if (s.down + n + 1 <= STRIPEAWN_X_MAX &&
        (low = lower_from(s.down + n + 1, c, depth)) != 0)
        return decided(17, low);
    if (s.up >= n + 1 && (high = upper_from(s.up - n - 1, c, depth)) != 0)
        return decided(17, high);
    return decided(18, STRIPEAWN_DEPTH_MAX);
}

/* The code of a problem, and code 4 after it. */
static uint32_t estimate_code(uint32_t code, double estimate)
{
    return code == 0 && !within(estimate, STRIPEAWN_X_MAX) ? 4 : code;
}

/* The same, and code 5 after them. */
static uint32_t claim_code(uint32_t code, double estimate, uint32_t n)
{
    code = estimate_code(code, estimate);
    return code == 0 && n > STRIPEAWN_N_MAX ? 5 : code;
}

static struct stripeawn_settled settle(struct problem p, double estimate,
                                       uint32_t n, uint32_t depth)
{
    struct stripeawn_settled refused = { claim_code(p.code, estimate, n),
                                         0, 0 };

    if (refused.code != 0)
        return refused;
    return decide(p.cell, estimate, n, depth);
}

/* The verdict alone, at the problem's depth. */
static struct stripeawn_verdict judge(struct problem p, double estimate,
                                      uint32_t n)
{
    struct stripeawn_settled s = settle(p, estimate, n, p.depth);
    struct stripeawn_verdict answer = { s.code, s.verdict };

    return answer;
}

/*
** How far the root is from an estimate. Of the enclosure only its searches
** are needed: at the problem's depth, which is 5, T is accepted as an upper
** end always.
*/
static struct stripeawn_off distance(struct problem p, double estimate)
{
    struct stripeawn_off answer = { estimate_code(p.code, estimate), 0, 0 };
    int64_t a, b;
    struct span s;

    if (answer.code != 0)
        return answer;
    s = in_units(estimate);
    a = search_lower(p.cell, p.depth);
    b = search_upper(p.cell, p.depth);
    answer.least = (uint32_t)greater(greater(a - s.up, s.down - b), 0);
    answer.most = (uint32_t)greater(s.up - a, b - s.down);
    return answer;
}

#endif
