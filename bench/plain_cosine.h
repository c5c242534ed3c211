/*
** plain_cosine.h: CosLo and CosHi, the whole-number bounds of cosine, in plain
** C.
**
** The terms are made as those of sine are, from another term 0 and with other
** divisors, and all of them too.
*/
#ifndef PLAIN_COSINE_H
#define PLAIN_COSINE_H

#include "plain_sine.h"

/* The divisors of each depth: (2k-1)2k, for k = 1 to 10 in all. */
#define COSINE_DIVISORS_1 1 * 2, 3 * 4
#define COSINE_DIVISORS_2 5 * 6, 7 * 8
#define COSINE_DIVISORS_3 9 * 10, 11 * 12
#define COSINE_DIVISORS_4 13 * 14, 15 * 16
#define COSINE_DIVISORS_5 17 * 18, 19 * 20

/* Before the first depth, for x at most T: term 0 is one radian. */
static inline struct series begin_cosine(uint32_t x)
{
    struct series s = begin(x);

    s.low = s.up = UNIT;
    s.low_sum = s.high_sum = UNIT;
    return s;
}

/* CosLo and CosHi for x at most T. */
static struct series cosine_bounds(uint32_t x, uint32_t depth)
{
    struct series s = begin_cosine(x);

    next_depth(&s, COSINE_DIVISORS_1);
    if (depth >= 2)
        next_depth(&s, COSINE_DIVISORS_2);
    if (depth >= 3)
        next_depth(&s, COSINE_DIVISORS_3);
    if (depth >= 4)
        next_depth(&s, COSINE_DIVISORS_4);
    if (depth >= 5)
        next_depth(&s, COSINE_DIVISORS_5);
    return s;
}

#endif
