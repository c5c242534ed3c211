/*
** plain_sine.h: Lo and Hi, the whole-number bounds of sine, in plain C.
**
** Every term up to the depth is made, at every angle. The library stops once
** its terms are spent, which changes no bound. There must be no such stop
** here: that is what makes the gain visible in one run.
*/
#ifndef PLAIN_SINE_H
#define PLAIN_SINE_H

#include <stdint.h>

#define UNIT INT64_C(268435456)

/* Running terms and sums of the bounds of sine at one angle. */
struct series {
    uint64_t square_down, square_up; /* X^2 / 2^28, rounded both ways      */
    uint64_t low, up;                /* the terms l_k and u_k              */
    int64_t low_sum, high_sum;       /* raw bounds so far                  */
    int64_t lo, hi;                  /* best bounds so far                 */
};

static inline void next_term(struct series *s, uint64_t divisor)
{
    uint64_t whole = (uint64_t)UNIT * divisor;

    s->low = s->low * s->square_down / whole;
    s->up = (s->up * s->square_up + (whole - 1)) / whole;
}

/* One depth more: an odd-numbered term, then an even-numbered one. */
static inline void next_depth(struct series *s, uint64_t odd, uint64_t even)
{
    next_term(s, odd);
    s->low_sum -= (int64_t)s->up;
    s->high_sum -= (int64_t)s->low;
    if (s->low_sum > s->lo)
        s->lo = s->low_sum;
    next_term(s, even);
    s->low_sum += (int64_t)s->low;
    s->high_sum += (int64_t)s->up;
    if (s->high_sum < s->hi)
        s->hi = s->high_sum;
}

/*
** The divisors of each depth: 2k(2k+1), for k = 1 to 10 in all. They are
** written out, so that the compiler divides by multiplying.
*/
#define DIVISORS_1 2 * 3, 4 * 5
#define DIVISORS_2 6 * 7, 8 * 9
#define DIVISORS_3 10 * 11, 12 * 13
#define DIVISORS_4 14 * 15, 16 * 17
#define DIVISORS_5 18 * 19, 20 * 21

/* Before the first depth, for x at most T. */
static inline struct series begin(uint32_t x)
{
    uint64_t square = (uint64_t)x * x;
    struct series s = { square / UNIT, (square + (UNIT - 1)) / UNIT,
                        x, x, x, x, INT64_MIN, INT64_MAX };

    return s;
}

/* Lo and Hi for x at most T. */
static struct series bounds(uint32_t x, uint32_t depth)
{
    struct series s = begin(x);

    next_depth(&s, DIVISORS_1);
    if (depth >= 2)
        next_depth(&s, DIVISORS_2);
    if (depth >= 3)
        next_depth(&s, DIVISORS_3);
    if (depth >= 4)
        next_depth(&s, DIVISORS_4);
    if (depth >= 5)
        next_depth(&s, DIVISORS_5);
    return s;
}

#endif
