/*
** plain_flyby.c: the rules of flybys in plain C, part of the measure for
** bench.c.
**
** All nine terms are made, at every x, as everywhere else here. An end test
** needs one of the two bounds of sinh, and makes the terms of that one alone.
*/
#include "plain.h"

enum { TOP = STRIPEAWN_FLYBY_X_MAX };

/* How an end of a flyby is tested. */
typedef int flyby_test(uint32_t x, uint32_t m, uint32_t b);

/*
** The next term from the one before it. Two floors, or two ceilings, one
** after the other are one: what the shift leaves is at most 2^31, and the
** compiler divides 32 bits by multiplying.
*/
static inline uint32_t next_low(uint32_t term, uint64_t square,
                                uint32_t divisor)
{
    return (uint32_t)(term * square >> 28) / divisor;
}

static inline uint32_t next_high(uint32_t term, uint64_t square,
                                 uint32_t divisor)
{
    uint32_t whole = (uint32_t)((term * square + 0xfffffff) >> 28);

    return (whole + (divisor - 1)) / divisor;
}

/* Lo for x at most 2^29, with the divisors 2k(2k+1) for k = 1 to 9. */
static inline uint64_t sinh_low(uint32_t x)
{
    uint64_t square = (uint64_t)x * x >> 28;
    uint32_t l1 = next_low(x, square, 2 * 3);
    uint32_t l2 = next_low(l1, square, 4 * 5);
    uint32_t l3 = next_low(l2, square, 6 * 7);
    uint32_t l4 = next_low(l3, square, 8 * 9);
    uint32_t l5 = next_low(l4, square, 10 * 11);
    uint32_t l6 = next_low(l5, square, 12 * 13);
    uint32_t l7 = next_low(l6, square, 14 * 15);
    uint32_t l8 = next_low(l7, square, 16 * 17);
    uint32_t l9 = next_low(l8, square, 18 * 19);

    return x + l1 + l2 + l3 + l4 + l5 + l6 + l7 + l8 + l9;
}

/* Hi, with the last term once more for all that are left out. */
static inline uint64_t sinh_high(uint32_t x)
{
    uint64_t square = ((uint64_t)x * x + 0xfffffff) >> 28;
    uint32_t u1 = next_high(x, square, 2 * 3);
    uint32_t u2 = next_high(u1, square, 4 * 5);
    uint32_t u3 = next_high(u2, square, 6 * 7);
    uint32_t u4 = next_high(u3, square, 8 * 9);
    uint32_t u5 = next_high(u4, square, 10 * 11);
    uint32_t u6 = next_high(u5, square, 12 * 13);
    uint32_t u7 = next_high(u6, square, 14 * 15);
    uint32_t u8 = next_high(u7, square, 16 * 17);
    uint32_t u9 = next_high(u8, square, 18 * 19);

    return x + u1 + u2 + u3 + u4 + u5 + u6 + u7 + u8 + u9 + u9;
}

/* The end tests for x at most 2^29. */
static inline int lower(uint32_t x, uint32_t m, uint32_t b)
{
    return ((uint64_t)x + m) << 28 >= b * sinh_high(x);
}

static inline int upper(uint32_t x, uint32_t m, uint32_t b)
{
    return ((uint64_t)x + m) << 28 <= b * sinh_low(x);
}

/* The codes 1 and 2 in their order, or 0. */
static inline uint32_t flyby_code(uint32_t m, uint32_t b)
{
    if (m > STRIPEAWN_FLYBY_M_MAX)
        return 1;
    return b < STRIPEAWN_FLYBY_B_MIN || b > STRIPEAWN_FLYBY_B_MAX ? 2 : 0;
}

struct stripeawn_bounds plain_flyby_sinh(uint32_t x)
{
    struct stripeawn_bounds answer = { x > TOP ? 10 : 0, 0, 0 };

    if (answer.code != 0)
        return answer;
    answer.lo = (int64_t)sinh_low(x);
    answer.hi = (int64_t)sinh_high(x);
    return answer;
}

static inline struct stripeawn_end end_by(flyby_test *accepts, uint32_t x,
                                          uint32_t m, uint32_t b)
{
    struct stripeawn_end answer = { flyby_code(m, b), 0 };

    if (answer.code == 0 && x > TOP)
        answer.code = 10;
    if (answer.code == 0)
        answer.accepted = (uint32_t)accepts(x, m, b);
    return answer;
}

struct stripeawn_end plain_flyby_lower_end(uint32_t x, uint32_t m,
                                           uint32_t b)
{
    return end_by(lower, x, m, b);
}

struct stripeawn_end plain_flyby_upper_end(uint32_t x, uint32_t m,
                                           uint32_t b)
{
    return end_by(upper, x, m, b);
}

static inline uint32_t search_lower(uint32_t m, uint32_t b)
{
    uint32_t p = 0, q = TOP;

    while (q - p > 1) {
        uint32_t middle = (p + q) / 2;

        if (lower(middle, m, b))
            p = middle;
        else
            q = middle;
    }
    return p;
}

static inline uint32_t search_upper(uint32_t m, uint32_t b)
{
    uint32_t p = 0, q = TOP;

    if (upper(0, m, b))
        return 0;
    while (q - p > 1) {
        uint32_t middle = (p + q) / 2;

        if (upper(middle, m, b))
            q = middle;
        else
            p = middle;
    }
    return q;
}

struct stripeawn_enclosure plain_flyby_enclose(uint32_t m, uint32_t b)
{
    struct stripeawn_enclosure answer = { flyby_code(m, b), 0, 0 };

    if (answer.code == 0 && !upper(TOP, m, b))
        answer.code = 15;
    if (answer.code != 0)
        return answer;
    answer.lower = (int32_t)search_lower(m, b);
    answer.upper = (int32_t)search_upper(m, b);
    return answer;
}

/* The verdict on a claim whose codes have all been tested. */
static inline uint32_t verdict_on(uint32_t m, uint32_t b, double units,
                                  uint32_t n)
{
    uint32_t down = (uint32_t)units, up = down + ((double)down < units);
    uint32_t p = up > n ? up - n : 0;
    uint32_t q = down + n < TOP ? down + n : TOP;

    if (lower(p, m, b) && upper(q, m, b))
        return 16;
    if (down + n + 1 <= TOP && lower(down + n + 1, m, b))
        return 17;
    return up >= n + 1 && upper(up - n - 1, m, b) ? 17 : 18;
}

struct stripeawn_verdict plain_flyby_judge(uint32_t m, uint32_t b,
                                           double estimate, uint32_t n)
{
    struct stripeawn_verdict answer = { flyby_code(m, b), 0 };

    if (answer.code == 0 && !(estimate >= 0.0 && estimate <= 2.0))
        answer.code = 4;
    if (answer.code == 0 && n > STRIPEAWN_N_MAX)
        answer.code = 5;
    if (answer.code == 0)
        answer.verdict = verdict_on(m, b, estimate * STRIPEAWN_RADIAN, n);
    return answer;
}
