/*
** plain_cell.h: the rules over a cell, shared by plain.c and plain_double.c.
**
** All of it stands in a header, so that in plain.c the compiler sees that a
** cell is one point of the grid, and makes no more of it. The end tests are
** each file's own.
*/
#ifndef PLAIN_CELL_H
#define PLAIN_CELL_H

#include "plain_sine.h"
#include "stripeawn.h"

/* Where a number lies, rounded down and up to whole units. */
struct span {
    uint32_t down, up;
};

/* M, not below 0, and A. */
struct cell {
    struct span m, a;
};

/* A code, and with code 0 a cell at a depth. */
struct problem {
    uint32_t code, depth;
    struct cell cell;
};

static inline int64_t lesser(int64_t p, int64_t q)
{
    return p < q ? p : q;
}

static inline int64_t greater(int64_t p, int64_t q)
{
    return p > q ? p : q;
}

/* Whether a double is 0 to a limit, in units: no comparison holds of a NaN. */
static int within(double number, uint32_t limit)
{
    return number >= 0.0 && number <= limit / 268435456.0; /* exact */
}

static struct span in_units(double number)
{
    double units = number * 268435456.0; /* exact */
    struct span s;

    s.down = (uint32_t)units;
    s.up = s.down + ((double)s.down < units);
    return s;
}

/*
** The two end tests by bounds of the sine of x, which the file that includes
** this one defines: on the grid one product does, and two would make the
** measure of it slower.
*/
typedef int end_test(uint32_t x, struct cell c, struct series s);

static end_test lower_by, upper_by;

static int lower(uint32_t x, struct cell c, uint32_t depth)
{
    return lower_by(x, c, bounds(x, depth));
}

static int upper(uint32_t x, struct cell c, uint32_t depth)
{
    return upper_by(x, c, bounds(x, depth));
}

/* Code 3 or 0, which comes after the codes 1 and 2 of a problem. */
static uint32_t depth_code(uint32_t depth)
{
    return depth < 1 || depth > STRIPEAWN_DEPTH_MAX ? 3 : 0;
}

/* The code of a problem, and code 10 after it. */
static uint32_t angle_code(uint32_t x, uint32_t code)
{
    return code == 0 && x > STRIPEAWN_X_MAX ? 10 : code;
}

static struct stripeawn_end lower_end(uint32_t x, struct problem p)
{
    struct stripeawn_end answer = { angle_code(x, p.code), 0 };

    if (answer.code == 0)
        answer.accepted = (uint32_t)lower(x, p.cell, p.depth);
    return answer;
}

static struct stripeawn_end upper_end(uint32_t x, struct problem p)
{
    struct stripeawn_end answer = { angle_code(x, p.code), 0 };

    if (answer.code == 0)
        answer.accepted = (uint32_t)upper(x, p.cell, p.depth);
    return answer;
}

static uint32_t search_lower(struct cell c, uint32_t depth)
{
    uint32_t p = 0, q = STRIPEAWN_X_MAX;

    while (q - p > 1) {
        uint32_t middle = (p + q) / 2;

        if (lower(middle, c, depth))
            p = middle;
        else
            q = middle;
    }
    return p;
}

static uint32_t search_upper(struct cell c, uint32_t depth)
{
    uint32_t p = 0, q = STRIPEAWN_X_MAX;

    if (upper(0, c, depth))
        return 0;
    while (q - p > 1) {
        uint32_t middle = (p + q) / 2;

        if (upper(middle, c, depth))
            q = middle;
        else
            p = middle;
    }
    return q;
}

static struct stripeawn_enclosure enclose(struct problem p)
{
    struct stripeawn_enclosure answer = { p.code, 0, 0 };

    if (answer.code == 0 && !upper(STRIPEAWN_X_MAX, p.cell, p.depth))
        answer.code = 6;
    if (answer.code != 0)
        return answer;
    answer.lower = (int32_t)search_lower(p.cell, p.depth);
    answer.upper = (int32_t)search_upper(p.cell, p.depth);
    return answer;
}

/* 2^28 atan(2^-k), rounded down. */
static const int64_t arctangent[25] = {
    210828714, 124459457, 65760959, 33381289, 16755421, 8385878, 4193962,
    2097109, 1048570, 524287, 262143, 131071, 65535, 32767, 16383, 8191,
    4095, 2047, 1023, 511, 255, 127, 63, 31, 15
};

/* 2^28 times the product of 4^k / (4^k + 1) for k = 0 to 24, rounded down. */
#define GAIN INT64_C(98987219)

/* The smallest j whose two ends around x are accepted at depth 5. */
static uint32_t certificate(uint32_t x, struct cell c)
{
    uint32_t j;

    for (j = 0; j < 30; j++) {
        uint32_t width = UINT32_C(1) << j;
        uint32_t low = x > width ? x - width : 0;
        uint32_t high = x + width;

        if (high > STRIPEAWN_X_MAX)
            high = STRIPEAWN_X_MAX;
        if (lower(low, c, 5) && upper(high, c, 5))
            break;
    }
    return j;
}

/* The rotations take M and A rounded down. */
static struct stripeawn_proposal propose(struct problem p)
{
    struct stripeawn_proposal answer = { p.code, 0, 0, 0, 0 };
    int64_t e = 0, x = p.cell.a.down * GAIN / UNIT, y = 0;
    int turn;

    if (answer.code != 0)
        return answer;
    for (turn = 0; turn < 50; turn++) {
        int k = turn / 2;
        int64_t sign = e - y < (int64_t)p.cell.m.down ? 1 : -1;
        int64_t x_part = x >> k; /* the shift rounds down, as the rule does */
        int64_t y_part = y >> k;

        e += sign * arctangent[k];
        x -= sign * y_part;
        y += sign * x_part;
    }
    if (e < 0)
        e = 0;
    if (e > STRIPEAWN_X_MAX)
        e = STRIPEAWN_X_MAX;
    answer.angle = (int32_t)e;
    answer.e_sin = y;
    answer.e_cos = x;
    answer.j = certificate((uint32_t)e, p.cell);
    return answer;
}

#endif
