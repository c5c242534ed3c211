/*
** plain.c: the rules of the library in plain C, the measure for bench.c.
**
** Written to be read beside the rules: two running terms for sine, two
** binary searches for an enclosure or a distance, fifty rotations for a
** proposal, four ends for a verdict, a few doubles for a step, which
** plain_sine.h, plain_cosine.h, plain_cell.h, plain_judge.h and plain_step.h
** have. All this is for M not below 0; plain_mirror.c has the entries for
** every M. On the grid a cell is one point. plain_flyby.c has flybys.
*/
#include "plain_cell.h"
#include "plain_cosine.h"
#include "plain_judge.h"
#include "plain_step.h"
#include "unmirrored.h"

/* Of a point both roundings are the number itself. */
static int lower_by(uint32_t x, struct cell c, struct series s)
{
    return UNIT * ((int64_t)x - c.m.down) <= (int64_t)c.a.down * s.lo;
}

static int upper_by(uint32_t x, struct cell c, struct series s)
{
    return UNIT * ((int64_t)x - c.m.up) >= (int64_t)c.a.up * s.hi;
}

/* The codes 1, 2 and 3 in their order, or 0. */
static uint32_t orbit_code(uint32_t m, uint32_t a, uint32_t depth)
{
    if (m > STRIPEAWN_M_MAX)
        return 1;
    if (a > STRIPEAWN_A_MAX)
        return 2;
    return depth_code(depth);
}

static struct problem point(uint32_t m, uint32_t a, uint32_t depth)
{
    struct problem p = { orbit_code(m, a, depth), depth,
                         { { m, m }, { a, a } } };

    return p;
}

struct stripeawn_bounds plain_sine(uint32_t x, uint32_t depth)
{
    uint32_t code = angle_code(x, orbit_code(0, 0, depth));
    struct stripeawn_bounds answer = { code, 0, 0 };
    struct series s;

    if (answer.code != 0)
        return answer;
    s = bounds(x, depth);
    answer.lo = s.lo;
    answer.hi = s.hi;
    return answer;
}

struct stripeawn_bounds plain_cosine(uint32_t x, uint32_t depth)
{
    uint32_t code = angle_code(x, orbit_code(0, 0, depth));
    struct stripeawn_bounds answer = { code, 0, 0 };
    struct series s;

    if (answer.code != 0)
        return answer;
    s = cosine_bounds(x, depth);
    answer.lo = s.lo;
    answer.hi = s.hi;
    return answer;
}

struct stripeawn_end unmirrored_lower_end(uint32_t x, uint32_t m, uint32_t a,
                                          uint32_t depth)
{
    return lower_end(x, point(m, a, depth));
}

struct stripeawn_end unmirrored_upper_end(uint32_t x, uint32_t m, uint32_t a,
                                          uint32_t depth)
{
    return upper_end(x, point(m, a, depth));
}

struct stripeawn_enclosure unmirrored_enclose(uint32_t m, uint32_t a,
                                              uint32_t depth)
{
    return enclose(point(m, a, depth));
}

struct stripeawn_proposal unmirrored_propose(uint32_t m, uint32_t a)
{
    return propose(point(m, a, 5));
}

struct stripeawn_verdict unmirrored_judge(uint32_t m, uint32_t a,
                                          double estimate, uint32_t n,
                                          uint32_t depth)
{
    return judge(point(m, a, depth), estimate, n);
}

struct stripeawn_settled unmirrored_settle(uint32_t m, uint32_t a,
                                           double estimate, uint32_t n)
{
    return settle(point(m, a, 5), estimate, n, EACH_DEPTH);
}

struct stripeawn_off unmirrored_distance(uint32_t m, uint32_t a,
                                         double estimate)
{
    return distance(point(m, a, 5), estimate);
}

struct stripeawn_stepped unmirrored_step(uint32_t m, uint32_t a,
                                         double estimate, uint32_t method)
{
    return step(point(m, a, 5), estimate, method);
}

struct stripeawn_judged_step unmirrored_step_judged(uint32_t m, uint32_t a,
                                                    double estimate,
                                                    uint32_t method,
                                                    uint32_t n,
                                                    uint32_t depth)
{
    return step_judged(point(m, a, depth), estimate, method, n);
}
