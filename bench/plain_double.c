/*
** plain_double.c: the entries of unmirrored.h that take M and e as doubles.
**
** A cell is what two doubles leave of whole units: each product with 2^28 is
** exact, and rounded down and up. The rules over it are those of plain.c.
*/
#include "plain_cell.h"
#include "plain_judge.h"
#include "unmirrored.h"

static int lower_by(uint32_t x, struct cell c, struct series s)
{
    return UNIT * ((int64_t)x - c.m.down) <=
           lesser(c.a.down * s.lo, c.a.up * s.lo);
}

static int upper_by(uint32_t x, struct cell c, struct series s)
{
    return UNIT * ((int64_t)x - c.m.up) >=
           greater(c.a.down * s.hi, c.a.up * s.hi);
}

/* The codes 1, 2 and 3 in their order, or 0. */
static uint32_t orbit_code(double m, double e, uint32_t depth)
{
    if (!within(m, STRIPEAWN_M_MAX))
        return 1;
    if (!within(e, STRIPEAWN_A_MAX))
        return 2;
    return depth_code(depth);
}

static struct problem rounded(double m, double e, uint32_t depth)
{
    struct problem p = { orbit_code(m, e, depth), depth,
                         { { 0, 0 }, { 0, 0 } } };

    if (p.code != 0)
        return p;
    p.cell.m = in_units(m);
    p.cell.a = in_units(e);
    return p;
}

struct stripeawn_end unmirrored_lower_end_double(uint32_t x, double m,
                                                 double e, uint32_t depth)
{
    return lower_end(x, rounded(m, e, depth));
}

struct stripeawn_end unmirrored_upper_end_double(uint32_t x, double m,
                                                 double e, uint32_t depth)
{
    return upper_end(x, rounded(m, e, depth));
}

struct stripeawn_enclosure unmirrored_enclose_double(double m, double e,
                                                     uint32_t depth)
{
    return enclose(rounded(m, e, depth));
}

struct stripeawn_proposal unmirrored_propose_double(double m, double e)
{
    return propose(rounded(m, e, 5));
}

struct stripeawn_verdict unmirrored_judge_double(double m, double e,
                                                 double estimate, uint32_t n,
                                                 uint32_t depth)
{
    return judge(rounded(m, e, depth), estimate, n);
}

struct stripeawn_settled unmirrored_settle_double(double m, double e,
                                                  double estimate,
                                                  uint32_t n)
{
    return settle(rounded(m, e, 5), estimate, n, EACH_DEPTH);
}

struct stripeawn_off unmirrored_distance_double(double m, double e,
                                                double estimate)
{
    return distance(rounded(m, e, 5), estimate);
}
