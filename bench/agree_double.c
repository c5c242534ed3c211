/*
** agree_double.c: the part of agree.c with M and e as doubles.
**
** Every entry is called with the inputs off the grid and on it, with the
** mirror of both, and with each M and each e of two lists that have what is
** at a limit, next to it and past it. settle is held against the library's
** own judge too, tried at one depth after the other, distance is called with
** four estimates in place of one, and on the grid the library's entries of
** both kinds are held against each other.
*/
#include <float.h>
#include <math.h>
#include <stdio.h>

#include "agree.h"
#include "answers.h"
#include "inputs.h"
#include "plain.h"

/* H and T in radians, and what lies between them and the doubles beside. */
#define H (STRIPEAWN_M_MAX * STRIPEAWN_UNIT)
#define T (STRIPEAWN_X_MAX * STRIPEAWN_UNIT)
#define STEP 0x1p-51
#define LEAST 0x1p-1074

/* Each is taken with both signs. */
static const double means[] = {
    0.0, LEAST, 1e-300, DBL_MIN, STRIPEAWN_UNIT / 2,
    STRIPEAWN_UNIT * (1 - 0x1p-53), STRIPEAWN_UNIT,
    STRIPEAWN_UNIT * (1 + 0x1p-52), 0.1, 1.0, 3.0, H - STEP, H, H + STEP,
    3.141592653589793, T, 1e300, DBL_MAX, INFINITY, NAN
};

static const double shapes[] = {
    0.0, -0.0, LEAST, -LEAST, 1e-300, STRIPEAWN_UNIT / 2, STRIPEAWN_UNIT,
    0.3, 0.9, 1 - 0x1p-53, 1.0, 1 + 0x1p-52, 2.0, -1.0, DBL_MAX, INFINITY,
    -INFINITY, NAN
};

/* An angle, an estimate and a tolerance. */
static const struct beside {
    int32_t x;
    double estimate;
    uint32_t n;
} besides[] = {
    { 0, 0.0, 0 }, { 0, -0.0, TOLERANCE },
    { 1, LEAST, 0 }, { -1, -LEAST, 0 },
    { 500000000, 1.9, TOLERANCE }, { -500000000, -1.9, TOLERANCE },
    { STRIPEAWN_X_MAX, T, STRIPEAWN_N_MAX },
    { -STRIPEAWN_X_MAX, -T, STRIPEAWN_N_MAX },
    { STRIPEAWN_X_MAX + 1, T + STEP, 0 },
    { -STRIPEAWN_X_MAX - 1, -T - STEP, 0 },
    { INT32_MAX, INFINITY, 0 }, { INT32_MIN, -INFINITY, 0 },
    { 1, 0.0, STRIPEAWN_N_MAX + 1 }, { -1, NAN, STRIPEAWN_N_MAX + 1 },
};

/* What the entries are given, each taking what it needs. */
struct call {
    struct doubles given;
    uint32_t n, depth;
};

static void compare(const char *entry, const struct call *c, int same)
{
    const struct doubles *g = &c->given;

    if (!to_be_shown(same))
        return;
    printf("%s_double differs: M = %a, e = %a, X = %ld, estimate %a, n %lu, "
           "depth %lu\n",
           entry, g->m, g->e, (long)g->x, g->estimate, (unsigned long)c->n,
           (unsigned long)c->depth);
}

/*
** The library's answer to a call, held against another answer to it: that of
** the plain C version, or the library's own to the same orbit on the grid.
*/
static void hold_lower_end(const struct call *c, struct stripeawn_end other)
{
    const struct doubles *g = &c->given;

    compare("lower_end", c,
            same_ends(stripeawn_lower_end_double(g->x, g->m, g->e, c->depth),
                      other));
}

static void hold_upper_end(const struct call *c, struct stripeawn_end other)
{
    const struct doubles *g = &c->given;

    compare("upper_end", c,
            same_ends(stripeawn_upper_end_double(g->x, g->m, g->e, c->depth),
                      other));
}

static void hold_enclosure(const struct call *c,
                           struct stripeawn_enclosure other)
{
    const struct doubles *g = &c->given;

    compare("enclose", c,
            same_enclosures(stripeawn_enclose_double(g->m, g->e, c->depth),
                            other));
}

static void hold_proposal(const struct call *c,
                          struct stripeawn_proposal other)
{
    const struct doubles *g = &c->given;

    compare("propose", c,
            same_proposals(stripeawn_propose_double(g->m, g->e), other));
}

static void hold_verdict(const struct call *c, struct stripeawn_verdict other)
{
    const struct doubles *g = &c->given;

    compare("judge", c,
            same_verdicts(stripeawn_judge_double(g->m, g->e, g->estimate,
                                                 c->n, c->depth),
                          other));
}

static void hold_settled(const struct call *c, struct stripeawn_settled other)
{
    const struct doubles *g = &c->given;

    compare("settle", c,
            same_settled(stripeawn_settle_double(g->m, g->e, g->estimate,
                                                 c->n),
                         other));
}

static void hold_off(const struct call *c, struct stripeawn_off other)
{
    const struct doubles *g = &c->given;

    compare("distance", c,
            same_off(stripeawn_distance_double(g->m, g->e, g->estimate),
                     other));
}

static struct stripeawn_settled judged_in_turn(const struct call *c)
{
    const struct doubles *g = &c->given;
    struct stripeawn_verdict judged[STRIPEAWN_DEPTH_MAX];
    uint32_t i;

    for (i = 0; i < STRIPEAWN_DEPTH_MAX; i++)
        judged[i] = stripeawn_judge_double(g->m, g->e, g->estimate, c->n,
                                           i + 1);
    return in_turn(judged);
}

static void compare_distance(struct call c)
{
    const struct doubles g = c.given;
    int i;

    for (i = 0; i < MOVES; i++) {
        c.given.estimate = moved(g.estimate, i);
        hold_off(&c, plain_distance_double(g.m, g.e, c.given.estimate));
    }
}

/* The entries that take nothing beside the orbit. */
static void compare_orbit(struct call c)
{
    double m = c.given.m, e = c.given.e;

    hold_proposal(&c, plain_propose_double(m, e));
    for (c.depth = 0; c.depth <= STRIPEAWN_DEPTH_MAX + 1; c.depth++)
        hold_enclosure(&c, plain_enclose_double(m, e, c.depth));
}

/* The entries that take an angle or an estimate too. */
static void compare_beside(struct call c)
{
    const struct doubles g = c.given;

    hold_settled(&c, plain_settle_double(g.m, g.e, g.estimate, c.n));
    hold_settled(&c, judged_in_turn(&c));
    compare_distance(c);
    for (c.depth = 0; c.depth <= STRIPEAWN_DEPTH_MAX + 1; c.depth++) {
        hold_lower_end(&c, plain_lower_end_double(g.x, g.m, g.e, c.depth));
        hold_upper_end(&c, plain_upper_end_double(g.x, g.m, g.e, c.depth));
        hold_verdict(&c, plain_judge_double(g.m, g.e, g.estimate, c.n,
                                            c.depth));
    }
}

/* The inputs times 1 or -1. */
static void compare_inputs(const struct doubles *inputs, int sign)
{
    int i;

    for (i = 0; i < INPUTS; i++) {
        const struct doubles *g = &inputs[i];
        struct call c = { { sign * g->m, g->e, sign * g->estimate,
                            sign * g->x }, TOLERANCE, DEPTH };

        compare_orbit(c);
        compare_beside(c);
    }
}

static void compare_limits(double m, double e)
{
    struct call c = { { m, e, 0.0, 0 }, 0, DEPTH };
    size_t i;

    compare_orbit(c);
    for (i = 0; i < COUNT(besides); i++) {
        c.given.x = besides[i].x;
        c.given.estimate = besides[i].estimate;
        c.n = besides[i].n;
        compare_beside(c);
    }
}

/* An orbit on the grid, as doubles and as whole units. */
static void compare_twins(int i)
{
    struct call c = { on_grid[i], TOLERANCE, DEPTH };
    int32_t m = anomalies[i], x = angles[i];
    uint32_t a = eccentricities[i];

    hold_lower_end(&c, stripeawn_lower_end(x, m, a, DEPTH));
    hold_upper_end(&c, stripeawn_upper_end(x, m, a, DEPTH));
    hold_enclosure(&c, stripeawn_enclose(m, a, DEPTH));
    hold_proposal(&c, stripeawn_propose(m, a));
    hold_verdict(&c, stripeawn_judge(m, a, estimates[i], TOLERANCE, DEPTH));
    hold_settled(&c, stripeawn_settle(m, a, estimates[i], TOLERANCE));
    hold_off(&c, stripeawn_distance(m, a, estimates[i]));
}

void compare_doubles(void)
{
    size_t i, k;
    int sign;

    for (sign = -1; sign <= 1; sign += 2) {
        compare_inputs(off_grid, sign);
        compare_inputs(on_grid, sign);
        for (i = 0; i < COUNT(means); i++)
            for (k = 0; k < COUNT(shapes); k++)
                compare_limits(sign * means[i], shapes[k]);
    }
    for (i = 0; i < INPUTS; i++)
        compare_twins((int)i);
}
