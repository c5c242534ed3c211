/*
** agree_step.c: the part of agree.c with cosine, and with steps.
**
** Cosine is called with the angles of the inputs. Steps are taken from the
** starts of the inputs and their mirror, along loops that begin at M, from
** every quarter of a unit next to 0, where a divisor can be zero or below it,
** and from a list that has what is at a limit, next to it and past it. A
** judged step is held against the library's own step and judge too.
*/
#include <math.h>
#include <stdio.h>

#include "agree.h"
#include "answers.h"
#include "inputs.h"
#include "plain.h"

#define T (STRIPEAWN_X_MAX * STRIPEAWN_UNIT)
#define LEAST 0x1p-1074

/* What a step is given, and how it is judged. */
struct call {
    struct start start;
    uint32_t n, depth;
};

/* M, A and an estimate; each is taken with both signs of M and estimate. */
static const struct {
    int32_t m;
    uint32_t a;
    double estimate;
} limits[] = {
    { STRIPEAWN_M_MAX, STRIPEAWN_A_MAX, T },
    { STRIPEAWN_M_MAX, 0, T },
    { STRIPEAWN_M_MAX, 0, T + 0x1p-51 },
    { STRIPEAWN_M_MAX + 1, 0, 1.0 },
    { INT32_MAX, STRIPEAWN_A_MAX + 1, NAN },
    { 1, STRIPEAWN_A_MAX, 1.0 },
    { 1, STRIPEAWN_A_MAX + 1, 1.0 },
    { 1, STRIPEAWN_A_MAX + 1, NAN },
    { 1, UINT32_MAX, -1.0 },
    { 1, 1, NAN },
    { 1, 1, INFINITY },
    { 1, 1, -LEAST },
    { 0, 1, LEAST },
    { 0, 0, 0.0 },
    { 0, STRIPEAWN_A_MAX, 0.0 },
    { 1, STRIPEAWN_A_MAX, 0.0 },
    { 1, STRIPEAWN_A_MAX, LEAST },
    /* The new estimate is zero, of M below 0 too; then T, and above it. */
    { 1, STRIPEAWN_A_MAX / 2 + 1, 0x1.ffffffep-28 },
    { 199229440, STRIPEAWN_A_MAX, 0x1.8a07940738abp-1 },
    { 199229440, STRIPEAWN_A_MAX, 0x1.8a07940738aafp-1 },
    { 267386880, 206330695, 0x1.b1c492b2c2f18p-5 },
    { 267386880, 206330695, 0x1.b1c492b2c2f17p-5 },
};

static const uint32_t methods[] = {
    0, STRIPEAWN_NEWTON, STRIPEAWN_HALLEY, STRIPEAWN_FLAT, UINT32_MAX
};

static const uint32_t tolerances[] = {
    0, TOLERANCE, STRIPEAWN_N_MAX, STRIPEAWN_N_MAX + 1
};

static const uint32_t edges[] = {
    0, 1, STRIPEAWN_RADIAN, STRIPEAWN_X_MAX, STRIPEAWN_X_MAX + 1, UINT32_MAX
};

static void compare_cosine(uint32_t x)
{
    uint32_t depth;

    for (depth = 0; depth <= STRIPEAWN_DEPTH_MAX + 1; depth++) {
        struct stripeawn_bounds s = stripeawn_cosine(x, depth);
        struct stripeawn_bounds p = plain_cosine(x, depth);

        if (to_be_shown(s.code == p.code && s.lo == p.lo && s.hi == p.hi))
            printf("cosine differs: X = %lu, depth %lu\n", (unsigned long)x,
                   (unsigned long)depth);
    }
}

/* One call on both sides: counted, and printed where they differ. */
static void compare(const char *entry, const struct call *c, int same)
{
    const struct start *g = &c->start;

    if (!to_be_shown(same))
        return;
    printf("%s differs: M = %ld, A = %lu, estimate %a, method %lu, n %lu, "
           "depth %lu\n",
           entry, (long)g->m, (unsigned long)g->a, g->estimate,
           (unsigned long)g->method, (unsigned long)c->n,
           (unsigned long)c->depth);
}

/* The library's step, compared. */
static struct stripeawn_stepped compare_step(const struct call *c)
{
    const struct start *g = &c->start;
    struct stripeawn_stepped s =
        stripeawn_step(g->m, g->a, g->estimate, g->method);

    compare("step", c,
            same_steps(s, plain_step(g->m, g->a, g->estimate, g->method)));
    return s;
}

/* What a judged step has to answer, by the library's step and its judge. */
static struct stripeawn_judged_step by_hand(const struct call *c)
{
    const struct start *g = &c->start;
    struct stripeawn_stepped s =
        stripeawn_step(g->m, g->a, g->estimate, g->method);
    struct stripeawn_verdict v =
        stripeawn_judge(g->m, g->a, g->estimate, c->n, c->depth);
    struct stripeawn_judged_step answer = { v.code, 0, 0.0, 0 };

    if (v.code == 0)
        answer.code = s.code; /* the last in order is a bad method */
    if (answer.code != 0)
        return answer;
    answer.step = s.step;
    answer.estimate = s.estimate;
    if (s.step != STRIPEAWN_FLAT)
        answer.verdict =
            stripeawn_judge(g->m, g->a, s.estimate, c->n, c->depth).verdict;
    return answer;
}

static void compare_judged(const struct call *c)
{
    const struct start *g = &c->start;
    struct stripeawn_judged_step s = stripeawn_step_judged(
        g->m, g->a, g->estimate, g->method, c->n, c->depth);
    struct stripeawn_judged_step p = plain_step_judged(
        g->m, g->a, g->estimate, g->method, c->n, c->depth);

    compare("step_judged", c, same_judged_steps(s, p));
    compare("step_judged", c, same_judged_steps(s, by_hand(c)));
}

/* The step, and judged at every depth. */
static void compare_depths(struct call c)
{
    compare_step(&c);
    for (c.depth = 0; c.depth <= STRIPEAWN_DEPTH_MAX + 1; c.depth++)
        compare_judged(&c);
}

/* Both methods, of the start and of its mirror. */
static void compare_start(int32_t m, uint32_t a, double estimate)
{
    uint32_t method;
    int sign;

    for (sign = -1; sign <= 1; sign += 2)
        for (method = STRIPEAWN_NEWTON; method <= STRIPEAWN_HALLEY; method++) {
            struct call c = { { sign * m, a, method, sign * estimate },
                              TOLERANCE, DEPTH };

            compare_depths(c);
        }
}

/* Ten steps from M on, or those before a flat one. */
static void compare_loop(int32_t m, uint32_t a, uint32_t method)
{
    struct call c = { { m, a, method, m * STRIPEAWN_UNIT }, TOLERANCE, DEPTH };
    int steps;

    for (steps = 0; steps < 10; steps++) {
        struct stripeawn_stepped s = compare_step(&c);

        compare_judged(&c);
        if (s.step != method)
            break;
        c.start.estimate = s.estimate;
    }
}

static void compare_loops(int32_t m, uint32_t a)
{
    uint32_t method;

    for (method = STRIPEAWN_NEWTON; method <= STRIPEAWN_HALLEY; method++) {
        compare_loop(m, a, method);
        compare_loop(-m, a, method);
    }
}

/* M of a few units and e from one half up: all of what rounding can do. */
static void compare_near_zero(void)
{
    int32_t m, quarters;
    uint32_t less;

    for (m = 0; m <= 2; m++)
        for (less = 0; less <= 2; less++)
            for (quarters = 0; quarters <= 32; quarters++) {
                double estimate = quarters * (STRIPEAWN_UNIT / 4);

                compare_start(m, STRIPEAWN_A_MAX - less, estimate);
                compare_start(m, STRIPEAWN_A_MAX / 2 + less, estimate);
            }
}

static void compare_limits(int32_t m, uint32_t a, double estimate)
{
    size_t i, k;

    for (i = 0; i < COUNT(methods); i++)
        for (k = 0; k < COUNT(tolerances); k++) {
            struct call c = { { m, a, methods[i], estimate }, tolerances[k],
                              DEPTH };

            compare_depths(c);
        }
}

void compare_steps(void)
{
    size_t i;

    for (i = 0; i < INPUTS; i++) {
        compare_cosine((uint32_t)angles[i]);
        compare_cosine((uint32_t)small_angles[i]);
        compare_start(starts[i].m, starts[i].a, starts[i].estimate);
        compare_loops(anomalies[i], eccentricities[i]);
        compare_loops(small_anomalies[i], great_eccentricities[i]);
    }
    compare_near_zero();
    for (i = 0; i < COUNT(edges); i++)
        compare_cosine(edges[i]);
    for (i = 0; i < COUNT(limits); i++) {
        compare_limits(limits[i].m, limits[i].a, limits[i].estimate);
        compare_limits(-limits[i].m, limits[i].a, -limits[i].estimate);
    }
    compare_limits(INT32_MIN, 0, -1.0);
}
