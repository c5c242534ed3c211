/*
** agree.c: both sides of the benchmark, call by call and number by number.
**
** Every entry is called with the inputs, with their mirror, and with a few at
** limits and past them. The entries with a depth are called with 0 to 6,
** which has the refusal of either side of its limits in it. settle, which
** takes none, is called with four tolerances, and held against the library's
** own judge too, tried at one depth after the other. distance, which takes
** neither, is called with four estimates in place of one. agree_double.c has
** the entries that take M and e as doubles, agree_step.c cosine and steps,
** agree_flyby.c flybys.
*/
#include <math.h>
#include <stdio.h>

#include "agree.h"
#include "answers.h"
#include "inputs.h"
#include "plain.h"

/* What the entries are given, each taking what it needs. */
struct call {
    int32_t m, x;
    double estimate;
    uint32_t a, n, depth;
};

/*
** M, X, estimate and A, each at its limits, past them or on neither side; in
** the last two several are past them at once.
*/
static const struct {
    int32_t m, x;
    double estimate;
    uint32_t a;
} limits[] = {
    { STRIPEAWN_M_MAX, STRIPEAWN_X_MAX, 3.14, STRIPEAWN_A_MAX },
    { -STRIPEAWN_M_MAX, -STRIPEAWN_X_MAX, -3.14, STRIPEAWN_A_MAX },
    { STRIPEAWN_M_MAX + 1, 1, 1.0, 0 },
    { -STRIPEAWN_M_MAX - 1, -1, -1.0, 0 },
    { INT32_MAX, 0, 0.0, 0 },
    { INT32_MIN, 0, 0.0, 0 },
    { 1, STRIPEAWN_X_MAX + 1, 3.2, 0 },
    { -1, -STRIPEAWN_X_MAX - 1, -3.2, 0 },
    { 0, INT32_MAX, INFINITY, 0 },
    { -1, INT32_MIN, -INFINITY, 0 },
    { 0, -1, -STRIPEAWN_UNIT, 0 },
    { 1, -1, -STRIPEAWN_UNIT, 0 },
    { -1, 1, STRIPEAWN_UNIT, 0 },
    { 0, 0, -0.0, STRIPEAWN_A_MAX },
    { 1, 0, -0.0, 0 },
    { -1, 0, 0.0, 0 },
    { -1, 0, NAN, 0 },
    { -1, 0, -1.0, STRIPEAWN_A_MAX + 1 },
    { 1, -1, NAN, STRIPEAWN_A_MAX + 1 },
    { STRIPEAWN_M_MAX + 1, -1, NAN, STRIPEAWN_A_MAX + 1 },
};

/* What settle is given of N, on both sides of its limit. */
static const uint32_t tolerances[] = {
    0, TOLERANCE, STRIPEAWN_N_MAX, STRIPEAWN_N_MAX + 1
};

/* One call on both sides: counted, and printed where they differ. */
static void compare(const char *entry, const struct call *c, int same)
{
    if (!to_be_shown(same))
        return;
    printf("%s differs: M = %ld, A = %lu, X = %ld, estimate %a, n %lu, "
           "depth %lu\n",
           entry, (long)c->m, (unsigned long)c->a, (long)c->x, c->estimate,
           (unsigned long)c->n, (unsigned long)c->depth);
}

/* An X below 0 is a number far above T here. */
static void compare_sine(const struct call *c)
{
    struct stripeawn_bounds s = stripeawn_sine((uint32_t)c->x, c->depth);
    struct stripeawn_bounds p = plain_sine((uint32_t)c->x, c->depth);

    compare("sine", c, s.code == p.code && s.lo == p.lo && s.hi == p.hi);
}

static void compare_ends(const struct call *c)
{
    compare("lower_end", c,
            same_ends(stripeawn_lower_end(c->x, c->m, c->a, c->depth),
                      plain_lower_end(c->x, c->m, c->a, c->depth)));
    compare("upper_end", c,
            same_ends(stripeawn_upper_end(c->x, c->m, c->a, c->depth),
                      plain_upper_end(c->x, c->m, c->a, c->depth)));
}

static void compare_enclosure(const struct call *c)
{
    compare("enclose", c,
            same_enclosures(stripeawn_enclose(c->m, c->a, c->depth),
                            plain_enclose(c->m, c->a, c->depth)));
}

static void compare_verdict(const struct call *c)
{
    compare("judge", c,
            same_verdicts(stripeawn_judge(c->m, c->a, c->estimate, c->n,
                                          c->depth),
                          plain_judge(c->m, c->a, c->estimate, c->n,
                                      c->depth)));
}

static struct stripeawn_settled judged_in_turn(const struct call *c)
{
    struct stripeawn_verdict judged[STRIPEAWN_DEPTH_MAX];
    uint32_t i;

    for (i = 0; i < STRIPEAWN_DEPTH_MAX; i++)
        judged[i] = stripeawn_judge(c->m, c->a, c->estimate, c->n, i + 1);
    return in_turn(judged);
}

static void compare_settled(struct call c)
{
    size_t i;

    for (i = 0; i < COUNT(tolerances); i++) {
        struct stripeawn_settled s;

        c.n = tolerances[i];
        s = stripeawn_settle(c.m, c.a, c.estimate, c.n);
        compare("settle", &c,
                same_settled(s, plain_settle(c.m, c.a, c.estimate, c.n)));
        compare("settle", &c, same_settled(s, judged_in_turn(&c)));
    }
}

static void compare_distance(struct call c)
{
    const double estimate = c.estimate;
    int i;

    for (i = 0; i < MOVES; i++) {
        c.estimate = moved(estimate, i);
        compare("distance", &c,
                same_off(stripeawn_distance(c.m, c.a, c.estimate),
                         plain_distance(c.m, c.a, c.estimate)));
    }
}

static void compare_proposal(const struct call *c)
{
    compare("propose", c,
            same_proposals(stripeawn_propose(c->m, c->a),
                           plain_propose(c->m, c->a)));
}

/* One batch of the claims of all calls, answer by answer. */
static void compare_batches(const struct call *calls, size_t count)
{
    static uint8_t records[STRIPEAWN_CLAIM_BYTES * INPUTS];
    static uint8_t answers[INPUTS], plain_answers[INPUTS];
    size_t length = STRIPEAWN_CLAIM_BYTES * count, i;
    struct stripeawn_batch s, p;

    for (i = 0; i < count; i++)
        put_claim(records + STRIPEAWN_CLAIM_BYTES * i, calls[i].m, calls[i].a,
                  calls[i].estimate);
    s = stripeawn_judge_claims(records, length, answers, count);
    p = plain_judge_claims(records, length, plain_answers, count);
    compare("judge_claims", calls, s.code == p.code && s.count == p.count);
    for (i = 0; i < count; i++)
        compare("judge_claims", &calls[i], answers[i] == plain_answers[i]);
}

/* Every entry over these calls. */
static void compare_entries(const struct call *calls, size_t count)
{
    size_t i;

    for (i = 0; i < count; i++) {
        struct call c = calls[i];

        for (c.depth = 0; c.depth <= STRIPEAWN_DEPTH_MAX + 1; c.depth++) {
            compare_sine(&c);
            compare_ends(&c);
            compare_enclosure(&c);
            compare_verdict(&c);
        }
        compare_proposal(&calls[i]);
        compare_settled(calls[i]);
        compare_distance(calls[i]);
    }
    compare_batches(calls, count);
}

/* The inputs times 1 or -1; a small angle is an estimate too. */
static void compare_inputs(int sign)
{
    static struct call calls[INPUTS], small_calls[INPUTS];
    int i;

    for (i = 0; i < INPUTS; i++) {
        int32_t x = sign * small_angles[i];
        struct call c = { sign * anomalies[i], sign * angles[i],
                          sign * estimates[i], eccentricities[i], TOLERANCE,
                          DEPTH };
        struct call small = { sign * small_anomalies[i], x,
                              x * STRIPEAWN_UNIT, great_eccentricities[i],
                              TOLERANCE, DEPTH };

        calls[i] = c;
        small_calls[i] = small;
    }
    compare_entries(calls, INPUTS);
    compare_entries(small_calls, INPUTS);
}

static void compare_limits(void)
{
    struct call calls[COUNT(limits)];
    size_t i;

    for (i = 0; i < COUNT(limits); i++) {
        struct call c = { limits[i].m, limits[i].x, limits[i].estimate,
                          limits[i].a, TOLERANCE, DEPTH };

        calls[i] = c;
    }
    compare_entries(calls, COUNT(limits));
}

int sides_agree(void)
{
    compare_inputs(1);
    compare_inputs(-1);
    compare_limits();
    compare_doubles();
    compare_steps();
    compare_flybys();
    return none_differ();
}
