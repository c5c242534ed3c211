/*
** threads.c: every entry from several threads at once, each on a stack of
** 64 KiB, as the header allows, or of the least that the system allows where
** that is more.
*/
#define _GNU_SOURCE /* for PTHREAD_STACK_MIN, which need not be a constant */
#include <limits.h>
#include <math.h>
#include <pthread.h>

#include "check.h"

enum { THREADS = 4, ORBITS = 200, STEPS = 20000, FLYBYS = 2000,
       STACK = 65536 };

/* Sums of everything that one pass over the entries returns. */
struct sums {
    uint64_t ends, enclosures, proposals, verdicts, settled, distances;
};

struct totals {
    uint64_t sine, cosine, answers, steps, judged_steps, judged_verdicts;
    uint64_t flyby_sinh;
    struct sums on_grid, of_doubles, flybys;
};

/* The entries that take M, on the grid or as doubles. */
static void add_given(struct sums *t, struct given g, uint32_t depth)
{
    struct stripeawn_enclosure e = enclosure_of(g, depth);
    struct stripeawn_proposal p = proposal_of(g);
    struct stripeawn_settled s = settled_of(g, units(p.angle), depth * 9);
    struct stripeawn_off o = distance_of(g, units(p.angle));

    t->ends += end_of(LOWER, p.angle, g, depth).accepted * 3 +
               end_of(UPPER, p.angle, g, depth).accepted;
    t->enclosures += (uint64_t)e.lower * 3 + (uint64_t)e.upper;
    t->proposals += (uint64_t)p.angle + (uint64_t)p.e_sin * 3 +
                    (uint64_t)p.e_cos * 5 + p.j;
    t->verdicts += verdict_of(g, units(p.angle), depth * 9, depth).verdict;
    t->settled += s.verdict * 6 + s.depth;
    t->distances += (uint64_t)o.least * 3 + o.most;
}

/* The entries that make a step, which take M on the grid. */
static void add_steps(struct totals *t, int32_t m, uint32_t a,
                      double estimate, uint32_t depth)
{
    uint32_t method;

    for (method = 1; method <= 2; method++) {
        struct stripeawn_stepped s = stripeawn_step(m, a, estimate, method);
        struct stripeawn_judged_step j = stripeawn_step_judged(
            m, a, estimate, method, depth * 9, depth);

        t->steps += to_bits(s.estimate) * 4 + s.step;
        t->judged_steps += to_bits(j.estimate) * 4 + j.step;
        t->judged_verdicts += j.verdict;
    }
}

/* The entries of flybys; the estimate is a lower end. */
static void add_flyby(struct totals *t, uint32_t m, uint32_t b)
{
    struct stripeawn_enclosure e = stripeawn_flyby_enclose(m, b);
    uint32_t x = (uint32_t)e.lower;
    struct stripeawn_bounds s = stripeawn_flyby_sinh(x);
    struct sums *f = &t->flybys;

    t->flyby_sinh += (uint64_t)s.lo * 3 + (uint64_t)s.hi;
    f->ends += stripeawn_flyby_lower_end(x, m, b).accepted * 3 +
               stripeawn_flyby_upper_end(x, m, b).accepted;
    f->enclosures += (uint64_t)e.lower * 3 + (uint64_t)e.upper + e.code;
    f->verdicts += stripeawn_flyby_judge(m, b, units(e.lower), 9).verdict;
}

/* All others; M and e as doubles are a third of a unit off the grid. */
static void add_orbit(struct totals *t, int32_t m, uint32_t a, uint32_t depth)
{
    struct stripeawn_bounds s = stripeawn_sine(m < 0 ? -m : m, depth);
    struct stripeawn_bounds c = stripeawn_cosine(m < 0 ? -m : m, depth);
    double estimate = units(stripeawn_propose(m, a).angle);
    struct given off = doubles((m - 1.0 / 3) / ONE, fabs(a - 1.0 / 3) / ONE);
    uint8_t claim[20], answer = 0;

    put_claim(claim, m, a, estimate, depth * 9, depth, 0);
    stripeawn_judge_claims(claim, 20, &answer, 1);
    t->sine += (uint64_t)s.lo * 3 + (uint64_t)s.hi;
    t->cosine += (uint64_t)c.lo * 3 + (uint64_t)c.hi;
    t->answers += answer;
    add_steps(t, m, a, estimate, depth);
    add_given(&t->on_grid, grid(m, a), depth);
    add_given(&t->of_doubles, off, depth);
}

/* The next of a row of pseudo-random numbers, below a limit. */
static uint32_t next(uint32_t *random, uint32_t limit)
{
    *random = *random * 1664525 + 1013904223;
    return *random % limit;
}

/* Steps by themselves are short, and threads meet in them more often. */
static void add_all_steps(struct totals *t, uint32_t *random)
{
    uint32_t i;

    for (i = 0; i < STEPS; i++) {
        int32_t size = (int32_t)next(random, H + 1);
        uint32_t a = next(random, ONE + 1);
        double far = units((int32_t)next(random, T + 1));

        add_steps(t, i % 2 ? -size : size, a, i % 2 ? -far : far, i % 5 + 1);
    }
}

static void *run(void *given)
{
    struct totals *t = given;
    static const struct totals none;
    uint32_t i, random = 1;

    *t = none;
    for (i = 0; i < ORBITS; i++) {
        int32_t size = (int32_t)next(&random, H + 1);
        uint32_t a = next(&random, ONE + 1);

        add_orbit(t, i % 2 ? -size : size, a, i % 5 + 1);
    }
    add_all_steps(t, &random);
    for (i = 0; i < FLYBYS; i++) {
        uint32_t m = next(&random, H + 1);

        add_flyby(t, m, ONE + next(&random, ONE + 1));
    }
    return NULL;
}

static int same_sums(struct sums s, struct sums t)
{
    return s.ends == t.ends && s.enclosures == t.enclosures &&
           s.proposals == t.proposals && s.verdicts == t.verdicts &&
           s.settled == t.settled && s.distances == t.distances;
}

static int same(const struct totals *s, const struct totals *t)
{
    return s->sine == t->sine && s->cosine == t->cosine &&
           s->answers == t->answers && s->steps == t->steps &&
           s->judged_steps == t->judged_steps &&
           s->judged_verdicts == t->judged_verdicts &&
           s->flyby_sinh == t->flyby_sinh &&
           same_sums(s->flybys, t->flybys) &&
           same_sums(s->on_grid, t->on_grid) &&
           same_sums(s->of_doubles, t->of_doubles);
}

static size_t stack_size(void)
{
    long least = PTHREAD_STACK_MIN;

    return least > STACK ? (size_t)least : STACK;
}

/* One pass has an answer to every orbit, and entries that agree. */
static void all_answered(const struct totals *t)
{
    check(HERE, t->answers == t->on_grid.verdicts && t->answers > 0,
          "batch and judge differ");
    check(HERE, t->of_doubles.verdicts >= 16 * ORBITS,
          "not every orbit as doubles is judged");
    check(HERE,
          t->on_grid.settled >= (16 * 6 + 1) * ORBITS &&
              t->of_doubles.settled >= (16 * 6 + 1) * ORBITS,
          "not every orbit is settled");
    check(HERE,
          t->on_grid.distances >= ORBITS && t->of_doubles.distances >= ORBITS,
          "not every orbit has a distance");
    check(HERE,
          t->flybys.verdicts >= 16 * FLYBYS && t->flybys.ends >= 3 * FLYBYS,
          "not every flyby is judged from a lower end");
    check(HERE, t->steps == t->judged_steps && t->steps != 0,
          "steps and judged steps differ");
    check(HERE, t->judged_verdicts >= 16 * STEPS,
          "fewer than every second step is judged");
}

void test_threads(void)
{
    struct totals alone, totals[THREADS];
    pthread_t threads[THREADS];
    pthread_attr_t small;
    int i, started = 0;

    run(&alone);
    all_answered(&alone);
    pthread_attr_init(&small);
    check(HERE, pthread_attr_setstacksize(&small, stack_size()) == 0,
          "no stack of %lu bytes", (unsigned long)stack_size());
    while (started < THREADS && pthread_create(&threads[started], &small, run,
                                               &totals[started]) == 0)
        started++;
    check(HERE, started == THREADS, "only %d threads", started);
    for (i = 0; i < started; i++) {
        pthread_join(threads[i], NULL);
        check(HERE, same(&totals[i], &alone), "thread %d answers otherwise",
              i);
    }
    pthread_attr_destroy(&small);
}
