/*
** laws.c: what holds of every M and e as doubles, on many pseudo-random ones:
** on the grid they get the grid's answers; an end is accepted where both
** corners of the cell accept it; a verdict stays at greater depths, is the
** one that is given without a depth, and is contradicted by no distance.
*/
#include <math.h>

#include "check.h"
#include "off.h"

/* The distance of one estimate: grid and doubles. */
static void same_distance(struct given g, double estimate)
{
    struct stripeawn_off o = distance_of(g, estimate);

    given_distance_is(HERE, as_doubles(g), estimate, o.code, o.least,
                      o.most);
}

/* All other entries, near the ends of the enclosure: grid and doubles. */
static void same_on_grid(struct given g, uint32_t depth, uint32_t n)
{
    struct stripeawn_enclosure e = enclosure_of(g, depth);
    struct stripeawn_proposal p = proposal_of(g);
    int32_t x[] = { e.lower, e.lower + 1, e.upper, e.upper - 1, p.angle };
    double estimate = units(p.angle) + units(1) / 3 * (n % 3);
    struct stripeawn_verdict v = verdict_of(g, estimate, n, depth);
    struct stripeawn_settled s = settled_of(g, estimate, n);
    struct given d = as_doubles(g);
    size_t i;

    given_enclosure_is(HERE, d, depth, e.code, e.lower, e.upper);
    given_proposal_is(HERE, d, p);
    given_verdict_is(HERE, d, estimate, n, depth, v.code, v.verdict);
    given_settled_is(HERE, d, estimate, n, s.code, s.verdict, s.depth);
    for (i = 0; i < COUNT(x); i++) {
        struct stripeawn_end lower = end_of(LOWER, x[i], g, depth);
        struct stripeawn_end upper = end_of(UPPER, x[i], g, depth);

        given_end_is(HERE, LOWER, x[i], d, depth, lower.code, lower.accepted);
        given_end_is(HERE, UPPER, x[i], d, depth, upper.code, upper.accepted);
    }
}

/* Random doubles, brought to the grid. */
static void test_on_grid(void)
{
    uint64_t random = 1;
    uint32_t i;

    for (i = 0; i < 30000; i++) {
        struct given g = brought_to_grid(random_doubles(&random));
        uint32_t n = random_bits(&random) >> (48 + i % 16);

        same_on_grid(g, i % 5 + 1, n);
        if (i % 5 == 0) /* once for all depths, as it takes none */
            same_distance(g, units(proposal_of(g).angle) + units(n) / 3);
    }
}

/* How many ends one corner accepted and the other did not. */
static unsigned long split[2];

/* Whether both corners accept, which for M below 0 are those of -M. */
static uint32_t both_corners(int upper, int32_t x, struct given g,
                             uint32_t depth)
{
    int mirrored = g.m < 0, posed = mirrored ? !upper : upper;
    double m = fabs(g.m) * ONE, a = g.e * ONE;
    int32_t mean = (int32_t)(posed == UPPER ? ceil(m) : floor(m));
    int32_t angle = mirrored ? -x : x;
    uint32_t least = end_of(posed, angle, grid(mean, (uint32_t)floor(a)),
                            depth).accepted;
    uint32_t most = end_of(posed, angle, grid(mean, (uint32_t)ceil(a)),
                           depth).accepted;

    split[upper] += least != most;
    return least && most;
}

/* On both sides of an angle, as far as angles go. */
static void by_corners(int32_t x, struct given g, uint32_t depth)
{
    int32_t off;

    for (off = -4; off <= 4; off++) {
        int32_t near = x + off, size = g.m < 0 ? -near : near;

        if (size < 0 || size > T)
            continue;
        given_end_is(HERE, LOWER, near, g, depth, 0,
                     both_corners(LOWER, near, g, depth));
        given_end_is(HERE, UPPER, near, g, depth, 0,
                     both_corners(UPPER, near, g, depth));
    }
}

/* Cells around the ends that their least corner has on the grid. */
static void test_corners(void)
{
    uint64_t random = 2;
    uint32_t i;

    for (i = 0; i < 10000; i++) {
        struct given g = random_doubles(&random);
        struct stripeawn_enclosure e =
            stripeawn_enclose((int32_t)(g.m * ONE), (uint32_t)(g.e * ONE),
                              i % 5 + 1);

        by_corners(e.lower, g, i % 5 + 1);
        by_corners(e.upper, g, i % 5 + 1);
    }
    check(HERE, split[LOWER] > 1000 && split[UPPER] > 1000,
          "corners differ at %lu lower and %lu upper ends only", split[LOWER],
          split[UPPER]);
}

/* How many claims were settled at each depth and not before. */
static unsigned long settled[6];

/* Confirmed or Refuted at one depth is so at every greater one. */
static void kept(struct given g, double estimate, uint32_t n)
{
    uint32_t depth, last = 18;

    for (depth = 1; depth <= 5; depth++) {
        struct stripeawn_verdict v = verdict_of(g, estimate, n, depth);

        check(HERE,
              v.code == 4 || (v.code == 0 && (last == 18 ||
                                              v.verdict == last)),
              "m=%.17g e=%.17g estimate=%a n=%lu: %lu at depth %lu, then %lu",
              g.m, g.e, estimate, (unsigned long)n, (unsigned long)last,
              (unsigned long)depth - 1, (unsigned long)v.verdict);
        settled_agrees(HERE, g, estimate, n, depth, v);
        settled[depth] += v.code == 0 && last == 18 && v.verdict != 18;
        last = v.verdict;
    }
}

/* A distance with a verdict at every depth, or the same code 4. */
static void distance_agrees(struct given g, double estimate, uint32_t n)
{
    struct stripeawn_off o = distance_of(g, estimate);
    uint32_t depth;

    for (depth = 1; depth <= 5; depth++) {
        struct stripeawn_verdict v = verdict_of(g, estimate, n, depth);

        check(HERE, o.code == v.code && !contradicts(o, v.verdict, n),
              "m=%.17g e=%.17g estimate=%a n=%lu: code %lu, %lu to %lu off, "
              "at depth %lu code %lu, verdict %lu", g.m, g.e, estimate,
              (unsigned long)n, (unsigned long)o.code, (unsigned long)o.least,
              (unsigned long)o.most, (unsigned long)depth,
              (unsigned long)v.code, (unsigned long)v.verdict);
    }
}

/* Estimates from next to the proposal's angle to far away from it. */
static void test_kept(void)
{
    uint64_t random = 9;
    uint32_t i, depth;

    for (i = 0; i < 20000; i++) {
        struct given g = random_doubles(&random);
        int32_t off = (int32_t)(random_bits(&random) >> (35 + i % 29));
        uint32_t n = random_bits(&random) >> (48 + i % 16);
        int32_t angle = proposal_of(g).angle;
        double estimate = units(i % 2 ? angle - off : angle + off);

        kept(g, estimate, n);
        if (i % 3 == 0)
            distance_agrees(g, estimate, n);
    }
    for (depth = 1; depth <= 5; depth++)
        check(HERE, settled[depth] > 100, "%lu claims settled at depth %lu",
              settled[depth], (unsigned long)depth);
}

void test_laws(void)
{
    test_on_grid();
    test_corners();
    test_kept();
}
