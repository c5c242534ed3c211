/*
** roots.c: what is said of doubles is true of their own root, and what is
** said of the nearest grid point need not be.
**
** The roots were worked out with hundreds of digits and rounded to doubles.
*/
#include <math.h>

#include "check.h"

#define DEGREE (PI / 180)

struct solved {
    double m, e, root;
    uint32_t n;       /* a tolerance, at which the judge is asked */
    uint32_t nearest; /* about the nearest grid point, which says this */
};

static const struct solved solved[] = {
    { 1e-5 * DEGREE, 1.0, 0x1.4cc1bb0af8debp-7, 1000, 17 },
    { 1e-8, 1.0, 0x1.009098c82e77ep-8, 1000, 17 },
    { 1e-7, 0.999999999, 0x1.145e5ad2b6ee0p-7, 1000, 17 },
    { 2e-9, 0.999999999, 0x1.2bf72aa9df9c3p-9, 1000, 17 },
    { 1e-9, 1.0, 0x1.dc58e7cb5d86cp-10, 1000, 18 },
    { 1e-300, 1.0, 0x1.96fd16d07b7fep-332, 0, 17 },
    { 1e-6, 0.999999998, 0x1.29b70ed1f1d13p-6, 100, 18 },
    { 1e-3, 0.99, 0x1.6ab1eed58473fp-4, 0, 18 },
    { 0.1, 0.9, 0x1.42fdec3f8dd57p-1, 0, 18 },
    { 0.5, 1.0, 0x1.7f4f140b74767p+0, 0, 18 },
    { 2.5, 0.3, 0x1.5259ad0c06894p+1, 0, 18 },
    { 3.14, 0.99, 0x1.92057b9ff0254p+1, 0, 18 },
};

/* The root is between the ends; code 6 says nothing of it. */
static void encloses_root(struct given g, double root, uint32_t depth)
{
    struct stripeawn_enclosure e = enclosure_of(g, depth);

    check(HERE,
          e.code == 6 || (e.code == 0 && e.lower * STRIPEAWN_UNIT <= root &&
                          root <= e.upper * STRIPEAWN_UNIT),
          "m=%a e=%a: root %a, code %lu, %ld to %ld", g.m, g.e, root,
          (unsigned long)e.code, (long)e.lower, (long)e.upper);
}

/* More than n units off the root nothing is Confirmed. */
static void not_confirmed(struct given g, double estimate, uint32_t n,
                          uint32_t depth)
{
    struct stripeawn_verdict got = verdict_of(g, estimate, n, depth);

    check(HERE, got.code == 4 || got.verdict == 17 || got.verdict == 18,
          "m=%a e=%a n=%lu: %a is Confirmed", g.m, g.e, (unsigned long)n,
          estimate);
    settled_agrees(HERE, g, estimate, n, depth, got);
}

/* The root is never Refuted, nor is it Confirmed n + 1 units away. */
static void judges_root(struct given g, double root, uint32_t n,
                        uint32_t depth)
{
    struct stripeawn_verdict got = verdict_of(g, root, n, depth);

    check(HERE, got.code == 0 && (got.verdict == 16 || got.verdict == 18),
          "m=%a e=%a n=%lu: root %a has code %lu, verdict %lu", g.m, g.e,
          (unsigned long)n, root, (unsigned long)got.code,
          (unsigned long)got.verdict);
    settled_agrees(HERE, g, root, n, depth, got);
    not_confirmed(g, root + STRIPEAWN_UNIT * (n + 1), n, depth);
    not_confirmed(g, root - STRIPEAWN_UNIT * (n + 1), n, depth);
}

/* The proposal's angle is as near as its certificate says. */
static void proposes_root(struct given g, double root)
{
    struct stripeawn_proposal p = proposal_of(g);

    check(HERE,
          p.code == 0 && fabs(p.angle * STRIPEAWN_UNIT - root) <=
                             ldexp(STRIPEAWN_UNIT, (int)p.j),
          "m=%a e=%a: root %a, angle %ld, j %lu", g.m, g.e, root,
          (long)p.angle, (unsigned long)p.j);
}

/* An estimate is no nearer to the root than least, nor farther than most. */
static void away_from_root(struct given g, double root, double estimate)
{
    struct stripeawn_off o = distance_of(g, estimate);
    double away = fabs(estimate - root) * STRIPEAWN_RADIAN;

    check(HERE,
          o.code == 4 || (o.code == 0 && o.least <= away && away <= o.most),
          "m=%a e=%a: root %a, estimate %a, code %lu, least %lu, most %lu",
          g.m, g.e, root, estimate, (unsigned long)o.code,
          (unsigned long)o.least, (unsigned long)o.most);
}

static void about_root(struct given g, double root)
{
    static const uint32_t tolerances[] = { 0, 1, 10, 1000, 30000, 65535 };
    uint32_t depth;
    size_t i;

    proposes_root(g, root);
    away_from_root(g, root, root);
    away_from_root(g, root, 0.0);
    away_from_root(g, root, g.m < 0 ? -units(T) : units(T));
    for (i = 0; i < COUNT(tolerances); i++) {
        away_from_root(g, root, root + STRIPEAWN_UNIT * tolerances[i]);
        away_from_root(g, root, root - STRIPEAWN_UNIT * tolerances[i]);
    }
    for (depth = 1; depth <= 5; depth++) {
        encloses_root(g, root, depth);
        for (i = 0; i < COUNT(tolerances); i++)
            judges_root(g, root, tolerances[i], depth);
    }
}

/* The right answer before the judge, for doubles and rounded to the grid. */
static void rounded_before(struct solved s)
{
    int32_t m = (int32_t)(s.m * ONE + 0.5);
    uint32_t a = (uint32_t)(s.e * ONE + 0.5), depth;

    for (depth = 1; depth <= 5; depth++) {
        given_verdict_is(HERE, doubles(s.m, s.e), s.root, s.n, depth, 0, 18);
        given_verdict_is(HERE, grid(m, a), s.root, s.n, depth, 0, s.nearest);
    }
}

/* Confirmed where the tolerance spans the enclosure, 2709311 to 2748072. */
static void test_confirmed(void)
{
    const struct solved *s = &solved[0];
    struct given g = doubles(s->m, s->e);

    given_enclosure_is(HERE, g, 5, 0, 2709311, 2748072);
    given_verdict_is(HERE, g, s->root, 22128, 5, 0, 18);
    given_verdict_is(HERE, g, s->root, 22129, 5, 0, 16);
    given_distance_is(HERE, g, s->root, 0, 0, 22129);
}

/* The grid point next to M = 1e-9 is 0, whose root is 0 and 487779 off. */
static void test_rounded_to_zero(void)
{
    enclosure_is(HERE, 0, ONE, 5, 0, 0, 0);
    given_enclosure_is(HERE, doubles(1e-9, 1.0), 5, 0, 0, 952744);
}

void test_roots(void)
{
    size_t i;

    for (i = 0; i < COUNT(solved); i++) {
        struct solved s = solved[i];

        about_root(doubles(s.m, s.e), s.root);
        about_root(doubles(-s.m, s.e), -s.root);
        rounded_before(s);
    }
    test_confirmed();
    test_rounded_to_zero();
}
