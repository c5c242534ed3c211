/*
** distance_laws.c: what holds of every distance, on many orbits and on
** estimates about both ends, at their limits and anywhere: it is what the
** ends of the enclosure at depth 5 make it, every point between them is so
** far off, and no verdict says otherwise.
*/
#include <math.h>

#include "check.h"
#include "off.h"

/* What was met, on the grid and off it. */
enum { BELOW, BETWEEN_ENDS, ABOVE, REFUSED, IN_UNIT, KINDS };

static const char *const kinds[KINDS] = {
    "estimates below the ends", "estimates between the ends",
    "estimates above the ends", "estimates refused",
    "estimates in the unit beyond an end",
};

static unsigned long met[2][KINDS];

/* Verdicts with the least n, and the greatest, that a distance leaves them. */
static unsigned long least_met, most_met;

static int kind_of(struct stripeawn_enclosure e, double x)
{
    if (x < e.lower)
        return ceil(x) == e.lower ? IN_UNIT : BELOW;
    if (x > e.upper)
        return floor(x) == e.upper ? IN_UNIT : ABOVE;
    return BETWEEN_ENDS;
}

/* From end to end no point is nearer than least, nor farther than most. */
static void points_between(struct stripeawn_enclosure e, double x,
                           struct stripeawn_off o)
{
    double width = (double)e.upper - e.lower, part;

    for (part = 0; part <= 1; part += 0.25) {
        double away = fabs(e.lower + part * width - x);

        check(HERE, o.least <= o.most && o.least <= away && away <= o.most,
              "%.17g is %f from %.17g, least %lu, most %lu", x, away,
              e.lower + part * width, (unsigned long)o.least,
              (unsigned long)o.most);
    }
}

/* The verdict of a depth or, for depth 6, the settled one. */
static uint32_t said(struct given g, double estimate, uint32_t n,
                     uint32_t depth)
{
    return depth <= 5 ? verdict_of(g, estimate, n, depth).verdict
                      : settled_of(g, estimate, n).verdict;
}

static void not_contradicted(struct given g, double estimate,
                             struct stripeawn_off o, uint32_t n)
{
    uint32_t depth;

    for (depth = 1; depth <= 6; depth++) {
        uint32_t verdict = said(g, estimate, n, depth);

        check(HERE, verdict >= 16 && !contradicts(o, verdict, n),
              "m=%.17g e=%.17g estimate=%a n=%lu: verdict %lu, least %lu, "
              "most %lu", g.m, g.e, estimate, (unsigned long)n,
              (unsigned long)verdict, (unsigned long)o.least,
              (unsigned long)o.most);
        least_met += verdict == 16 && n == o.least;
        most_met += verdict == 17 && n + 1 == o.most;
    }
}

/* About both numbers, where verdicts turn; below 0 an n is past its limit. */
static void all_verdicts(struct given g, double estimate,
                         struct stripeawn_off o)
{
    uint32_t tolerances[] = { o.least - 1, o.least, o.most - 1, o.most,
                              65535 };
    size_t i;

    for (i = 0; i < COUNT(tolerances); i++)
        if (tolerances[i] <= 65535)
            not_contradicted(g, estimate, o, tolerances[i]);
}

/*
** An estimate of x units, refused where it is beyond its limits. The answer
** is held to the rule, and what the rule says to points and verdicts.
*/
static void estimate_is(struct given g, struct stripeawn_enclosure e,
                        double x)
{
    double estimate = x * STRIPEAWN_UNIT, size = g.m < 0 ? -x : x;
    struct stripeawn_off due;

    if (size < 0 || size > T) {
        given_distance_is(HERE, g, estimate, 4, 0, 0);
        met[g.is_double][REFUSED]++;
        return;
    }
    due = off_by_ends(e, estimate);
    given_distance_is(HERE, g, estimate, 0, due.least, due.most);
    points_between(e, x, due);
    all_verdicts(g, estimate, due);
    met[g.is_double][kind_of(e, x)]++;
}

/* Halves of units about an end, and the doubles next to it. */
static void about_end(struct given g, struct stripeawn_enclosure e,
                      double end)
{
    double off;

    for (off = -2; off <= 2; off += 0.5)
        estimate_is(g, e, end + off);
    estimate_is(g, e, nextafter(end * STRIPEAWN_UNIT, -4) * STRIPEAWN_RADIAN);
    estimate_is(g, e, nextafter(end * STRIPEAWN_UNIT, 4) * STRIPEAWN_RADIAN);
}

/* At the limits of estimates, on either side of 0. */
static void at_limits(struct given g, struct stripeawn_enclosure e)
{
    static const double limits[] = { 0, ABOVE_0 * ONE, 1e-300, 0.5, T - 0.5,
                                     T, T + 0x1p-20 };
    size_t i;

    for (i = 0; i < COUNT(limits); i++) {
        estimate_is(g, e, limits[i]);
        estimate_is(g, e, -limits[i]);
    }
}

static void orbit_is(struct given g, uint64_t *random)
{
    struct stripeawn_enclosure e = enclosure_of(g, 5);
    double side = g.m < 0 ? -1 : 1;
    double any = ldexp((double)(random_bits(random) >> 11), -53) * T;
    double near = (double)(random_bits(random) % 65536) / 8;

    check(HERE, e.code == 0, "m=%.17g e=%.17g: code %lu", g.m, g.e,
          (unsigned long)e.code);
    about_end(g, e, e.lower);
    about_end(g, e, e.upper);
    at_limits(g, e);
    estimate_is(g, e, side * any);
    estimate_is(g, e, side * floor(any));
    estimate_is(g, e, e.lower + ((double)e.upper - e.lower) / 2);
    estimate_is(g, e, e.lower - near);
    estimate_is(g, e, e.upper + near);
}

/* The limits of M and A and what is next to them, as grid and doubles. */
static void test_edges(void)
{
    static const int32_t anomalies[] = { 0, 1, -1, 1000, 42554808,
                                         -700000000, H - 1, H, -H };
    static const uint32_t eccentricities[] = { 0, 1, ONE / 2, ONE - 1, ONE };
    uint64_t random = 68;
    size_t i, k;

    for (i = 0; i < COUNT(anomalies); i++)
        for (k = 0; k < COUNT(eccentricities); k++) {
            struct given g = grid(anomalies[i], eccentricities[k]);

            orbit_is(g, &random);
            orbit_is(as_doubles(g), &random);
        }
}

/* Orbits of all kinds: as doubles, and brought to the grid. */
static void test_orbits(void)
{
    uint64_t random = 69;
    int i;

    for (i = 0; i < 100; i++) {
        struct given g = random_doubles(&random);

        orbit_is(g, &random);
        orbit_is(brought_to_grid(g), &random);
    }
}

void test_distance_laws(void)
{
    int i;

    test_edges();
    test_orbits();
    for (i = 0; i < 2 * KINDS; i++)
        check(HERE, met[i % 2][i / 2] > 200, "%s: %lu %s",
              i % 2 ? "doubles" : "grid", met[i % 2][i / 2], kinds[i / 2]);
    check(HERE, least_met > 1000 && most_met > 1000,
          "%lu verdicts at the least n, %lu at the greatest", least_met,
          most_met);
}
