/*
** mirror.c: M below 0. First numbers that are written out, so that they do
** not rest on the mirroring in check.c; then many answers, each held to that
** of -M.
*/
#include "check.h"

/* A = 2^28, X = -2^28: the M at which each test turns. */
static void test_stated_ends(void)
{
    upper_is(HERE, -ONE, -42554811, ONE, 5, 0, 1);
    upper_is(HERE, -ONE, -42554810, ONE, 5, 0, 0);
    lower_is(HERE, -ONE, -42554805, ONE, 5, 0, 1);
    lower_is(HERE, -ONE, -42554806, ONE, 5, 0, 0);
    upper_is(HERE, -ONE, -44739243, ONE, 1, 0, 1);
    upper_is(HERE, -ONE, -44739242, ONE, 1, 0, 0);
    lower_is(HERE, -ONE, -42502279, ONE, 1, 0, 1);
    lower_is(HERE, -ONE, -42502280, ONE, 1, 0, 0);
    upper_is(HERE, -755614006, -734064451, 67147247, 5, 0, 0);
    upper_is(HERE, -755614007, -734064451, 67147247, 5, 0, 1);
}

/* 0 is an upper end and no lower one, -T the other way round. */
static void test_limits_of_ends(void)
{
    upper_is(HERE, 0, -1, ONE, 1, 0, 1);
    lower_is(HERE, 0, -1, ONE, 1, 0, 0);
    upper_is(HERE, 0, -H, 0, 5, 0, 1);
    lower_is(HERE, 0, -H, 0, 5, 0, 0);
    upper_is(HERE, -T, -H, ONE, 5, 0, 0);
    lower_is(HERE, -T, -H, ONE, 5, 0, 1);
    lower_is(HERE, -T, -H, ONE, 3, 0, 0);
    lower_is(HERE, -T - 1, -H, ONE, 5, 10, 0);
    upper_is(HERE, -T - 1, -1, 0, 1, 10, 0);
    lower_is(HERE, 1, -1, 0, 1, 10, 0);
    upper_is(HERE, T, -H, 0, 1, 10, 0);
    lower_is(HERE, INT32_MAX, -1, 0, 1, 10, 0);
    lower_is(HERE, 0, -H - 1, 0, 1, 1, 0);
    upper_is(HERE, -1, -INT32_MAX, 0, 1, 1, 0);
}

static void test_stated_enclosures(void)
{
    enclosure_is(HERE, -7, 0, 1, 0, -7, -7);
    enclosure_is(HERE, -H, 0, 5, 0, -843314856, -843314856);
    enclosure_is(HERE, -1, 1, 5, 0, -2, -1);
    enclosure_is(HERE, -1, ONE, 5, 0, -952744, -756153);
    enclosure_is(HERE, -42554808, ONE, 1, 0, -268550019, -263993488);
    enclosure_is(HERE, -42554808, ONE, 5, 0, -268435461, -268435450);
    enclosure_is(HERE, -421657428, ONE / 2, 3, 0, -542502676, -542502507);
    enclosure_is(HERE, -100000000, 241591910, 5, 0, -326602780, -326602770);
    enclosure_is(HERE, -H, 122, 1, 0, -843314920, -843314608);
    enclosure_is(HERE, -H, 123, 1, 6, 0, 0);
    enclosure_is(HERE, -H, ONE, 3, 6, 0, 0);
    enclosure_is(HERE, -H, ONE, 4, 0, -843314862, -843314749);
    enclosure_is(HERE, -H - 1, 0, 5, 1, 0, 0);
}

static void test_stated_proposals(void)
{
    static const struct {
        int32_t m;
        uint32_t a;
        struct stripeawn_proposal wanted;
    } stated[] = {
        { -1, 0, { 0, 0, 0, 0, 0 } },
        { -1, 1, { 0, 0, 0, 0, 1 } },
        { -H, 0, { 0, -843314850, 0, 0, 3 } },
        { -1, ONE, { 0, -1048514, -1048514, 268433424, 19 } },
        { -H, ONE, { 0, -843314850, -3, -268435464, 4 } },
        { -421657428, ONE / 2, { 0, -542502662, -120845242, -58402269, 4 } },
        { -100000000, 241591910, { 0, -326602754, -226602763, 83772525, 5 } },
        { -H - 1, 0, { 1, 0, 0, 0, 0 } },
        { -H, ONE + 1, { 2, 0, 0, 0, 0 } },
    };
    size_t i;

    for (i = 0; i < COUNT(stated); i++)
        proposal_is(HERE, stated[i].m, stated[i].a, stated[i].wanted);
}

static void test_stated_verdicts(void)
{
    int32_t m = -42554808; /* enclosure: -268435461 to -268435450 */

    verdict_is(HERE, m, ONE, units(-268435455), 6, 5, 0, 16);
    verdict_is(HERE, m, ONE, units(-268435455), 5, 5, 0, 18);
    verdict_is(HERE, m, ONE, units(-268435465), 4, 5, 0, 18);
    verdict_is(HERE, m, ONE, units(-268435465), 3, 5, 0, 17);
    verdict_is(HERE, m, ONE, units(-268435446), 4, 5, 0, 18);
    verdict_is(HERE, m, ONE, units(-268435446), 3, 5, 0, 17);
    verdict_is(HERE, -1, ONE, units(-850000), 1000, 5, 0, 18);
    verdict_is(HERE, -7, 0, units(-9), 2, 1, 0, 16);
    verdict_is(HERE, -7, 0, units(-9), 1, 1, 0, 17);
    verdict_is(HERE, -7, 0, units(-9) - units(1) / 2, 2, 1, 0, 17);
    verdict_is(HERE, -7, 0, units(-5) + units(1) / 2, 2, 1, 0, 17);
    verdict_is(HERE, -7, 0, units(7), 65535, 1, 4, 0);
}

/* Verdicts with the least depth that gives them. */
static void test_stated_settled(void)
{
    settled_is(HERE, -42554808, ONE, units(-268493858), 60000, 0, 16, 2);
    settled_is(HERE, -42554808, ONE, units(-268493859), 60000, 0, 16, 3);
    settled_is(HERE, -700000000, ONE, units(-671391288), 1000, 0, 17, 1);
    settled_is(HERE, -700000000, ONE, units(-671391289), 1000, 0, 17, 2);
    settled_is(HERE, -H, ONE, units(-843314863), 10, 0, 16, 5);
    settled_is(HERE, -H, ONE, units(-843314864), 10, 0, 18, 5);
    settled_is(HERE, -H, ONE, units(-843314863), 0, 0, 17, 4);
    settled_is(HERE, -H, ONE, units(-843314862), 0, 0, 17, 5);
    settled_is(HERE, -1, ONE, units(-850000), 1000, 0, 18, 5);
    settled_is(HERE, -7, 0, units(-9), 2, 0, 16, 1);
    settled_is(HERE, -7, 0, units(7), 65535, 4, 0, 0);
}

/* A distance has no sign. The enclosure is -268435461 to -268435450. */
static void test_stated_distances(void)
{
    int32_t m = -42554808;

    distance_is(HERE, m, ONE, units(-268435455), 0, 0, 6);
    distance_is(HERE, m, ONE, units(-268435465), 0, 4, 15);
    distance_is(HERE, m, ONE, units(-268435465) + units(1) / 4, 0, 3, 15);
    distance_is(HERE, m, ONE, units(-268435446), 0, 4, 15);
    distance_is(HERE, m, ONE, units(-268435446) - units(1) / 4, 0, 3, 15);
    distance_is(HERE, -1, ONE, units(-850000), 0, 0, 102744);
    distance_is(HERE, -1, ONE, units(-1), 0, 756152, 952743);
    distance_is(HERE, -H, ONE, units(-T), 0, 60, 67);
    distance_is(HERE, -7, 0, units(-9), 0, 2, 2);
    distance_is(HERE, -7, 0, units(-9) - units(1) / 2, 0, 2, 3);
    distance_is(HERE, -7, 0, units(7), 4, 0, 0);
    given_distance_is(HERE, doubles(-0.1, 0.9), units(-169340792), 0, 12,
                      34);
}

/* The least and the greatest estimates beside M below 0 and M = 0. */
static void test_limits_of_estimates(void)
{
    uint64_t bottom = to_bits(units(-T));

    verdict_is(HERE, -1, 0, 0.0, 1, 1, 0, 16);
    verdict_is(HERE, -1, 0, from_bits(SIGN), 1, 1, 0, 16);
    verdict_is(HERE, -1, 0, from_bits(SIGN), 0, 1, 0, 17);
    verdict_is(HERE, -1, 0, from_bits(SIGN | 1), 1, 1, 0, 16);
    verdict_is(HERE, -1, 0, from_bits(SIGN | 1), 0, 1, 0, 17);
    verdict_is(HERE, -1, 0, from_bits(1), 1, 1, 4, 0);
    verdict_is(HERE, 0, 0, from_bits(1), 1, 1, 0, 16);
    verdict_is(HERE, 0, 0, from_bits(SIGN), 0, 1, 0, 16);
    verdict_is(HERE, 0, 0, from_bits(SIGN | 1), 1, 1, 4, 0);
    verdict_is(HERE, 0, 0, units(-1), 1, 1, 4, 0);
    verdict_is(HERE, -H, 0, units(-T), 64, 1, 0, 16);
    verdict_is(HERE, -H, 0, units(-T), 63, 1, 0, 17);
    verdict_is(HERE, -H, 0, from_bits(bottom + 1), 64, 1, 4, 0);
    verdict_is(HERE, -H, 0, units(T), 64, 1, 4, 0);
}

static void mirrored_ends(int32_t x, struct given g, uint32_t depth)
{
    struct stripeawn_end lower = end_of(LOWER, x, g, depth);
    struct stripeawn_end upper = end_of(UPPER, x, g, depth);

    given_end_is(HERE, UPPER, -x, mirror_of(g), depth, lower.code,
                 lower.accepted);
    given_end_is(HERE, LOWER, -x, mirror_of(g), depth, upper.code,
                 upper.accepted);
}

/* A claim as a record, which has M and A on the grid. */
static void mirrored_record(double estimate, struct given g, uint32_t depth,
                            struct stripeawn_verdict v)
{
    uint8_t claim[20], answer = 0;

    put_claim(claim, (int32_t)-g.m, (uint32_t)g.e, -estimate, 7, depth, 0);
    stripeawn_judge_claims(claim, sizeof claim, &answer, 1);
    check(HERE, answer == (v.code != 0 ? v.code : v.verdict),
          "record of m=%.17g a=%.17g estimate=%a depth=%lu answered by %d",
          -g.m, g.e, -estimate, (unsigned long)depth, answer);
}

static void mirrored_claim(double estimate, struct given g, uint32_t depth)
{
    struct stripeawn_verdict v = verdict_of(g, estimate, 7, depth);
    struct stripeawn_settled s = settled_of(g, estimate, 7);

    given_verdict_is(HERE, mirror_of(g), -estimate, 7, depth, v.code,
                     v.verdict);
    given_settled_is(HERE, mirror_of(g), -estimate, 7, s.code, s.verdict,
                     s.depth);
    if (!g.is_double)
        mirrored_record(estimate, g, depth, v);
}

/* Enclosure, and ends and claims around both its ends, or around 0. */
static void mirrored_problem(struct given g, uint32_t depth)
{
    struct stripeawn_enclosure e = enclosure_of(g, depth);
    int32_t off;

    given_enclosure_is(HERE, mirror_of(g), depth, e.code, -e.upper,
                       -e.lower);
    mirrored_ends(T, g, depth);
    for (off = -8; off <= 8; off++) {
        mirrored_ends(e.lower + off, g, depth);
        mirrored_ends(e.upper - off, g, depth);
        mirrored_claim(units(e.lower + off), g, depth);
        mirrored_claim(units(e.upper - off) + units(1) / 4, g, depth);
    }
}

static void mirrored_distance(double estimate, struct given g)
{
    struct stripeawn_off o = distance_of(g, estimate);

    given_distance_is(HERE, mirror_of(g), -estimate, o.code, o.least, o.most);
}

/* Proposal and distances, and the problem at every depth, good or bad. */
static void mirrored_given(struct given g)
{
    struct stripeawn_proposal p = proposal_of(g);
    double near = units(p.angle);
    uint32_t depth;

    mirrored_distance(near, g);
    mirrored_distance(near + units(1) / 4, g);
    mirrored_distance(near / 2, g);
    mirrored_distance(0.0, g);
    mirrored_distance(-near, g);
    p.angle = -p.angle;
    p.e_sin = -p.e_sin;
    given_proposal_is(HERE, mirror_of(g), p);
    for (depth = 0; depth <= 6; depth++)
        mirrored_problem(g, depth);
}

/* Limits and what is past them, near-parabolic orbits, and all between. */
static void test_mirrored(void)
{
    static const int32_t anomalies[] = {
        1, 2, 1000, 5458377, 42554808, 100000000, 268435457, 421657428,
        555555555, 700000000, 734064451, 843000000, H - 1, H, H + 1, INT32_MAX
    };
    static const uint32_t eccentricities[] = {
        0, 1, 67147247, ONE / 2, 241591910, ONE - 4000, ONE - 1, ONE, ONE + 1,
        FAR
    };
    uint64_t random = 7;
    size_t i, k;

    for (i = 0; i < COUNT(anomalies); i++)
        for (k = 0; k < COUNT(eccentricities); k++) {
            struct given g = grid(anomalies[i], eccentricities[k]);

            mirrored_given(g);
            mirrored_given(as_doubles(g));
        }
    for (i = 0; i < 500; i++)
        mirrored_given(random_doubles(&random));
}

void test_mirror(void)
{
    test_stated_ends();
    test_limits_of_ends();
    test_stated_enclosures();
    test_stated_proposals();
    test_stated_verdicts();
    test_stated_settled();
    test_stated_distances();
    test_limits_of_estimates();
    test_mirrored();
}
