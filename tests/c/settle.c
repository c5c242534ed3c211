/*
** settle.c: the judge that takes no depth gives the first verdict that
** confirms or refutes, at depths 1 to 5 in turn, and that depth.
**
** First claims that are written out, each beside one that needs a greater
** depth; then many claims, each held to the judge at one depth after the
** other. The limits are in settle_limits.c, the order of codes in order.c.
*/
#include "check.h"

/* A small residual is no proof: 2^-9 radian at M = 0, e = 1. */
static void test_flattered(void)
{
    settled_is(HERE, 0, ONE, units(524288), 1000, 0, 18, 5);
    settled_is(HERE, 0, ONE, units(1048576), 1000, 0, 17, 1);
    settled_is(HERE, 0, ONE, 0.0, 0, 0, 16, 1);
    settled_is(HERE, 0, ONE, 0.0, 1, 0, 18, 5);
}

/* The verdict takes this depth at x, and a greater one at x + step. */
struct edge {
    struct given given;
    int32_t x; /* estimate, units */
    uint32_t n, verdict, depth;
    int32_t step;
};

/*
** Each group names the end that takes this depth. The other end of Confirmed
** takes a lesser one, save at depth 1. The numbers were worked out with whole
** numbers of any size.
*/
static const struct edge edges[] = {
    /* Confirmed: x - n is a lower end */
    { { 0, 42554808, ONE / 2 }, 83757873, 7000, 16, 1, 1 },
    { { 0, 42554808, ONE }, 268493858, 60000, 16, 2, 1 },
    { { 0, 700000000, 2684355 }, 701361243, 7000, 16, 3, 1 },
    { { 0, 700000000, ONE }, 771226702, 1000, 16, 4, 1 },
    { { 0, H, ONE }, 843314863, 10, 16, 5, 1 },
    { { 1, 0.1, 0.3 }, 38292323, 60, 16, 1, 1 },
    { { 1, 0.1, 0.9 }, 169347723, 7000, 16, 2, 1 },
    { { 1, 2.5, 0.1 }, 685949210, 10000, 16, 3, 1 },
    { { 1, 2.5, 0.9 }, 751836582, 1000, 16, 4, 1 },
    { { 1, 2.5, 0.9 }, 751835607, 10, 16, 5, 1 },
    /* Confirmed: x + n is an upper end */
    { { 0, 42554808, ONE / 2 }, 83750183, 7000, 16, 1, -1 },
    { { 0, 400000000, 1000000 }, 400967042, 30000, 16, 2, -1 },
    { { 0, H, 100000 }, 843307859, 7000, 16, 3, -1 },
    { { 0, H, ONE }, 843284862, 30000, 16, 4, -1 },
    { { 0, H, ONE }, 843314800, 60, 16, 5, -1 },
    { { 1, 0.1, 0.7 }, 86046636, 10000, 16, 1, -1 },
    { { 1, 1.5, 0.002 }, 403168787, 20000, 16, 2, -1 },
    { { 1, 2.5, 0.01 }, 672662358, 20000, 16, 3, -1 },
    { { 1, 3.14, 0.9 }, 843059849, 30000, 16, 4, -1 },
    { { 1, 3.14, 0.9 }, 843089787, 60, 16, 5, -1 },
    /* Refuted: x + n + 1 is a lower end */
    { { 0, 700000000, ONE }, 671391288, 1000, 17, 1, 1 },
    { { 0, 700000000, ONE }, 766786714, 1000, 17, 2, 1 },
    { { 0, 700000000, ONE }, 771205547, 1000, 17, 3, 1 },
    { { 0, 700000000, ONE }, 771224701, 1000, 17, 4, 1 },
    { { 0, 700000000, ONE }, 771224724, 1000, 17, 5, 1 },
    { { 1, 2.5, 0.9 }, 662272778, 65535, 17, 1, 1 },
    { { 1, 2.5, 0.9 }, 748412010, 11, 17, 2, 1 },
    { { 1, 2.5, 0.9 }, 751822396, 1, 17, 3, 1 },
    { { 1, 2.5, 0.9 }, 751835581, 0, 17, 4, 1 },
    { { 1, 2.5, 0.9 }, 751835596, 0, 17, 5, 1 },
    /* Refuted: x - n - 1 is an upper end */
    { { 0, 700000000, ONE }, 840337120, 1000, 17, 1, -1 },
    { { 0, 700000000, ONE }, 771586271, 1000, 17, 2, -1 },
    { { 0, 700000000, ONE }, 771226492, 0, 17, 3, -1 },
    { { 0, H, ONE }, 843314863, 0, 17, 4, -1 },
    { { 0, H, ONE }, 843314861, 0, 17, 5, -1 },
    { { 1, 2.5, 0.9 }, 798766759, 1000, 17, 1, -1 },
    { { 1, 2.5, 0.9 }, 752096805, 1000, 17, 2, -1 },
    { { 1, 2.5, 0.9 }, 751837100, 1000, 17, 3, -1 },
    { { 1, 3.14, 0.9 }, 843090850, 1000, 17, 4, -1 },
    { { 1, 3.14, 0.9 }, 843090848, 1000, 17, 5, -1 },
};

/* One step further it takes the next depth; past the last none is left. */
static void edge_is(struct edge e)
{
    uint32_t next = e.depth < 5 ? e.depth + 1 : 5;
    uint32_t past = e.depth < 5 ? e.verdict : 18;

    given_settled_is(HERE, e.given, units(e.x), e.n, 0, e.verdict, e.depth);
    given_settled_is(HERE, e.given, units(e.x + e.step), e.n, 0, past, next);
}

/* The judge is Undecided below this depth, and has the verdict from it on. */
static void judged_from(struct edge e)
{
    uint32_t depth;

    for (depth = 1; depth <= 5; depth++)
        given_verdict_is(HERE, e.given, units(e.x), e.n, depth, 0,
                         depth < e.depth ? 18 : e.verdict);
}

/* A record is judged at its own depth, where a greater one would settle it. */
static void record_is(struct edge e)
{
    uint8_t claim[20], answer = 0;
    uint32_t depth;

    for (depth = 1; depth <= 5; depth++) {
        uint32_t due = depth < e.depth ? 18 : e.verdict;

        put_claim(claim, (int32_t)e.given.m, (uint32_t)e.given.e, units(e.x),
                  e.n, depth, 0);
        stripeawn_judge_claims(claim, sizeof claim, &answer, 1);
        check(HERE, answer == due,
              "record at depth %lu answered by %d, wanted %lu",
              (unsigned long)depth, answer, (unsigned long)due);
    }
}

/* Every edge, those on the grid also as doubles and as records. */
static void test_edges(void)
{
    size_t i;

    for (i = 0; i < COUNT(edges); i++) {
        struct edge e = edges[i];

        edge_is(e);
        judged_from(e);
        if (!e.given.is_double)
            record_is(e);
        e.given = as_doubles(e.given);
        edge_is(e);
    }
}

/* Equal inputs have one answer, whatever was asked before. */
static void test_one_answer(void)
{
    size_t i, k;

    for (i = 0; i < COUNT(edges); i++)
        for (k = 0; k < COUNT(edges); k++) {
            settled_of(edges[k].given, units(edges[k].x), edges[k].n);
            edge_is(edges[i]);
        }
}

/* The rule: the judge at depths 1 to 5, up to the first that is certain. */
static struct stripeawn_settled by_depths(struct given g, double estimate,
                                          uint32_t n)
{
    struct stripeawn_settled s = { 0, 18, 0 };

    while (s.verdict == 18 && s.depth < 5) {
        struct stripeawn_verdict v = verdict_of(g, estimate, n, ++s.depth);

        s.code = v.code;
        s.verdict = v.verdict;
    }
    if (s.code != 0)
        s.depth = 0;
    return s;
}

/* How many claims got each verdict at each depth, on the grid and off it. */
static unsigned long met[2][19][6];

static void by_rule(struct given g, double estimate, uint32_t n)
{
    struct stripeawn_settled s = by_depths(g, estimate, n);

    given_settled_is(HERE, g, estimate, n, s.code, s.verdict, s.depth);
    if (s.verdict <= 18)
        met[g.is_double][s.verdict][s.depth]++;
}

/* Claims near the root, and where the ends of a depth confirm or refute. */
static void around_ends(struct given g, uint32_t depth, double n)
{
    static const double offsets[] = { -1, -0.25, 0, 0.5, 1 };
    struct stripeawn_enclosure e = enclosure_of(g, depth);
    double turns[] = { proposal_of(g).angle, e.lower + n, e.upper - n,
                       e.lower - n - 1, e.upper + n + 1 };
    size_t i, k;

    for (i = 0; i < COUNT(turns); i++)
        for (k = 0; k < COUNT(offsets); k++)
            by_rule(g, (turns[i] + offsets[k]) * STRIPEAWN_UNIT, (uint32_t)n);
}

static void around_orbit(struct given g)
{
    static const double tolerances[] = { 0, 1, 10, 1000, 65535 };
    uint32_t depth;
    size_t i;

    for (depth = 1; depth <= 5; depth++)
        for (i = 0; i < COUNT(tolerances); i++)
            around_ends(g, depth, tolerances[i]);
}

/* Whether every verdict was met, Undecided at depth 5 and at no other. */
static void all_met(int is_double)
{
    uint32_t depth;

    for (depth = 1; depth <= 5; depth++)
        check(HERE,
              met[is_double][16][depth] > 1000 &&
                  met[is_double][17][depth] > 1000 &&
                  (met[is_double][18][depth] > 1000) == (depth == 5),
              "depth %lu: %lu Confirmed, %lu Refuted, %lu Undecided",
              (unsigned long)depth, met[is_double][16][depth],
              met[is_double][17][depth], met[is_double][18][depth]);
}

/* Orbits of all kinds: as doubles, and brought to the grid. */
static void test_rule(void)
{
    uint64_t random = 11;
    int i;

    for (i = 0; i < 300; i++) {
        struct given g = random_doubles(&random);

        around_orbit(g);
        around_orbit(brought_to_grid(g));
    }
    all_met(0);
    all_met(1);
}

void test_settle(void)
{
    test_flattered();
    test_edges();
    test_one_answer();
    test_rule();
}
