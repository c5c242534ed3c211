/*
** undecided.c: after Undecided, what the distance says, as the header's note
** at the judge has it, and what the enclosure says by hand.
*/
#include <math.h>

#include "check.h"
#include "off.h"

/* By the distance: 17 more than n units off, 16 at most n, 18 neither. */
static uint32_t by_distance(struct stripeawn_off o, uint32_t n)
{
    if (o.least > n)
        return 17;
    return o.most <= n ? 16 : 18;
}

/* The same by hand, of an estimate of x units: no end or each is within n. */
static uint32_t by_hand(struct stripeawn_enclosure e, double x, double n)
{
    if (x < e.lower - n || x > e.upper + n)
        return 17;
    return x >= e.upper - n && x <= e.lower + n ? 16 : 18;
}

struct undecided {
    struct given given;
    double x; /* estimate, units */
    uint32_t n, depth, least, most, verdict;
};

/* The judge is Undecided, and the distance says the verdict given here. */
static const struct undecided undecided[] = {
    { { 0, 0, ONE }, 0, 1, 5, 0, 0, 16 },
    { { 0, 0, ONE }, 0.25, 1, 5, 0, 1, 16 },
    { { 0, 0, ONE }, 524288, 1000, 5, 524288, 524288, 17 },
    { { 0, 0, ONE - 2828 }, 58959.5, 1000, 5, 58959, 58960, 17 },
    { { 0, 62702868, ONE }, 307028003.5, 8606, 2, 8546, 8558, 16 },
    { { 0, 73074081, 268435429 }, 323907729.375, 6, 5, 0, 6, 16 },
    { { 0, 38263192, 268427831 }, 258789819.578125, 19762, 5, 19746, 19761,
      16 },
    { { 0, 63295030, 268435450 }, 308039435.96875, 4931, 5, 4917, 4930, 16 },
    { { 0, 105988279, ONE }, 369948694, 0, 1, 606727, 606738, 17 },
    { { 0, 5458377, 268381263 }, 133475329.5, 0, 5, 8, 51, 17 },
    { { 0, 16331165, 266834770 }, 189320595.796875, 64835, 5, 64838, 64861,
      17 },
    { { 0, 5678471, ONE }, 135476804, 0, 5, 8, 42, 17 },
    { { 0, 1, ONE }, 850000, 1000, 5, 0, 102744, 18 },
    { { 1, 0.274, 1.0 }, 324644427, 3170, 2, 3077, 3088, 16 },
    { { 1, 0.0199, 0.99999924 }, 132721716, 33, 5, 0, 30, 16 },
    { { 1, 0.1101, 0.99999936 }, 236841923.5, 12, 5, 0, 10, 16 },
    { { 1, 0.1141, 1.0 }, 239753515, 10, 5, 0, 8, 16 },
    { { 1, 0.3085, 1.0 }, 338904748.40625, 65535, 1, 447920, 447931, 17 },
    { { 1, 0.2197, 0.99999999 }, 300554619.6875, 1818, 2, 1858, 1874, 17 },
    { { 1, 0.098, 0.99999993 }, 227600643.890625, 0, 5, 2, 27, 17 },
    { { 1, 0.1694, 0.99999989 }, 274651015.9375, 0, 5, 1, 19, 17 },
    { { 1, 1e-9, 1.0 }, 487779.5, 1000, 5, 0, 487780, 18 },
};

static void undecided_is(struct undecided u)
{
    double estimate = u.x * STRIPEAWN_UNIT;
    uint32_t got = by_distance(distance_of(u.given, estimate), u.n);
    uint32_t hand = by_hand(enclosure_of(u.given, 5), u.x, u.n);

    given_verdict_is(HERE, u.given, estimate, u.n, u.depth, 0, 18);
    given_distance_is(HERE, u.given, estimate, 0, u.least, u.most);
    check(HERE, got == u.verdict && hand == u.verdict,
          "m=%.17g x=%f: the distance says %lu, the enclosure %lu, wanted "
          "%lu", u.given.m, u.x, (unsigned long)got, (unsigned long)hand,
          (unsigned long)u.verdict);
}

/* A row and its mirror, which M = 0 has none of. */
static void undecided_both(struct undecided u)
{
    undecided_is(u);
    u.given = mirror_of(u.given);
    u.x = -u.x;
    if (u.given.m < 0)
        undecided_is(u);
}

/* Each row, and those on the grid also as doubles. */
static void test_stated(void)
{
    size_t i;

    for (i = 0; i < COUNT(undecided); i++) {
        struct undecided u = undecided[i];

        undecided_both(u);
        u.given = as_doubles(u.given);
        if (!undecided[i].given.is_double)
            undecided_both(u);
    }
}

/* How often the distance said each of the three after Undecided. */
static unsigned long after[19];

/*
** Between two units least may be n itself where the whole distance is more,
** which is all that the distance leaves out of what can be said by hand.
*/
static int alike(uint32_t said, uint32_t hand, struct stripeawn_off o,
                 double x, double n)
{
    return said == hand ||
           (said == 18 && hand == 17 && o.least == n && x != floor(x));
}

/* One claim before all three, none of which contradicts another. */
static void claim_said(struct given g, struct stripeawn_enclosure e, double x,
                       double n)
{
    double estimate = x * STRIPEAWN_UNIT;
    struct stripeawn_verdict v = verdict_of(g, estimate, (uint32_t)n, 5);
    struct stripeawn_off o = distance_of(g, estimate);
    uint32_t said = by_distance(o, (uint32_t)n), hand = by_hand(e, x, n);

    check(HERE,
          o.code == v.code &&
              (v.code == 4 ||
               (v.code == 0 && !contradicts(o, v.verdict, (uint32_t)n) &&
                alike(said, hand, o, x, n))),
          "m=%.17g e=%.17g x=%f n=%f: judge %lu, distance %lu, by hand %lu",
          g.m, g.e, x, n, (unsigned long)v.verdict, (unsigned long)said,
          (unsigned long)hand);
    if (v.verdict == 18)
        after[said]++;
}

/* Just within reach or just beyond, n units from the ends. */
static void claims_said(struct given g, double n)
{
    static const double offsets[] = { -1.5, -1, -0.25, 0, 0.5, 1, 1.25 };
    struct stripeawn_enclosure e = enclosure_of(g, 5);
    double turns[] = { e.lower - n, e.upper + n, e.lower + n, e.upper - n };
    size_t i;

    check(HERE, e.code == 0, "m=%.17g e=%.17g has no ends", g.m, g.e);
    for (i = 0; i < 2 * COUNT(offsets); i++)
        claim_said(g, e, turns[i % 4] + offsets[i / 2], n);
}

/* Orbits of all kinds; at M = 0 and e close to 1 the equation is flat. */
static void test_said(void)
{
    uint64_t random = 3;
    uint32_t a, i;
    int32_t m;

    for (a = ONE - 3000; a <= ONE; a += 50) {
        claims_said(grid(0, a), 70);
        claims_said(as_doubles(grid(0, a)), 70);
    }

    for (m = 1000; m <= H; m += 82000003)
        for (a = 0; a <= ONE; a += ONE / 16) {
            claims_said(grid(m, a), 70);
            claims_said(grid(-m, a), 70);
        }
    for (i = 0; i < 500; i++)
        claims_said(random_doubles(&random), 70);
    for (i = 16; i <= 18; i++)
        check(HERE, after[i] > 100, "after Undecided the distance says %lu "
              "%lu times", (unsigned long)i, after[i]);
}

/*
** A limit's last bit counts: 2^-53 of a unit more than n from the root. The
** distance is above n by less than a unit, and only the judge tells.
*/
static void test_last_bit(void)
{
    double estimate = from_bits(to_bits(STRIPEAWN_UNIT) - 1);
    double x = estimate * STRIPEAWN_RADIAN;

    check(HERE, by_hand(stripeawn_enclose(65536, 0, 5), x, 65535) == 17,
          "2^-53 of a unit is lost");
    check(HERE, by_hand(stripeawn_enclose(-65536, 0, 5), -x, 65535) == 17,
          "-2^-53 of a unit is lost");
    verdict_is(HERE, 65536, 0, estimate, 65535, 5, 0, 17);
    distance_is(HERE, 65536, 0, estimate, 0, 65535, 65536);
}

void test_undecided(void)
{
    test_stated();
    test_said();
    test_last_bit();
}
