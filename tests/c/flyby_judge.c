/*
** flyby_judge.c: verdicts on estimates of flybys. Those on every kind of
** double are in flyby_estimates.c.
*/
#include "flyby.h"

static void verdict(struct place at, uint32_t m, uint32_t b, double estimate,
                    uint32_t n, uint32_t wanted)
{
    struct flyby f = { m, b };

    flyby_verdict_is(at, f, estimate, n, 0, wanted);
}

/* A code and no verdict beside it. */
static void refused(struct place at, uint32_t m, uint32_t b, uint32_t n,
                    uint32_t code)
{
    struct flyby f = { m, b };

    flyby_verdict_is(at, f, 0.0, n, code, 0);
}

/*
** A small residual is no proof: 2^-9 radian at M = 0, e = 1 leaves a third of
** a unit over, and is half a million units off.
*/
static void test_flattered(void)
{
    verdict(HERE, 0, ONE, 0x1p-9, 1000, 17);
    verdict(HERE, 0, ONE, 0x1p-9, 65535, 17);
    verdict(HERE, 0, ONE, 0x1p-9, 0, 17);
    verdict(HERE, 0, ONE + 1, 0x1p-9, 1000, 17);
    verdict(HERE, 1, ONE, 0x1p-9, 1000, 18);
}

/* With M = 0 the root is 0, and a tolerance reaches it or does not. */
static void test_reach(void)
{
    static const uint32_t tolerances[] = { 0, 1, 2, 1000, 65534, 65535 };
    static const uint32_t eccentricities[] = { ONE, ONE + 1, 2 * ONE,
                                               MOST_B };
    double half = units(1) / 2;
    size_t i, k;

    for (i = 0; i < COUNT(tolerances); i++)
        for (k = 0; k < COUNT(eccentricities); k++) {
            uint32_t n = tolerances[i], b = eccentricities[k];

            verdict(HERE, 0, b, units((int32_t)n), n, 16);
            verdict(HERE, 0, b, units((int32_t)n + 1), n, 17);
            verdict(HERE, 0, b, units((int32_t)n) + half, n, 17);
            verdict(HERE, 0, b, units((int32_t)n + 1) - half, n, 17);
            verdict(HERE, 0, b, 0.0, n, 16);
        }
}

/* The enclosure here is 0 to 1: a tolerance that reaches to 0 or past it. */
static void test_clamp_low(void)
{
    verdict(HERE, 1, MOST_B, 0.0, 0, 18);
    verdict(HERE, 1, MOST_B, 0.0, 1, 16);
    verdict(HERE, 1, MOST_B, 0.0, 65535, 16);
    verdict(HERE, 1, MOST_B, units(1), 0, 18);
    verdict(HERE, 1, MOST_B, units(1), 1, 16);
    verdict(HERE, 1, MOST_B, units(3), 0, 17);
    verdict(HERE, 1, MOST_B, units(3), 1, 17);
    verdict(HERE, 1, MOST_B, units(3), 2, 18);
    verdict(HERE, 1, MOST_B, units(3), 3, 16);
    verdict(HERE, 1, MOST_B, units(3), 4, 16);
    verdict(HERE, 1, MOST_B, units(3), 65535, 16);
}

/* The enclosure here is 2^29 - 4 to 2^29: a tolerance that goes past it. */
static void test_clamp_high(void)
{
    uint32_t m = 436707012;

    verdict(HERE, m, ONE, 2.0, 0, 18);
    verdict(HERE, m, ONE, 2.0, 3, 18);
    verdict(HERE, m, ONE, 2.0, 4, 16);
    verdict(HERE, m, ONE, 2.0, 65535, 16);
    verdict(HERE, m, ONE, units(TOP - 1), 2, 18);
    verdict(HERE, m, ONE, units(TOP - 1), 3, 16);
    verdict(HERE, m, ONE, units(TOP - 4), 3, 18);
    verdict(HERE, m, ONE, units(TOP - 4), 4, 16);
    verdict(HERE, m, ONE, units(TOP - 4), 5, 16);
    verdict(HERE, m, ONE, units(TOP - 65535), 65534, 18);
    verdict(HERE, m, ONE, units(TOP - 65535), 65535, 16);
}

/*
** With code 15, whose first M is this one, nothing is Confirmed: what is
** beyond the top is not looked at, though its own sums would say that the
** root is not above it.
*/
static void test_beyond(void)
{
    uint32_t m = 436707013;

    verdict(HERE, m, ONE, 2.0, 0, 18);
    verdict(HERE, m, ONE, 2.0, 4, 18);
    verdict(HERE, m, ONE, 2.0, 65535, 18);
    verdict(HERE, m, ONE, units(TOP - 1000), 65535, 18);
    verdict(HERE, m, ONE, units(TOP - 1000), 900, 17);
    verdict(HERE, m, ONE, 1.0, 65535, 17);
}

/* Far beyond the top, which is a lower end, and the last x that refutes. */
static void test_far_beyond(void)
{
    verdict(HERE, MOST_M, ONE, units(TOP - 1), 0, 17);
    verdict(HERE, MOST_M, ONE, BELOW_2, 0, 17);
    verdict(HERE, MOST_M, ONE, 2.0, 0, 18);
    verdict(HERE, MOST_M, ONE, 2.0, 65535, 18);
    verdict(HERE, MOST_M, ONE, units(TOP - 65536), 65535, 17);
    verdict(HERE, MOST_M, ONE, units(TOP - 65535), 65535, 18);
    verdict(HERE, MOST_M, ONE, 0.0, 65535, 17);
}

/* The enclosure here is 268355848 to 268355868. */
static void test_at_the_enclosure(void)
{
    uint32_t m = 46987000;

    verdict(HERE, m, ONE, units(268355858), 10, 16);
    verdict(HERE, m, ONE, units(268355858), 9, 18);
    verdict(HERE, m, ONE, units(268355858), 0, 18);
    verdict(HERE, m, ONE, units(268355872), 24, 16);
    verdict(HERE, m, ONE, units(268355872), 23, 18);
    verdict(HERE, m, ONE, units(268355872), 4, 18);
    verdict(HERE, m, ONE, units(268355872), 3, 17);
    verdict(HERE, m, ONE, units(268355844), 24, 16);
    verdict(HERE, m, ONE, units(268355844), 23, 18);
    verdict(HERE, m, ONE, units(268355844), 4, 18);
    verdict(HERE, m, ONE, units(268355844), 3, 17);
}

/* Half a unit further off the nearer whole unit must not help. */
static void test_half_units(void)
{
    double half = units(1) / 2;
    uint32_t m = 46987000;

    verdict(HERE, m, ONE, units(268355872) + half, 25, 16);
    verdict(HERE, m, ONE, units(268355872) + half, 24, 18);
    verdict(HERE, m, ONE, units(268355872) + half, 5, 18);
    verdict(HERE, m, ONE, units(268355872) + half, 4, 17);
    verdict(HERE, m, ONE, units(268355844) - half, 25, 16);
    verdict(HERE, m, ONE, units(268355844) - half, 24, 18);
    verdict(HERE, m, ONE, units(268355844) - half, 5, 18);
    verdict(HERE, m, ONE, units(268355844) - half, 4, 17);
}

static void test_limits(void)
{
    verdict(HERE, MOST_M, MOST_B, units(432299578), 65535, 16);
    refused(HERE, MOST_M + 1, MOST_B, 0, 1);
    refused(HERE, FAR, MOST_B, 0, 1);
    verdict(HERE, 0, ONE, 0.0, 0, 16);
    refused(HERE, 0, ONE - 1, 0, 2);
    refused(HERE, 0, 0, 0, 2);
    verdict(HERE, 0, MOST_B, 0.0, 0, 16);
    refused(HERE, 0, MOST_B + 1, 0, 2);
    refused(HERE, 0, FAR, 0, 2);
    verdict(HERE, 0, ONE, 0.0, 65535, 16);
    refused(HERE, 0, ONE, 65536, 5);
    refused(HERE, 0, ONE, UINT32_C(0x80000000), 5);
    refused(HERE, 0, ONE, FAR, 5);
}

/*
** An estimate near the ends or, with code 15, near the top: up to 64 units
** off or up to 2^16, on the grid or off it.
*/
static double near_ends(struct stripeawn_enclosure e, uint64_t *random)
{
    int32_t middle = e.code == 0 ? e.lower / 2 + e.upper / 2 : TOP;
    uint64_t bits = random_bits(random);
    int32_t off = (int32_t)(bits >> 8 & 131071) - 65536;
    int32_t x = middle + (bits % 2 ? off : off / 1024);
    double estimate = units(x) + units(1) * (double)(bits >> 40 & 3) / 4;

    return estimate < 0 ? -estimate : estimate > 2 ? 2.0 : estimate;
}

/* Pseudo-random flybys by the rule: all three verdicts, often. */
static void test_by_rule(void)
{
    unsigned long met[3] = { 0, 0, 0 };
    uint64_t random = 6;
    int i, k;

    for (i = 0; i < 2500; i++) {
        struct flyby f = random_flyby(&random);
        struct stripeawn_enclosure e = plain_enclosure(f);
        double any = 2 * random_fraction(&random);

        verdict_by_rule(HERE, f, any, (uint32_t)(random_bits(&random) >> 48));
        for (k = 0; k < 12; k++) {
            uint64_t bits = random_bits(&random);
            uint32_t n = (uint32_t)(bits >> 48 >> (k % 3 ? 10 : 0));

            met[verdict_by_rule(HERE, f, near_ends(e, &random), n) - 16]++;
        }
    }
    check(HERE, met[0] > 2000 && met[1] > 2000 && met[2] > 2000,
          "only %lu Confirmed, %lu Refuted, %lu Undecided", met[0], met[1],
          met[2]);
}

void test_flyby_judge(void)
{
    test_flattered();
    test_reach();
    test_clamp_low();
    test_clamp_high();
    test_beyond();
    test_far_beyond();
    test_at_the_enclosure();
    test_half_units();
    test_limits();
    test_by_rule();
}
