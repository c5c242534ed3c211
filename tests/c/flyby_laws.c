/*
** flyby_laws.c: what holds between answers on one flyby, whatever it is.
**
** As sinh's bounds grow by one unit at least from one x to the next, and e is
** not below 1, the accepted ends are unbroken runs: lower ones from 0 up to
** the enclosure's, upper ones from the enclosure's up to the top. So the
** enclosure alone says which verdict an estimate gets.
*/
#include <math.h>

#include "flyby.h"

/* The flyby and its enclosure, for messages and tests alike. */
struct enclosed {
    struct flyby f;
    struct stripeawn_enclosure ends;
};

/* A number from 0 to the top, near an end or anywhere. */
static uint32_t some_x(struct enclosed c, uint64_t *random)
{
    uint64_t bits = random_bits(random), kind = bits % 4;
    int64_t x = (int64_t)(bits >> 8 & 15) - 8;

    if (kind == 0)
        x += c.ends.lower;
    else if (kind == 1)
        x += c.ends.upper;
    else
        x = (int64_t)(bits >> 8) % (TOP + 1);
    return x < 0 ? 0 : x > TOP ? TOP : (uint32_t)x;
}

/* Two runs, of which neither reaches into the other. */
static void ends_are_runs(struct enclosed c, uint64_t *random)
{
    int i;

    for (i = 0; i < 8; i++) {
        uint32_t x = some_x(c, random);

        flyby_end_is(HERE, LOWER, x, c.f, 0, x <= (uint32_t)c.ends.lower);
        flyby_end_is(HERE, UPPER, x, c.f, 0, x >= (uint32_t)c.ends.upper);
    }
}

/* With code 15 there is no upper end, and lower ones are still one run. */
static void no_upper_end(struct flyby f, uint64_t *random)
{
    uint32_t greatest = 0, least = TOP + 1;
    int i;

    for (i = 0; i < 8; i++) {
        uint64_t bits = random_bits(random);
        uint32_t x = TOP - (uint32_t)(bits % TOP >> (bits >> 32) % 29);
        struct stripeawn_end lower = stripeawn_flyby_lower_end(x, f.m, f.b);

        flyby_end_is(HERE, UPPER, x, f, 0, 0);
        if (lower.accepted)
            greatest = x > greatest ? x : greatest;
        else
            least = x < least ? x : least;
    }
    check(HERE, greatest < least,
          "m=%lu b=%lu: %lu is a lower end and %lu is none",
          (unsigned long)f.m, (unsigned long)f.b, (unsigned long)greatest,
          (unsigned long)least);
}

static uint32_t by_ends(struct enclosed c, int64_t below, int64_t above,
                        int64_t n)
{
    if (above - n <= c.ends.lower && below + n >= c.ends.upper)
        return 16;
    return below + n < c.ends.lower || above - n > c.ends.upper ? 17 : 18;
}

/* The least tolerance that confirms, the greatest that refutes, and any. */
static void verdicts_by_ends(struct enclosed c, uint64_t *random)
{
    int64_t below = some_x(c, random), above = below;
    int64_t n[3], confirmed, refuted;
    double estimate = units((int32_t)below);
    int i, step;

    if (below < TOP && random_bits(random) % 2) {
        estimate += units(1) / 4;
        above++;
    }
    confirmed = above - c.ends.lower > c.ends.upper - below
                    ? above - c.ends.lower
                    : c.ends.upper - below;
    refuted = c.ends.lower - below > above - c.ends.upper
                  ? c.ends.lower - below - 1
                  : above - c.ends.upper - 1;
    n[0] = confirmed;
    n[1] = refuted;
    n[2] = (int64_t)(random_bits(random) >> 48);
    for (i = 0; i < 3; i++)
        for (step = -1; step <= 1; step++)
            if (n[i] + step >= 0 && n[i] + step <= 65535)
                flyby_verdict_is(HERE, c.f, estimate, (uint32_t)(n[i] + step),
                                 0, by_ends(c, below, above, n[i] + step));
}

/* Inside the ends nothing is Refuted, and a reach of both is Confirmed. */
static void inside_never_refuted(struct enclosed c, uint64_t *random)
{
    uint32_t width = (uint32_t)(c.ends.upper - c.ends.lower);
    uint32_t off = (uint32_t)(random_bits(random) % ((uint64_t)width + 1));
    uint32_t n = (uint32_t)(random_bits(random) >> 48);
    double estimate = units(c.ends.lower + (int32_t)off);
    struct stripeawn_verdict got =
        stripeawn_flyby_judge(c.f.m, c.f.b, estimate, n);

    check(HERE, got.verdict == 16 || got.verdict == 18,
          "m=%lu b=%lu: %a between the ends gets %lu", (unsigned long)c.f.m,
          (unsigned long)c.f.b, estimate, (unsigned long)got.verdict);
    if (width <= 65535) {
        flyby_verdict_is(HERE, c.f, estimate, width, 0, 16);
        flyby_verdict_is(HERE, c.f, estimate, 65535, 0, 16);
    }
}

static void test_runs(void)
{
    unsigned long within = 0;
    uint64_t random = 8;
    int i;

    for (i = 0; i < 6000; i++) {
        struct enclosed c;

        c.f = random_flyby(&random);
        c.ends = stripeawn_flyby_enclose(c.f.m, c.f.b);
        if (c.ends.code == 15) {
            no_upper_end(c.f, &random);
            continue;
        }
        ends_are_runs(c, &random);
        verdicts_by_ends(c, &random);
        inside_never_refuted(c, &random);
        within++;
    }
    check(HERE, within > 2000, "only %lu roots within 2 radians", within);
}

/* Newton's method from 2 radians on, where the equation's side is convex. */
static double solved(struct flyby f)
{
    double e = f.b * STRIPEAWN_UNIT, m = f.m * STRIPEAWN_UNIT, x = 2;
    int i;

    for (i = 0; i < 30; i++)
        x -= (e * sinh(x) - x - m) / (e * cosh(x) - 1);
    return x;
}

/*
** From e = 1.5 on a double solves the equation far better than to a unit, and
** a hundred units of tolerance confirm it. A thousand units off is refuted.
*/
static void solver_is_right(struct flyby f)
{
    double root = solved(f);

    if (root < 0 || root > 2)
        return;
    flyby_verdict_is(HERE, f, root, 100, 0, 16);
    flyby_verdict_is(HERE, f, root, 65535, 0, 16);
    if (root < 2 - units(1001))
        flyby_verdict_is(HERE, f, root + units(1000), 900, 0, 17);
    if (root > units(1001))
        flyby_verdict_is(HERE, f, root - units(1000), 900, 0, 17);
}

static void test_solver(void)
{
    uint64_t random = 9;
    int i;

    for (i = 0; i < 1000; i++) {
        struct flyby f = random_flyby(&random);
        uint32_t x = (uint32_t)(random_bits(&random) % (TOP - 1000));

        f.b = ONE / 2 * 3 + (f.b - ONE) / 6 * 5;
        f.m = last_m_above(x, f.b);
        if (f.m < MOST_M)
            solver_is_right(f);
    }
}

void test_flyby_laws(void)
{
    test_runs();
    test_solver();
}
