/*
** flyby_enclose.c: enclosures of flybys.
*/
#include <math.h>

#include "flyby.h"

static void enclosure(struct place at, uint32_t m, uint32_t b, uint32_t code,
                      int32_t lower, int32_t upper)
{
    struct flyby f = { m, b };

    flyby_enclosure_is(at, f, code, lower, upper);
}

/* Numbers worked out in exact fractions. */
static void test_stated_numbers(void)
{
    enclosure(HERE, 46987000, ONE, 0, 268355848, 268355868);
    enclosure(HERE, ONE, ONE, 0, 464156279, 464156285);
    enclosure(HERE, ONE, 2 * ONE, 0, 218532436, 218532448);
    enclosure(HERE, 100000000, 402653184, 0, 167031965, 167031985);
    enclosure(HERE, 1, MOST_B, 0, 0, 1);
    enclosure(HERE, 2, MOST_B, 0, 0, 1);
    enclosure(HERE, MOST_M, MOST_B, 0, 432299576, 432299581);
}

/* Near the parabolic limit, where one unit of M moves the root far. */
static void test_near_parabolic(void)
{
    enclosure(HERE, 1, ONE, 0, 0, 756157);
    enclosure(HERE, 2, ONE, 0, 0, 952744);
    enclosure(HERE, 1000, ONE, 0, 7538776, 7561549);
    enclosure(HERE, 1000, ONE + 1, 0, 7536248, 7561549);
    enclosure(HERE, 3, ONE + 4000, 0, 0, 201327);
}

/* M = 0: the root is 0, known exactly, for every B. */
static void test_still(void)
{
    uint32_t b;

    enclosure(HERE, 0, ONE, 0, 0, 0);
    enclosure(HERE, 0, ONE + 1, 0, 0, 0);
    enclosure(HERE, 0, MOST_B, 0, 0, 0);
    for (b = ONE; b < MOST_B - 8000009; b += 8000009)
        enclosure(HERE, 0, b, 0, 0, 0);
}

static void test_limits(void)
{
    enclosure(HERE, MOST_M + 1, MOST_B, 1, 0, 0);
    enclosure(HERE, FAR, MOST_B, 1, 0, 0);
    enclosure(HERE, 0, ONE - 1, 2, 0, 0);
    enclosure(HERE, 0, 1, 2, 0, 0);
    enclosure(HERE, 0, 0, 2, 0, 0);
    enclosure(HERE, 0, MOST_B + 1, 2, 0, 0);
    enclosure(HERE, 0, UINT32_C(0x80000000), 2, 0, 0);
    enclosure(HERE, 0, FAR, 2, 0, 0);
}

/* A B and the last M whose root is shown to be within 2 radians. */
static const struct flyby last_within[] = {
    { 436707012, ONE },         { 436707015, ONE + 1 },
    { 680101493, 335544320 },   { 923495974, 402653184 },
    { 1410284936, 2 * ONE },    { 1897073898, 671088640 },
    { 2147483644, 740131757 },
};

/* Code 15 begins with the next M, and up to the last the top is the end. */
static void test_first_beyond(void)
{
    size_t i;

    for (i = 0; i < COUNT(last_within); i++) {
        struct flyby f = last_within[i];

        check(HERE, enclosure_by_rule(HERE, f).upper == TOP,
              "the upper end of m=%lu is not 2^29", (unsigned long)f.m);
        flyby_end_is(HERE, UPPER, TOP, f, 0, 1);
        f.m++;
        flyby_enclosure_is(HERE, f, 15, 0, 0);
        flyby_end_is(HERE, UPPER, TOP, f, 0, 0);
        f.m = MOST_M;
        flyby_enclosure_is(HERE, f, 15, 0, 0);
    }
    enclosure(HERE, MOST_M, 740131757, 15, 0, 0);
    enclosure(HERE, MOST_M, 740131758, 0, 536870908, 536870912);
}

/* With code 15 the top may be a lower end, or neither. */
static void beyond(struct place at, uint32_t m, uint32_t b, uint32_t accepted)
{
    struct flyby f = { m, b };

    flyby_enclosure_is(at, f, 15, 0, 0);
    flyby_end_is(at, LOWER, TOP, f, 0, accepted);
    flyby_end_is(at, UPPER, TOP, f, 0, 0);
}

static void test_beyond(void)
{
    beyond(HERE, 436707013, ONE, 0);
    beyond(HERE, 436707021, ONE, 0);
    beyond(HERE, 436707022, ONE, 1);
    beyond(HERE, 1410284937, 2 * ONE, 0);
    beyond(HERE, 1410284955, 2 * ONE, 0);
    beyond(HERE, 1410284956, 2 * ONE, 1);
    beyond(HERE, MOST_M, ONE, 1);
    beyond(HERE, MOST_M, 740131757, 0);
}

/*
** Ends are accepted and one unit further in they are not; with code 15 the
** top is not accepted, and without it the top is no lower end.
*/
static void ends_again(struct flyby f, struct stripeawn_enclosure got)
{
    flyby_end_is(HERE, UPPER, TOP, f, 0, got.code == 0);
    if (got.code != 0)
        return;
    check(HERE, got.lower <= got.upper, "m=%lu b=%lu: %ld to %ld",
          (unsigned long)f.m, (unsigned long)f.b, (long)got.lower,
          (long)got.upper);
    flyby_end_is(HERE, LOWER, TOP, f, 0, 0);
    flyby_end_is(HERE, LOWER, (uint32_t)got.lower, f, 0, 1);
    flyby_end_is(HERE, LOWER, (uint32_t)got.lower + 1, f, 0, 0);
    flyby_end_is(HERE, UPPER, (uint32_t)got.upper, f, 0, 1);
    if (got.upper > 0)
        flyby_end_is(HERE, UPPER, (uint32_t)got.upper - 1, f, 0, 0);
}

/* Even steps over all M and B, and pseudo-random flybys, by the rule. */
static void test_by_rule(void)
{
    unsigned long within = 0, beyond = 0;
    uint64_t random = 4;
    struct flyby f;
    uint32_t i;

    for (f.m = 0; f.m <= MOST_M - 60000011; f.m += 60000011)
        for (f.b = ONE; f.b <= MOST_B; f.b += ONE / 8)
            ends_again(f, enclosure_by_rule(HERE, f));
    for (i = 0; i < 5000; i++) {
        struct stripeawn_enclosure got;

        f = random_flyby(&random);
        got = enclosure_by_rule(HERE, f);
        ends_again(f, got);
        within += got.code == 0;
        beyond += got.code == 15;
    }
    check(HERE, within > 500 && beyond > 500,
          "only %lu roots within 2 radians and %lu beyond", within, beyond);
}

/* What is left of the equation in units, with the mathematical library. */
static double left_over(double x, struct flyby f)
{
    return (double)f.b * sinh(x * STRIPEAWN_UNIT) - x - f.m;
}

/*
** At a lower end what is left over is not above 0, at an upper end not below.
** With code 15 the root is beyond the top, or some units before it, as far as
** bounds that are 20 units apart can tell.
*/
static void test_library_sinh(void)
{
    uint64_t random = 5;
    int i;

    for (i = 0; i < 4000; i++) {
        struct flyby f = random_flyby(&random);
        struct stripeawn_enclosure got = stripeawn_flyby_enclose(f.m, f.b);

        check(HERE,
              got.code == 15 ? left_over(TOP, f) < 60
                             : left_over(got.lower, f) < 0.001 &&
                                   left_over(got.upper, f) > -0.001,
              "m=%lu b=%lu: %f is left over at %ld, %f at %ld",
              (unsigned long)f.m, (unsigned long)f.b,
              left_over(got.lower, f), (long)got.lower,
              left_over(got.upper, f), (long)got.upper);
    }
}

void test_flyby_enclose(void)
{
    test_stated_numbers();
    test_near_parabolic();
    test_still();
    test_limits();
    test_first_beyond();
    test_beyond();
    test_by_rule();
    test_library_sinh();
}
