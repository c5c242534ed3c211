/*
** enclose.c: enclosures.
*/
#include "check.h"

/* A = 0: both ends are M, at every depth. */
static void test_circle(void)
{
    uint32_t depth;
    int32_t m;

    for (depth = 1; depth <= 5; depth++) {
        for (m = 0; m < 20; m++)
            enclosure_is(HERE, m, 0, depth, 0, m, m);
        for (m = H - 20; m <= H; m++)
            enclosure_is(HERE, m, 0, depth, 0, m, m);
        for (m = 0; m < H - 10000019; m += 10000019)
            enclosure_is(HERE, m, 0, depth, 0, m, m);
    }
}

/* Near the parabolic limit, where one unit of M moves the root far. */
static void test_near_parabolic(void)
{
    uint32_t depth;

    for (depth = 1; depth <= 5; depth++) {
        enclosure_is(HERE, 0, ONE, depth, 0, 0, 0);
        enclosure_is(HERE, 1, ONE, depth, 0, 756153, 952744);
        enclosure_is(HERE, 2, ONE, depth, 0, 952670, 1090614);
        enclosure_is(HERE, 0, ONE - 1, depth, 0, 0, 0);
        enclosure_is(HERE, 1000, ONE - 1, depth, 0, 7559010, 7564069);
        enclosure_is(HERE, 3, ONE - 4000, depth, 0, 134218, 268435);
    }
}

/* Numbers worked out in exact fractions. */
static void test_each_depth(void)
{
    enclosure_is(HERE, 42554808, ONE, 1, 0, 263993488, 268550019);
    enclosure_is(HERE, 42554808, ONE, 2, 0, 268433858, 268435471);
    enclosure_is(HERE, 42554808, ONE, 3, 0, 268435450, 268435461);
    enclosure_is(HERE, 42554808, ONE, 5, 0, 268435450, 268435461);
    enclosure_is(HERE, 421657428, ONE / 2, 1, 0, 519336620, 545452128);
    enclosure_is(HERE, 421657428, ONE / 2, 2, 0, 542338428, 542508854);
    enclosure_is(HERE, 421657428, ONE / 2, 3, 0, 542502507, 542502676);
    enclosure_is(HERE, 421657428, ONE / 2, 4, 0, 542502669, 542502673);
    enclosure_is(HERE, 421657428, ONE / 2, 5, 0, 542502669, 542502673);
    enclosure_is(HERE, 100000000, 241591910, 1, 0, 319712952, 326873613);
    enclosure_is(HERE, 100000000, 241591910, 5, 0, 326602770, 326602780);
    enclosure_is(HERE, 734064451, 67147247, 4, 0, 755613999, 755614010);
    enclosure_is(HERE, 734064451, 67147247, 5, 0, 755614007, 755614010);
    enclosure_is(HERE, 1, 1, 5, 0, 1, 2);
    enclosure_is(HERE, H, 1, 1, 0, 843314853, 843314857);
}

/*
** Accepted angles are no unbroken run near these ends, so that a search with
** other middles comes to another answer.
*/
static void test_middles(void)
{
    enclosure_is(HERE, 10997099, 268435434, 5, 0, 169270929, 169270956);
    enclosure_is(HERE, 43909422, 268435449, 4, 0, 271353095, 271353110);
    enclosure_is(HERE, 75872649, 268420998, 3, 0, 328183752, 328183765);
    enclosure_is(HERE, 19039584, 268328929, 3, 0, 203596963, 203596985);
    enclosure_is(HERE, 60333078, 268430898, 5, 0, 302936009, 302936019);
    enclosure_is(HERE, 13303402, 268434452, 5, 0, 180523200, 180523223);
    enclosure_is(HERE, 21887254, 267875063, 5, 0, 212430217, 212430238);
    enclosure_is(HERE, 59420555, 268422942, 4, 0, 301320520, 301320534);
}

/* Near pi the first three depths have no upper end. */
static void test_no_upper_end(void)
{
    enclosure_is(HERE, H, ONE, 1, 6, 0, 0);
    enclosure_is(HERE, H, ONE, 2, 6, 0, 0);
    enclosure_is(HERE, H, ONE, 3, 6, 0, 0);
    enclosure_is(HERE, H, ONE, 4, 0, 843314749, 843314862);
    enclosure_is(HERE, H, ONE, 5, 0, 843314853, 843314860);
    enclosure_is(HERE, H - 1, ONE, 5, 0, 843314853, 843314859);
}

static void test_limits(void)
{
    enclosure_is(HERE, H + 1, 0, 5, 1, 0, 0);
    enclosure_is(HERE, INT32_MAX, 0, 5, 1, 0, 0);
    enclosure_is(HERE, INT32_MIN, 0, 5, 1, 0, 0);
    enclosure_is(HERE, 0, ONE + 1, 5, 2, 0, 0);
    enclosure_is(HERE, 0, FAR, 5, 2, 0, 0);
    enclosure_is(HERE, 0, 0, 0, 3, 0, 0);
    enclosure_is(HERE, 0, 0, 6, 3, 0, 0);
    enclosure_is(HERE, 0, 0, 261, 3, 0, 0);
    enclosure_is(HERE, 0, 0, FAR, 3, 0, 0);
}

/* T is no upper end, nor -T for M below 0 a lower one, at any lesser depth. */
static void top_again(struct given g, uint32_t last_code, uint32_t depth)
{
    check(HERE, depth < 4 && last_code == 6,
          "m=%.17g e=%.17g: code 6 at depth %lu", g.m, g.e,
          (unsigned long)depth);
    if (g.m < 0)
        given_end_is(HERE, LOWER, -T, g, depth, 0, 0);
    else
        given_end_is(HERE, UPPER, T, g, depth, 0, 0);
}

/* Ends are accepted, and one unit further in is not, or opposes M. */
static void ends_again(struct given g, struct stripeawn_enclosure got,
                       uint32_t depth)
{
    int32_t above = got.lower + 1, below = got.upper - 1;

    given_end_is(HERE, LOWER, got.lower, g, depth, 0, 1);
    given_end_is(HERE, LOWER, above, g, depth,
                 g.m < 0 && above > 0 ? 10 : 0, 0);
    given_end_is(HERE, UPPER, got.upper, g, depth, 0, 1);
    given_end_is(HERE, UPPER, below, g, depth,
                 g.m >= 0 && below < 0 ? 10 : 0, 0);
}

/* The entries agree, and the enclosure of each depth is within the last. */
static void each_depth_again(struct given g)
{
    struct stripeawn_enclosure last = { 6, -T, T };
    uint32_t depth;

    for (depth = 1; depth <= 5; depth++) {
        struct stripeawn_enclosure got = enclosure_of(g, depth);

        if (got.code == 6) {
            top_again(g, last.code, depth);
            continue;
        }
        check(HERE,
              got.code == 0 && last.lower <= got.lower &&
                  got.lower <= got.upper && got.upper <= last.upper,
              "m=%.17g e=%.17g: code %lu, %ld to %ld at depth %lu", g.m, g.e,
              (unsigned long)got.code, (long)got.lower, (long)got.upper,
              (unsigned long)depth);
        ends_again(g, got, depth);
        last = got;
    }
}

static void test_ends_again(void)
{
    uint64_t random = 4;
    uint32_t a, i;
    int32_t m;

    for (m = 0; m <= H; m += 60000011)
        for (a = 0; a <= ONE; a += ONE / 8) {
            each_depth_again(grid(m, a));
            each_depth_again(grid(-m, a));
        }
    for (i = 0; i < 4000; i++)
        each_depth_again(random_doubles(&random));
}

void test_enclose(void)
{
    test_circle();
    test_near_parabolic();
    test_each_depth();
    test_middles();
    test_no_upper_end();
    test_limits();
    test_ends_again();
}
