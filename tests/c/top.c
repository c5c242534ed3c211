/*
** top.c: the greatest angle T as an end, and code 6, which is given where it
** is no upper end.
**
** Every row is a turning point, so that a library which tests T - 1, T + 1
** or H in place of T answers at least one of these calls otherwise.
*/
#include <math.h>

#include "check.h"

/* The last A at which T is an upper end, and the last at which T - 1 is. */
struct turn {
    int32_t m;
    uint32_t depth;
    uint32_t a;      /* code 6 at a + 1 */
    int32_t low;     /* enclosure at a: low to T */
    uint32_t less_a;
    int32_t less;    /* enclosure at less_a: less to T - 1 */
};

/* Numbers worked out with whole numbers of any size. */
static const struct turn turns_of_a[] = {
    { H, 1, 122, 843314608, 120, 843314612 },
    { H - 1, 1, 124, 843314603, 122, 843314607 },
    { H - 1000, 1, 2030, 843309743, 2028, 843309747 },
    { 800000000, 1, 82655128, 739601446, 82655126, 739601446 },
    { 703000000, 1, 267754108, 672374897, 267754104, 672374897 },
    { H, 2, 9241, 843314160, 9097, 843314171 },
    { H - 1, 2, 9386, 843314149, 9241, 843314159 },
    { H - 65535, 2, 9472711, 842568656, 9472556, 842568667 },
    { 842000000, 2, 189878768, 834888470, 189878420, 834888477 },
    { H, 3, 3059093, 843313509, 3010223, 843313530 },
    { H - 1, 3, 3106891, 843313487, 3058004, 843313509 },
    { H - 1000, 3, 50857429, 843294986, 50791543, 843295007 },
    { H - 5000, 3, 242050774, 843255616, 241916823, 843255631 },
};

/* The last M at which T is an upper end; the enclosure is low to T. */
struct last {
    uint32_t a, depth;
    int32_t m, low;
};

static const struct last turns_of_m[] = {
    { ONE, 1, 702642944, 672236205 },
    { ONE - 1, 1, 702642944, 672236205 },
    { 10000000, 1, 838074480, 820979472 },
    { 20000, 1, 843304439, 843263931 },
    { ONE, 2, 841455991, 833299076 },
    { 200000000, 2, 841929909, 834650835 },
    { 20000, 2, 843314781, 843313276 },
    { ONE, 3, 843309304, 843252387 },
    { 200000000, 3, 843310735, 843261515 },
    { 10000000, 3, 843314710, 843310423 },
};

/* Where code 6 is due at one depth, depths 4 and 5 have an enclosure. */
static void only_deeper(int32_t m, uint32_t a, uint32_t depth)
{
    enclosure_is(HERE, m, a, depth, 6, 0, 0);
    check(HERE, stripeawn_enclose(m, a, 4).code == 0, "code 6 at depth 4");
    check(HERE, stripeawn_enclose(m, a, 5).code == 0, "code 6 at depth 5");
}

/* Two doubles next to a turning point: T is the upper end of one alone. */
static void doubles_beside(struct given below, struct given above,
                           uint32_t depth)
{
    struct stripeawn_enclosure got = enclosure_of(below, depth);
    struct stripeawn_enclosure mirrored =
        enclosure_of(mirror_of(below), depth);

    check(HERE,
          got.code == 0 && got.upper == T && mirrored.code == 0 &&
              mirrored.lower == -T,
          "m=%.17g e=%.17g depth=%lu: code %lu, upper end %ld", below.m,
          below.e, (unsigned long)depth, (unsigned long)got.code,
          (long)got.upper);
    given_enclosure_is(HERE, above, depth, 6, 0, 0);
}

/* One A further, T is no end any more; its neighbours turn elsewhere. */
static void test_turns_of_a(void)
{
    size_t i;

    for (i = 0; i < COUNT(turns_of_a); i++) {
        struct turn at = turns_of_a[i];
        struct given d = as_doubles(grid(at.m, at.a));

        doubles_beside(doubles(d.m, nextafter(d.e, 0.0)),
                       doubles(d.m, nextafter(d.e, 2.0)), at.depth);
        enclosure_is(HERE, at.m, at.a, at.depth, 0, at.low, T);
        only_deeper(at.m, at.a + 1, at.depth);
        upper_is(HERE, T, at.m, at.a, at.depth, 0, 1);
        upper_is(HERE, T, at.m, at.a + 1, at.depth, 0, 0);
        upper_is(HERE, T - 1, at.m, at.a, at.depth, 0, 0);
        upper_is(HERE, H, at.m, at.a, at.depth, 0, 0);
        enclosure_is(HERE, at.m, at.less_a, at.depth, 0, at.less, T - 1);
        upper_is(HERE, T - 1, at.m, at.less_a, at.depth, 0, 1);
        upper_is(HERE, T - 1, at.m, at.less_a + 1, at.depth, 0, 0);
        upper_is(HERE, T, at.m, at.less_a + 1, at.depth, 0, 1);
    }
}

static void test_turns_of_m(void)
{
    size_t i;

    for (i = 0; i < COUNT(turns_of_m); i++) {
        struct last at = turns_of_m[i];
        struct given d = as_doubles(grid(at.m, at.a));

        doubles_beside(doubles(nextafter(d.m, 0.0), d.e),
                       doubles(nextafter(d.m, 4.0), d.e), at.depth);
        enclosure_is(HERE, at.m, at.a, at.depth, 0, at.low, T);
        only_deeper(at.m + 1, at.a, at.depth);
        upper_is(HERE, T, at.m, at.a, at.depth, 0, 1);
        upper_is(HERE, T, at.m + 1, at.a, at.depth, 0, 0);
        upper_is(HERE, T - 1, at.m, at.a, at.depth, 0, 0);
    }
}

/* Sine has its bounds apart at T and T - 1; neither is ever a lower end. */
static void test_lower_ends(void)
{
    static const int64_t lows[2][5] = {
        { -543882727, -20191959, -119563, -274, -68 }, /* T - 1 */
        { -543882730, -20191960, -119564, -275, -69 }, /* T */
    };
    static const int64_t highs[2][5] = {
        { 140671977, 1858931, 5618, -50, -55 },
        { 140671976, 1858929, 5616, -52, -57 },
    };
    uint32_t depth;
    int32_t past;

    for (depth = 1; depth <= 5; depth++)
        for (past = 0; past < 2; past++) {
            sine_is(HERE, T - 1 + past, depth, 0, lows[past][depth - 1],
                    highs[past][depth - 1]);
            lower_is(HERE, T - 1 + past, H, 0, depth, 0, 0);
            lower_is(HERE, T - 1 + past, H, ONE, depth, 0, 0);
            lower_is(HERE, H + past, H, 0, depth, 0, !past);
        }
}

void test_top(void)
{
    test_turns_of_a();
    test_turns_of_m();
    test_lower_ends();
}
