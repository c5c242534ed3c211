/*
** sine.c: bounds of sine.
*/
#include "check.h"

static void test_stated_numbers(void)
{
    uint32_t depth;

    for (depth = 1; depth <= 5; depth++)
        sine_is(HERE, 0, depth, 0, 0, 0);
    sine_is(HERE, 1, 1, 0, 0, 2);
    sine_is(HERE, 524288, 1, 0, 524287, 524289);
    sine_is(HERE, 524288, 5, 0, 524287, 524289);
    sine_is(HERE, ONE, 1, 0, 223696213, 225933177);
    sine_is(HERE, ONE, 2, 0, 225879913, 225880656);
    sine_is(HERE, ONE, 3, 0, 225880645, 225880651);
    sine_is(HERE, ONE, 5, 0, 225880645, 225880651);
}

/* Depth 2 alone would give 524286 and 524290 here: the best so far stays. */
static void test_best_so_far(void)
{
    uint32_t depth;

    for (depth = 1; depth <= 5; depth++)
        sine_is(HERE, 524288, depth, 0, 524287, 524289);
}

/* Below zero near T: lo at every depth, hi at depths 4 and 5. */
static void test_signs_at_the_top(void)
{
    sine_is(HERE, T, 1, 0, -543882730, 140671976);
    sine_is(HERE, T, 2, 0, -20191960, 1858929);
    sine_is(HERE, T, 3, 0, -119564, 5616);
    sine_is(HERE, T, 4, 0, -275, -52);
    sine_is(HERE, T, 5, 0, -69, -57);
    sine_is(HERE, T - 1, 5, 0, -68, -55);
    sine_is(HERE, H, 5, 0, -5, 8);
    sine_is(HERE, 421657428, 5, 0, 268435453, 268435460);
    sine_is(HERE, 421657428, 1, 0, 248257761, 269650089);
}

static void test_limits(void)
{
    sine_is(HERE, T + 1, 5, 10, 0, 0);
    sine_is(HERE, FAR, 1, 10, 0, 0);
    sine_is(HERE, ONE, 0, 3, 0, 0);
    sine_is(HERE, ONE, 6, 3, 0, 0);
    sine_is(HERE, ONE, FAR, 3, 0, 0);
    /* depth 1 and angle 0 if only the low bytes were read */
    sine_is(HERE, ONE, 257, 3, 0, 0);
    sine_is(HERE, ONE, UINT32_C(65537), 3, 0, 0);
}

/* Over the whole range: ordered, better with depth, 32 apart at depth 5. */
static void test_shape(void)
{
    uint32_t x, depth;

    for (x = 0; x < T - 104729; x += 104729) {
        struct stripeawn_bounds last = stripeawn_sine(x, 1);

        for (depth = 2; depth <= 5; depth++) {
            struct stripeawn_bounds next = stripeawn_sine(x, depth);

            check(HERE,
                  next.code == 0 && last.lo <= next.lo &&
                      next.lo <= next.hi && next.hi <= last.hi,
                  "sine x=%lu is not better at depth %lu", (unsigned long)x,
                  (unsigned long)depth);
            last = next;
        }
        check(HERE, last.hi - last.lo <= 32, "sine x=%lu is wide at depth 5",
              (unsigned long)x);
    }
}

void test_sine(void)
{
    test_stated_numbers();
    test_best_so_far();
    test_signs_at_the_top();
    test_limits();
    test_shape();
}
