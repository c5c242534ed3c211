/*
** width.c: how far apart the ends of enclosures are, and what is promised.
**
** Prints how many orbits are drawn at each e, and the greatest tolerance N.
** Then each e has a line: A, the greatest width met at depth 5, the greatest
** width promised (R63), and the least N that confirms (R64), 0 where none
** does. An orbit that breaks the promise of R63 ends all of it: a picture of
** the others would look as if it was kept.
*/
#include <math.h>
#include <stdio.h>
#include <stdlib.h>

#include "stripeawn.h"

enum { ORBITS = 3000, DEPTH = 5, STEPS = 60, STEPS_TO_HALVE = 3 };

/* A fixed sequence of numbers from 0 to the limit (Marsaglia's xorshift). */
static uint32_t draw(uint32_t limit)
{
    static uint64_t state = UINT64_C(88172645463325252);

    state ^= state << 13;
    state ^= state >> 7;
    state ^= state << 17;
    return (uint32_t)((state >> 32) % ((uint64_t)limit + 1));
}

/*
** Half of them anywhere, half spread by powers of two: near e = 1 the widest
** enclosures are at the least M, which the first half never meets.
*/
static int32_t draw_anomaly(void)
{
    int32_t m = (int32_t)draw(STRIPEAWN_M_MAX);
    uint32_t halvings = draw(29);

    if (draw(1))
        m >>= halvings;
    return draw(1) ? -m : m;
}

/* From e = 0 on, 1 - e halves every few steps, to 2^-20. */
static uint32_t eccentricity(int step)
{
    return STRIPEAWN_A_MAX -
           (uint32_t)lround(exp2(28 - (double)step / STEPS_TO_HALVE));
}

static int64_t width_met(int32_t m, uint32_t a)
{
    struct stripeawn_enclosure r = stripeawn_enclose(m, a, DEPTH);
    int64_t width = (int64_t)r.upper - r.lower;
    uint64_t promised = stripeawn_greatest_width(a);

    if (r.code != STRIPEAWN_DONE) {
        fprintf(stderr, "M = %ld, A = %lu: %s\n", (long)m, (unsigned long)a,
                stripeawn_name(r.code));
        exit(EXIT_FAILURE);
    }
    if (width < 0 || (uint64_t)width > promised) {
        fprintf(stderr, "M = %ld, A = %lu: from %ld to %ld, where a width of "
                "0 to %llu is promised\n", (long)m, (unsigned long)a,
                (long)r.lower, (long)r.upper, (unsigned long long)promised);
        exit(EXIT_FAILURE);
    }
    return width;
}

static int64_t greatest_met(uint32_t a)
{
    int64_t greatest = 0;
    int i;

    for (i = 0; i < ORBITS; i++) {
        int64_t width = width_met(draw_anomaly(), a);

        if (width > greatest)
            greatest = width;
    }
    return greatest;
}

int main(void)
{
    int step;

    printf("%d %lu\n", ORBITS, (unsigned long)STRIPEAWN_N_MAX);
    for (step = 0; step <= STEPS; step++) {
        uint32_t a = eccentricity(step);

        printf("%lu %lld %llu %lu\n", (unsigned long)a,
               (long long)greatest_met(a),
               (unsigned long long)stripeawn_greatest_width(a),
               (unsigned long)stripeawn_least_n(a));
    }
    return fflush(stdout) == 0 ? EXIT_SUCCESS : EXIT_FAILURE;
}
