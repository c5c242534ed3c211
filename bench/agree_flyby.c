/*
** agree_flyby.c: the part of agree.c with flybys.
**
** Every entry is called with the inputs, with each M of them and another e,
** of which there may be no enclosure, and with near-parabolic flybys near
** M = 0; the end tests on either side of both ends of an enclosure too, and
** the judge with four tolerances and four estimates in place of one, there
** and about the ends. Then come all of a few M, e, x and estimates at a
** limit, next to it and past it.
*/
#include <float.h>
#include <math.h>
#include <stdio.h>

#include "agree.h"
#include "answers.h"
#include "inputs.h"
#include "plain.h"

#define LEAST 0x1p-1074

enum { TOP = STRIPEAWN_FLYBY_X_MAX };

/* Limits, and around where 2^29 is accepted no more for e = 1 and e = 2. */
static const uint32_t means[] = {
    0, 1, 9, 10, 436707012, 436707013, 1410284936, 1410284937,
    STRIPEAWN_FLYBY_M_MAX - 1, STRIPEAWN_FLYBY_M_MAX,
    STRIPEAWN_FLYBY_M_MAX + 1, UINT32_MAX
};

/* 740131758 is the least of which no M is without an enclosure. */
static const uint32_t shapes[] = {
    0, STRIPEAWN_FLYBY_B_MIN - 1, STRIPEAWN_FLYBY_B_MIN,
    STRIPEAWN_FLYBY_B_MIN + 1, 2 * STRIPEAWN_FLYBY_B_MIN, 740131757,
    740131758, STRIPEAWN_FLYBY_B_MAX - 1, STRIPEAWN_FLYBY_B_MAX,
    STRIPEAWN_FLYBY_B_MAX + 1, UINT32_MAX
};

static const uint32_t edges[] = {
    0, 1, 2, 16384, STRIPEAWN_RADIAN, TOP - 1, TOP, TOP + 1u,
    STRIPEAWN_X_MAX, STRIPEAWN_X_MAX + 1u, UINT32_MAX
};

static const double judged[] = {
    0.0, -0.0, LEAST, -LEAST, DBL_MIN, STRIPEAWN_UNIT / 2, STRIPEAWN_UNIT,
    -STRIPEAWN_UNIT, 101 * STRIPEAWN_UNIT, 1.0, 2 - 101 * STRIPEAWN_UNIT,
    2 - 0x1p-52, 2.0, 2 + 0x1p-51, 3.0, -1.0, DBL_MAX, INFINITY, -INFINITY,
    NAN
};

static const uint32_t tolerances[] = {
    0, TOLERANCE, STRIPEAWN_N_MAX, STRIPEAWN_N_MAX + 1
};

/* One call on both sides: counted, and printed where they differ. */
static void compare(const char *entry, const struct flyby *f, uint32_t n,
                    int same)
{
    if (!to_be_shown(same))
        return;
    printf("flyby_%s differs: M = %lu, B = %lu, X = %lu, estimate %a, "
           "n %lu\n",
           entry, (unsigned long)f->m, (unsigned long)f->b,
           (unsigned long)f->x, f->estimate, (unsigned long)n);
}

static void compare_sinh(const struct flyby *f)
{
    struct stripeawn_bounds s = stripeawn_flyby_sinh(f->x);
    struct stripeawn_bounds p = plain_flyby_sinh(f->x);

    compare("sinh", f, 0,
            s.code == p.code && s.lo == p.lo && s.hi == p.hi);
}

static void compare_ends(const struct flyby *f)
{
    compare("lower_end", f, 0,
            same_ends(stripeawn_flyby_lower_end(f->x, f->m, f->b),
                      plain_flyby_lower_end(f->x, f->m, f->b)));
    compare("upper_end", f, 0,
            same_ends(stripeawn_flyby_upper_end(f->x, f->m, f->b),
                      plain_flyby_upper_end(f->x, f->m, f->b)));
}

/* With all tolerances. */
static void compare_verdicts(const struct flyby *f)
{
    size_t i;

    for (i = 0; i < COUNT(tolerances); i++) {
        uint32_t n = tolerances[i];

        compare("judge", f, n,
                same_verdicts(stripeawn_flyby_judge(f->m, f->b, f->estimate,
                                                    n),
                              plain_flyby_judge(f->m, f->b, f->estimate,
                                                n)));
    }
}

/* The library's enclosure, compared. */
static struct stripeawn_enclosure compare_enclosure(const struct flyby *f)
{
    struct stripeawn_enclosure s = stripeawn_flyby_enclose(f->m, f->b);

    compare("enclose", f, 0,
            same_enclosures(s, plain_flyby_enclose(f->m, f->b)));
    return s;
}

/* From one below an end to one above it; below 0 is far above 2^29. */
static void compare_about(struct flyby f, int32_t end)
{
    int32_t step;

    for (step = -1; step <= 1; step++) {
        f.x = (uint32_t)(end + step);
        compare_sinh(&f);
        compare_ends(&f);
    }
    f.estimate = end * STRIPEAWN_UNIT;
    compare_verdicts(&f);
}

static void compare_flyby(struct flyby f)
{
    const double estimate = f.estimate;
    struct stripeawn_enclosure r = compare_enclosure(&f);
    int i;

    compare_sinh(&f);
    compare_ends(&f);
    if (r.code == 0) {
        compare_about(f, r.lower);
        compare_about(f, r.upper);
    }
    for (i = 0; i < MOVES; i++) {
        f.estimate = moved(estimate, i);
        compare_verdicts(&f);
    }
}

static void compare_inputs(void)
{
    int i;

    for (i = 0; i < INPUTS; i++) {
        struct flyby other = flybys[i];
        uint32_t x = (uint32_t)small_angles[i];
        struct flyby small = { (uint32_t)small_anomalies[i],
                               2 * STRIPEAWN_FLYBY_B_MIN -
                                   great_eccentricities[i],
                               x, x * STRIPEAWN_UNIT };

        other.b = flybys[(i + 1) % INPUTS].b;
        compare_flyby(flybys[i]);
        compare_flyby(other);
        compare_flyby(small);
    }
}

static void compare_limits(uint32_t m, uint32_t b)
{
    struct flyby f = { m, b, 0, 0.0 };
    size_t i;

    compare_enclosure(&f);
    for (i = 0; i < COUNT(edges); i++) {
        f.x = edges[i];
        compare_sinh(&f);
        compare_ends(&f);
    }
    for (i = 0; i < COUNT(judged); i++) {
        f.estimate = judged[i];
        compare_verdicts(&f);
    }
}

void compare_flybys(void)
{
    size_t i, k;

    compare_inputs();
    for (i = 0; i < COUNT(means); i++)
        for (k = 0; k < COUNT(shapes); k++)
            compare_limits(means[i], shapes[k]);
}
