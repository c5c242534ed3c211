/*
** newton.c: Newton's and Halley's method, stopped by a verdict.
**
** A textbook loop stops on a small residual, E - e sin E - M, or on a small
** step. Here every new estimate comes with the judge's verdict on it, and the
** loop stops where that is Confirmed: the root is then within n units of the
** estimate, whatever the residual is. It gives up after ten steps, or at a
** flat one, which hands nothing over.
**
** n is the least that is sure to confirm a right answer. Close to the
** parabolic limit there is none, and 1000 is taken: a residual below a third
** of a unit says little there, and the distance says what is certain.
*/
#include <stdio.h>

#include "stripeawn.h"

enum { STEPS = 10, DEPTH = 5, NO_LEAST_N = 1000, RADIAN = STRIPEAWN_RADIAN };

/* Picked to show every ending: e, which A rounds down, and M in units. */
static const struct orbit { double e; int32_t m; } orbits[] = {
    { 0.0167, RADIAN }, { 0.2, RADIAN * 2 }, { 0.2, -RADIAN / 20 },
    { 0.6, RADIAN }, { 0.6, RADIAN / 100 }, { 0.9, RADIAN },
    { 0.9, RADIAN / 20 }, { 0.97, RADIAN / 2 }, { 0.97, RADIAN / 20 },
    { 0.999, RADIAN * 3 }, { 0.999, RADIAN / 100 }, { 0.999, 2 },
    { 0.9999, 0 }, { 0.999999, 19 },
    { 1, RADIAN }, { 1, RADIAN / 100 }, { 1, 15 }, { 1, 0 },
};

/* By their numbers, which begin with 1. */
static const char *const methods[] = { "", "Newton", "Halley" };

enum { ORBITS = sizeof orbits / sizeof orbits[0], METHODS = 3 };

/* Where a loop stopped. */
struct loop {
    uint32_t code, verdict; /* the last ones; 0 is no verdict yet */
    int steps, flat;
    double estimate;        /* radians */
    int flattered;          /* by its residual: it is off by more than n */
};

/* Makes steps from E = M on, until one is Confirmed or flat, or ten are. */
static struct loop iterate(int32_t m, uint32_t a, uint32_t method, uint32_t n)
{
    struct loop loop = { .estimate = m * STRIPEAWN_UNIT };

    while (loop.verdict != STRIPEAWN_CONFIRMED && loop.steps < STEPS) {
        struct stripeawn_judged_step next =
            stripeawn_step_judged(m, a, loop.estimate, method, n, DEPTH);

        loop.code = next.code;
        loop.flat = next.step == STRIPEAWN_FLAT;
        if (loop.code != STRIPEAWN_DONE || loop.flat)
            break;
        loop.estimate = next.estimate;
        loop.verdict = next.verdict;
        loop.steps++;
    }
    return loop;
}

/* E - e sin E - M in units, with terms of sine enough for any E up to pi. */
static double residual_of(int32_t m, uint32_t a, double angle)
{
    double term = angle, sine = angle;
    int k;

    for (k = 2; k <= 28; k += 2) {
        term *= -angle * angle / (k * (k + 1));
        sine += term;
    }
    return (angle - a * STRIPEAWN_UNIT * sine) * RADIAN - m;
}

/* Runs a loop and prints its line of the table. */
static struct loop run(const struct orbit *orbit, uint32_t method)
{
    uint32_t a = (uint32_t)(orbit->e * STRIPEAWN_A_MAX);
    uint32_t least = stripeawn_least_n(a), n = least ? least : NO_LEAST_N;
    struct loop loop = iterate(orbit->m, a, method, n);
    struct stripeawn_off off = stripeawn_distance(orbit->m, a, loop.estimate);
    double residual = residual_of(orbit->m, a, loop.estimate);
    const char *end = loop.flat ? "flat" : "ten steps";

    if (loop.verdict == STRIPEAWN_CONFIRMED)
        end = "Confirmed";
    loop.flattered = off.least > n && -1 < 3 * residual && 3 * residual < 1;
    printf("%8.6f  %9ld  %5lu  %s  %5d  %-9s  %-9s  %13.2f  %lu to %lu\n",
           orbit->e, (long)orbit->m, (unsigned long)n, methods[method],
           loop.steps, end,
           loop.verdict ? stripeawn_name(loop.verdict) : "none", residual,
           (unsigned long)off.least, (unsigned long)off.most);
    return loop;
}

int main(void)
{
    int confirmed[METHODS] = { 0 }, steps[METHODS] = { 0 }, flattered = 0, i;
    uint32_t k;

    printf("In units of 2^-28 radian:\n"
           "       e          M      n  method  steps  ended      "
           "verdict         residual  so E is off by\n");
    for (i = 0; i < ORBITS; i++)
        for (k = STRIPEAWN_NEWTON; k <= STRIPEAWN_HALLEY; k++) {
            struct loop loop = run(&orbits[i], k);

            if (loop.code != STRIPEAWN_DONE)
                return 1;
            confirmed[k] += loop.verdict == STRIPEAWN_CONFIRMED;
            steps[k] += loop.steps;
            flattered += loop.flattered;
        }
    for (k = STRIPEAWN_NEWTON; k <= STRIPEAWN_HALLEY; k++)
        printf("%s: %d of %d orbits Confirmed, %d steps in all.\n",
               methods[k], confirmed[k], (int)ORBITS, steps[k]);
    printf("Off by more than n with a residual below a third of a unit: %d "
           "loops.\n", flattered);
    return 0;
}
