/*
** distance.c: how far off estimates certainly are, and what residual they
** have.
**
** Each estimate has a line: M, A, the estimate in units, the size of its
** residual E - e sin E - M in units, and how far from the root it is at
** least and at most. The estimates of an orbit lie above its root, 1 and 1.5
** times a power of two units away, from a 64th of a unit on; those whose
** residual is out of range are left out. An answer that is not true of its
** estimate ends all of it.
**
** The numbers are the same wherever doubles are those of IEEE 754: no sine of
** a C library is asked, whose last digits differ.
*/
#include <math.h>
#include <stdio.h>
#include <stdlib.h>

#include "stripeawn.h"

enum { DEPTH = 5, TERMS = 30, HALVINGS = 60 };

static const double least_residual = 0.01, greatest_residual = 1000;

struct orbit {
    int32_t m;
    uint32_t a;
};

/* Four near the parabolic limit, e = 1, 1, 0.9999 and 0.99; one ordinary. */
static const struct orbit orbits[] = {
    { 0, STRIPEAWN_A_MAX },
    { 5, STRIPEAWN_A_MAX },
    { 0, 268408612 },
    { 0, 265751101 },
    { STRIPEAWN_RADIAN, STRIPEAWN_A_MAX / 2 }
};

/* x - sin x by its own series, in which no digits cancel near x = 0. */
static double lag(double x)
{
    double term = x * x * x / 6, sum = 0;
    int k;

    for (k = 2; k < TERMS; k++) {
        sum += term;
        term *= -x * x / (2 * k * (2 * k + 1));
    }
    return sum;
}

/* E - e sin E - M, all of it in units. */
static double residual(struct orbit o, double estimate)
{
    double e = (double)o.a / STRIPEAWN_A_MAX;

    return (1 - e) * estimate +
           e * STRIPEAWN_RADIAN * lag(estimate * STRIPEAWN_UNIT) - o.m;
}

static void fail(struct orbit o, const char *words)
{
    fprintf(stderr, "M = %ld, A = %lu: %s\n", (long)o.m, (unsigned long)o.a,
            words);
    exit(EXIT_FAILURE);
}

/* By halving the enclosure, to far less than a unit; 0 where M is 0. */
static double root(struct orbit o)
{
    struct stripeawn_enclosure r = stripeawn_enclose(o.m, o.a, DEPTH);
    double below = r.lower, above = r.upper;
    int i;

    if (r.code != STRIPEAWN_DONE)
        fail(o, stripeawn_name(r.code));
    for (i = 0; i < HALVINGS; i++) {
        double middle = (below + above) / 2;

        if (residual(o, middle) < 0)
            below = middle;
        else
            above = middle;
    }
    return above;
}

/* Prints a line where the residual is in range; 0 where it is above. */
static int print_estimate(struct orbit o, double from, double step)
{
    double estimate = from + step, size = fabs(residual(o, estimate));
    struct stripeawn_off off =
        stripeawn_distance(o.m, o.a, estimate * STRIPEAWN_UNIT);

    if (off.code != STRIPEAWN_DONE)
        fail(o, stripeawn_name(off.code));
    if (off.least > step || off.most < step)
        fail(o, "an estimate is less or more off than its distance says");
    if (size >= least_residual && size <= greatest_residual)
        printf("%ld %lu %.1f %.3g %lu %lu\n", (long)o.m, (unsigned long)o.a,
               estimate, size, (unsigned long)off.least,
               (unsigned long)off.most);
    return size <= greatest_residual;
}

int main(void)
{
    size_t i;

    for (i = 0; i < sizeof orbits / sizeof orbits[0]; i++) {
        double from = root(orbits[i]), step = 1.0 / 64;

        while (print_estimate(orbits[i], from, step) &&
               print_estimate(orbits[i], from, 1.5 * step))
            step *= 2;
    }
    return fflush(stdout) == 0 ? EXIT_SUCCESS : EXIT_FAILURE;
}
