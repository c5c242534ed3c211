/*
** timing.c: two passes over all inputs, timed in turns.
*/
#define _POSIX_C_SOURCE 200809L
#include <stdio.h>
#include <time.h>

#include "inputs.h"
#include "timing.h"

static volatile uint64_t kept;

static double seconds(void)
{
    struct timespec now;

    clock_gettime(CLOCK_MONOTONIC, &now);
    return (double)now.tv_sec + 1e-9 * (double)now.tv_nsec;
}

/* Runs one pass; the lesser of its time and the least so far. */
static double timed(pass *side, double least)
{
    double start = seconds(), took;

    kept = side();
    took = seconds() - start;
    return took < least ? took : least;
}

/* Times two passes in turns and prints a line, but for its end. */
static void print_times(const char *name, pass *left, pass *right,
                        long rounds)
{
    double left_least = 1e9, right_least = 1e9;
    long round;

    for (round = 0; round < rounds; round++) {
        left_least = timed(left, left_least);
        right_least = timed(right, right_least);
    }
    printf("%-24s %10.1f %10.1f %8.2f", name, left_least / INPUTS * 1e9,
           right_least / INPUTS * 1e9, left_least / right_least);
}

void print_heading(const char *left, const char *right)
{
    printf("%-24s %10s %10s %8s\n", "entry", left, right, "ratio");
}

void measure(const char *name, pass *left, pass *right, long rounds)
{
    print_times(name, left, right, rounds);
    printf("\n");
}

void measure_to_bar(const char *name, pass *left, pass *right, long rounds,
                    double bar)
{
    print_times(name, left, right, rounds);
    printf("  bar %.2f\n", bar);
}
