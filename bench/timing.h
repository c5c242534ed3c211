/*
** timing.h: two passes over all inputs, timed in turns.
*/
#ifndef TIMING_H
#define TIMING_H

#include <stdint.h>

/*
** One pass over all inputs. It gives a sum of what was returned, and the sum
** is kept, so that no compiler can leave a call out.
*/
typedef uint64_t pass(void);

/* The line above those that measure prints. */
void print_heading(const char *left, const char *right);

/*
** Prints the nanoseconds a call of both passes, the least of the rounds, and
** their ratio.
*/
void measure(const char *name, pass *left, pass *right, long rounds);

/* The same, with the greatest ratio that is wanted beside it. */
void measure_to_bar(const char *name, pass *left, pass *right, long rounds,
                    double bar);

#endif
