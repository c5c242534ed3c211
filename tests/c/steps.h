/*
** steps.h: what the tests of steps share.
*/
#ifndef STEPS_H
#define STEPS_H

#include "check.h"

/* What a step starts from, and by which method. */
struct start {
    int32_t m;
    uint32_t a;
    double estimate;
    uint32_t method;
};

/* The same on the other side of 0; M is not the least number. */
struct start mirror_of_start(struct start from);

/*
** One call each, with every number that it must return; a double by its bits,
** so that minus zero is not taken for 0. Where M is above 0, the mirrored
** call must return the mirror of these numbers.
*/
void step_is(struct place at, struct start from,
             struct stripeawn_stepped wanted);
void judged_step_is(struct place at, struct start from, uint32_t n,
                    uint32_t depth, struct stripeawn_judged_step wanted);

/* The wanted results: a code and zeros, no step, and a step to an estimate. */
struct stripeawn_stepped refused_step(uint32_t code);
struct stripeawn_stepped no_step(void);
struct stripeawn_stepped step_to(struct start from, double estimate);

/* A step's result with the verdict on it. */
struct stripeawn_judged_step with_verdict(struct stripeawn_stepped s,
                                          uint32_t verdict);

/*
** The rule in doubles, of a start within its limits: the divisor and the new
** estimate as they come, for M or -M, whichever is not below 0.
*/
struct raw_step {
    double divisor, next;
};

struct raw_step raw_step_of(struct start from);

/* What is handed over of it, with code 0. */
struct stripeawn_stepped step_by_rule(struct start from);

#endif
