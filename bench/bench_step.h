/*
** bench_step.h: the time of cosine and of steps.
*/
#ifndef BENCH_STEP_H
#define BENCH_STEP_H

void measure_cosine(long rounds);

void measure_steps(long rounds);

#endif
