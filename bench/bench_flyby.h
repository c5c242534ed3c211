/*
** bench_flyby.h: the time of the entries for flybys.
*/
#ifndef BENCH_FLYBY_H
#define BENCH_FLYBY_H

void measure_flybys(long rounds);

#endif
