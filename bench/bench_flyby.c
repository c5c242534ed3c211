/*
** bench_flyby.c: the part of bench.c with flybys.
*/
#include "bench_flyby.h"
#include "both_sides.h"
#include "timing.h"

#define SINH(P) {                                                           \
        struct stripeawn_bounds r = P##_flyby_sinh(flybys[i].x);            \
        sum += (uint64_t)r.lo * 3 + (uint64_t)r.hi; }
#define LOWER(P)                                                            \
        sum += P##_flyby_lower_end(flybys[i].x, flybys[i].m,                \
                                   flybys[i].b).accepted;
#define UPPER(P)                                                            \
        sum += P##_flyby_upper_end(flybys[i].x, flybys[i].m,                \
                                   flybys[i].b).accepted;
#define ENCLOSE(P) {                                                        \
        struct stripeawn_enclosure r =                                      \
            P##_flyby_enclose(flybys[i].m, flybys[i].b);                    \
        sum += (uint64_t)r.lower * 3 + (uint64_t)r.upper; }
#define JUDGE(P)                                                            \
        sum += P##_flyby_judge(flybys[i].m, flybys[i].b,                    \
                               flybys[i].estimate, TOLERANCE).verdict;

BOTH_SIDES(sinh, SINH)
BOTH_SIDES(lower, LOWER)
BOTH_SIDES(upper, UPPER)
BOTH_SIDES(enclose, ENCLOSE)
BOTH_SIDES(judge, JUDGE)

void measure_flybys(long rounds)
{
    measure("flyby_sinh", library_sinh, plain_sinh_pass, rounds);
    measure("flyby_lower_end", library_lower, plain_lower_pass, rounds);
    measure("flyby_upper_end", library_upper, plain_upper_pass, rounds);
    measure("flyby_enclose", library_enclose, plain_enclose_pass, rounds);
    measure("flyby_judge", library_judge, plain_judge_pass, rounds);
}
