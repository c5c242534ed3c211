/*
** inputs.h: what both sides of the benchmark are given.
*/
#ifndef INPUTS_H
#define INPUTS_H

#include "stripeawn.h"

enum { INPUTS = 2048, DEPTH = 5, TOLERANCE = 100 };

#define COUNT(list) (sizeof (list) / sizeof (list)[0])

extern int32_t anomalies[INPUTS], angles[INPUTS];
extern uint32_t eccentricities[INPUTS];
extern double estimates[INPUTS];
extern uint8_t claims[STRIPEAWN_CLAIM_BYTES * INPUTS];

/* An orbit as doubles, M in radians and e, and an angle and an estimate. */
struct doubles {
    double m, e, estimate;
    int32_t x;
};

extern struct doubles on_grid[INPUTS], off_grid[INPUTS];

extern int32_t small_anomalies[INPUTS], small_angles[INPUTS];
extern uint32_t great_eccentricities[INPUTS];

/* What a step is given. */
struct start {
    int32_t m;
    uint32_t a, method;
    double estimate;
};

extern struct start starts[INPUTS];

/* A flyby, an x and an estimate. */
struct flyby {
    uint32_t m, b, x;
    double estimate;
};

extern struct flyby flybys[INPUTS];

/*
** Any orbit with M not below 0, an angle near its root, and an estimate some
** units off it. The doubles on the grid are the same orbits, angles and
** estimates once more; those off it are orbits less than a unit away.
**
** Then near-parabolic orbits near M = 0, with M below 16 and A within 4096 of
** 2^28, as in examples/flattered.c; and angles below 2^20, about as great as
** the roots of these orbits are.
**
** Then where steps are taken from: any orbit with M of either sign, either
** method, and an estimate at M, near the root or anywhere, off the grid but
** for M.
**
** Then flybys, with any M and e of which there is an enclosure, an x near the
** root, and an estimate that is right, some units off to either side or
** anywhere, on the grid or off it.
*/
void make_inputs(void);

/*
** An estimate as it is, half a unit up, and a thousand units to either side,
** which is outside of most enclosures. The estimates above are whole units,
** and show nothing of how one is rounded.
*/
enum { MOVES = 4 };

double moved(double estimate, int move);

/* Which orbits are drawn: any, on the grid or off it, or near M = 0 on it. */
enum orbits { ANY_ON_GRID, ANY_OFF_GRID, NEAR_PARABOLIC };

/* One orbit more, as doubles, with x at the middle of its enclosure. */
struct doubles draw_orbit(enum orbits kind);

/* An estimate up to 2n units off that middle, to either side. */
double draw_estimate(const struct doubles *orbit, uint32_t n);

/* An estimate from 0 to T units. */
double draw_any_estimate(void);

/* Writes a claim record, with the tolerance and the depth of all. */
void put_claim(uint8_t *record, int32_t m, uint32_t a, double estimate);

#endif
