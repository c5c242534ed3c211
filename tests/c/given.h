/*
** given.h: M and the eccentricity as entries take them, on the grid or as
** doubles, and one call for both ways.
*/
#ifndef GIVEN_H
#define GIVEN_H

#include "stripeawn.h"

/* M in units and A, or M in radians and e: a double holds each exactly. */
struct given {
    int is_double;
    double m, e;
};

struct given grid(int32_t m, uint32_t a);
struct given doubles(double m, double e);

/* The same numbers given as doubles, which is exact; and with M mirrored. */
struct given as_doubles(struct given g);
struct given mirror_of(struct given g);

/* Doubles within their limits, brought to the grid up to H and to 2^28. */
struct given brought_to_grid(struct given g);

/* The entries. */
enum { LOWER, UPPER };

struct stripeawn_end end_of(int upper, int32_t x, struct given g,
                            uint32_t depth);
struct stripeawn_enclosure enclosure_of(struct given g, uint32_t depth);
struct stripeawn_proposal proposal_of(struct given g);
struct stripeawn_verdict verdict_of(struct given g, double estimate,
                                    uint32_t n, uint32_t depth);
struct stripeawn_settled settled_of(struct given g, double estimate,
                                    uint32_t n);
struct stripeawn_off distance_of(struct given g, double estimate);

/* The next of a row of pseudo-random numbers. */
uint64_t random_bits(uint64_t *state);

/* The same from 0 up to 1, with all 53 bits of a double. */
double random_fraction(uint64_t *state);

/*
** A pseudo-random M and e within their limits, M of either sign. A quarter is
** close to the parabolic limit and to M = 0, and a quarter close to pi.
*/
struct given random_doubles(uint64_t *state);

#endif
