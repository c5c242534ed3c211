/*
** flyby.h: what the tests of flybys share: the limits, the rules as plain
** sums and searches, and one comparison for each entry.
*/
#ifndef FLYBY_H
#define FLYBY_H

#include "check.h"

/* The limits, as the rules give them; the least B is ONE. */
#define TOP INT32_C(536870912)
#define MOST_M UINT32_C(2147483647)
#define MOST_B UINT32_C(1073741824)

/* The double next to 2, which is 2^29 units. */
#define ABOVE_2 0x1.0000000000001p+1
#define BELOW_2 0x1.fffffffffffffp+0

/* A flyby as the entries take it. */
struct flyby {
    uint32_t m, b;
};

/*
** The rules, for what is within the limits. No product is above 64 bits:
** B hi is below 2^60, and a term times a square below 2^62.
*/
struct stripeawn_bounds plain_sinh(uint32_t x);
int plain_end(int upper, uint32_t x, struct flyby f);
struct stripeawn_enclosure plain_enclosure(struct flyby f);
uint32_t plain_verdict(struct flyby f, double estimate, uint32_t n);

/* The greatest M up to its limit for which x is an upper end. */
uint32_t last_m_above(uint32_t x, uint32_t b);

/*
** A pseudo-random flyby within the limits. A quarter is close to the
** parabolic limit and to M = 0, a quarter close to where the root leaves the
** 2 radians, and a quarter has its root somewhere below them.
*/
struct flyby random_flyby(uint64_t *state);

/* One call each, with every number that it must return. */
void sinh_is(struct place at, uint32_t x, uint32_t code, int64_t lo,
             int64_t hi);
void flyby_end_is(struct place at, int upper, uint32_t x, struct flyby f,
                  uint32_t code, uint32_t accepted);
void flyby_enclosure_is(struct place at, struct flyby f, uint32_t code,
                        int32_t lower, int32_t upper);
void flyby_verdict_is(struct place at, struct flyby f, double estimate,
                      uint32_t n, uint32_t code, uint32_t verdict);

/* The same, with numbers by the rules; the answer, for what else it shows. */
struct stripeawn_bounds sinh_by_rule(struct place at, uint32_t x);
void ends_by_rule(struct place at, uint32_t x, struct flyby f);
struct stripeawn_enclosure enclosure_by_rule(struct place at, struct flyby f);
uint32_t verdict_by_rule(struct place at, struct flyby f, double estimate,
                         uint32_t n);

#endif
