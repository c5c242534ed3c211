/*
** off.h: what the tests of distances share.
*/
#ifndef OFF_H
#define OFF_H

#include "stripeawn.h"

/*
** How far off an estimate within its limits is, by the two ends: the rule, in
** whole numbers of 64 bits, with code 0.
*/
struct stripeawn_off off_by_ends(struct stripeawn_enclosure e,
                                 double estimate);

/* Whether a distance says otherwise than a verdict with tolerance n. */
int contradicts(struct stripeawn_off o, uint32_t verdict, uint32_t n);

#endif
