/*
** answers.h: answers of both sides, held against each other and counted.
*/
#ifndef ANSWERS_H
#define ANSWERS_H

#include "stripeawn.h"

/* 1 where all numbers of both answers are equal. */
int same_ends(struct stripeawn_end s, struct stripeawn_end p);

int same_enclosures(struct stripeawn_enclosure s,
                    struct stripeawn_enclosure p);

int same_proposals(struct stripeawn_proposal s, struct stripeawn_proposal p);

int same_verdicts(struct stripeawn_verdict s, struct stripeawn_verdict p);

int same_settled(struct stripeawn_settled s, struct stripeawn_settled p);

int same_off(struct stripeawn_off s, struct stripeawn_off p);

/* Of doubles every bit is, so that plus zero is not minus zero. */
int same_steps(struct stripeawn_stepped s, struct stripeawn_stepped p);

int same_judged_steps(struct stripeawn_judged_step s,
                      struct stripeawn_judged_step p);

/* What settle has to answer, by the judge's answers at depths 1 to 5. */
struct stripeawn_settled in_turn(
    const struct stripeawn_verdict judged[STRIPEAWN_DEPTH_MAX]);

/* Counts a comparison; 1 where it is one of the first that differ. */
int to_be_shown(int same);

/* Prints the counts; 1 if nothing differs. */
int none_differ(void);

#endif
