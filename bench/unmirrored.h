/*
** unmirrored.h: the entries of plain.h that take M, for M not below 0.
**
** M and X are read without a sign, and one that is far too great is refused
** as any other.
*/
#ifndef UNMIRRORED_H
#define UNMIRRORED_H

#include "plain.h"

struct stripeawn_end unmirrored_lower_end(uint32_t x, uint32_t m, uint32_t a,
                                          uint32_t depth);

struct stripeawn_end unmirrored_upper_end(uint32_t x, uint32_t m, uint32_t a,
                                          uint32_t depth);

struct stripeawn_enclosure unmirrored_enclose(uint32_t m, uint32_t a,
                                              uint32_t depth);

struct stripeawn_proposal unmirrored_propose(uint32_t m, uint32_t a);

struct stripeawn_verdict unmirrored_judge(uint32_t m, uint32_t a,
                                          double estimate, uint32_t n,
                                          uint32_t depth);

struct stripeawn_settled unmirrored_settle(uint32_t m, uint32_t a,
                                           double estimate, uint32_t n);

struct stripeawn_off unmirrored_distance(uint32_t m, uint32_t a,
                                         double estimate);

struct stripeawn_stepped unmirrored_step(uint32_t m, uint32_t a,
                                         double estimate, uint32_t method);

struct stripeawn_judged_step unmirrored_step_judged(uint32_t m, uint32_t a,
                                                    double estimate,
                                                    uint32_t method,
                                                    uint32_t n,
                                                    uint32_t depth);

/* The same of M in radians and e. */
struct stripeawn_end unmirrored_lower_end_double(uint32_t x, double m,
                                                 double e, uint32_t depth);

struct stripeawn_end unmirrored_upper_end_double(uint32_t x, double m,
                                                 double e, uint32_t depth);

struct stripeawn_enclosure unmirrored_enclose_double(double m, double e,
                                                     uint32_t depth);

struct stripeawn_proposal unmirrored_propose_double(double m, double e);

struct stripeawn_verdict unmirrored_judge_double(double m, double e,
                                                 double estimate, uint32_t n,
                                                 uint32_t depth);

struct stripeawn_settled unmirrored_settle_double(double m, double e,
                                                  double estimate,
                                                  uint32_t n);

struct stripeawn_off unmirrored_distance_double(double m, double e,
                                                double estimate);

#endif
