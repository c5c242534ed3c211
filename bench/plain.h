/*
** plain.h: the rules of the library once more, in plain C.
**
** bench.c measures the library against these functions, so they give the
** same answer to every input and use the library's own result types.
*/
#ifndef PLAIN_H
#define PLAIN_H

#include "stripeawn.h"

struct stripeawn_bounds plain_sine(uint32_t x, uint32_t depth);

struct stripeawn_bounds plain_cosine(uint32_t x, uint32_t depth);

struct stripeawn_end plain_lower_end(int32_t x, int32_t m, uint32_t a,
                                     uint32_t depth);

struct stripeawn_end plain_upper_end(int32_t x, int32_t m, uint32_t a,
                                     uint32_t depth);

struct stripeawn_enclosure plain_enclose(int32_t m, uint32_t a,
                                         uint32_t depth);

struct stripeawn_proposal plain_propose(int32_t m, uint32_t a);

struct stripeawn_verdict plain_judge(int32_t m, uint32_t a, double estimate,
                                     uint32_t n, uint32_t depth);

struct stripeawn_settled plain_settle(int32_t m, uint32_t a, double estimate,
                                      uint32_t n);

struct stripeawn_off plain_distance(int32_t m, uint32_t a, double estimate);

struct stripeawn_stepped plain_step(int32_t m, uint32_t a, double estimate,
                                    uint32_t method);

struct stripeawn_judged_step plain_step_judged(int32_t m, uint32_t a,
                                               double estimate,
                                               uint32_t method, uint32_t n,
                                               uint32_t depth);

struct stripeawn_end plain_lower_end_double(int32_t x, double m, double e,
                                            uint32_t depth);

struct stripeawn_end plain_upper_end_double(int32_t x, double m, double e,
                                            uint32_t depth);

struct stripeawn_enclosure plain_enclose_double(double m, double e,
                                                uint32_t depth);

struct stripeawn_proposal plain_propose_double(double m, double e);

struct stripeawn_verdict plain_judge_double(double m, double e,
                                            double estimate, uint32_t n,
                                            uint32_t depth);

struct stripeawn_settled plain_settle_double(double m, double e,
                                             double estimate, uint32_t n);

struct stripeawn_off plain_distance_double(double m, double e,
                                           double estimate);

struct stripeawn_bounds plain_flyby_sinh(uint32_t x);

struct stripeawn_end plain_flyby_lower_end(uint32_t x, uint32_t m,
                                           uint32_t b);

struct stripeawn_end plain_flyby_upper_end(uint32_t x, uint32_t m,
                                           uint32_t b);

struct stripeawn_enclosure plain_flyby_enclose(uint32_t m, uint32_t b);

struct stripeawn_verdict plain_flyby_judge(uint32_t m, uint32_t b,
                                           double estimate, uint32_t n);

struct stripeawn_batch plain_judge_claims(const uint8_t *claims,
                                          size_t claims_len,
                                          uint8_t *answers,
                                          size_t answers_len);

#endif
