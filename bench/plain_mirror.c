/*
** plain_mirror.c: the entries of plain.h for M of either sign.
**
** Where M is below 0, what is given is mirrored before the call and what is
** answered after it. An X that opposes M is then below 0, which reads as a
** number far above T.
*/
#include "unmirrored.h"

/* M or a number beside it, turned round where M is below 0. */
static uint32_t unmirrored(int32_t number, int mirrored)
{
    return mirrored ? 0 - (uint32_t)number : (uint32_t)number;
}

/* The same of a double: no NaN is below 0, and either zero stays one. */
static double unmirrored_double(double number, int mirrored)
{
    return mirrored ? -number : number;
}

static struct stripeawn_enclosure mirror_ends(struct stripeawn_enclosure r,
                                              int mirrored)
{
    int32_t lower = r.lower;

    if (mirrored) {
        r.lower = -r.upper;
        r.upper = -lower;
    }
    return r;
}

static struct stripeawn_proposal mirror_proposal(struct stripeawn_proposal r,
                                                 int mirrored)
{
    if (mirrored) {
        r.angle = -r.angle;
        r.e_sin = -r.e_sin;
    }
    return r;
}

struct stripeawn_end plain_lower_end(int32_t x, int32_t m, uint32_t a,
                                     uint32_t depth)
{
    uint32_t angle = unmirrored(x, m < 0), size = unmirrored(m, m < 0);

    return m < 0 ? unmirrored_upper_end(angle, size, a, depth)
                 : unmirrored_lower_end(angle, size, a, depth);
}

struct stripeawn_end plain_upper_end(int32_t x, int32_t m, uint32_t a,
                                     uint32_t depth)
{
    uint32_t angle = unmirrored(x, m < 0), size = unmirrored(m, m < 0);

    return m < 0 ? unmirrored_lower_end(angle, size, a, depth)
                 : unmirrored_upper_end(angle, size, a, depth);
}

struct stripeawn_end plain_lower_end_double(int32_t x, double m, double e,
                                            uint32_t depth)
{
    uint32_t angle = unmirrored(x, m < 0);

    return m < 0 ? unmirrored_upper_end_double(angle, -m, e, depth)
                 : unmirrored_lower_end_double(angle, m, e, depth);
}

struct stripeawn_end plain_upper_end_double(int32_t x, double m, double e,
                                            uint32_t depth)
{
    uint32_t angle = unmirrored(x, m < 0);

    return m < 0 ? unmirrored_lower_end_double(angle, -m, e, depth)
                 : unmirrored_upper_end_double(angle, m, e, depth);
}

struct stripeawn_enclosure plain_enclose(int32_t m, uint32_t a,
                                         uint32_t depth)
{
    return mirror_ends(unmirrored_enclose(unmirrored(m, m < 0), a, depth),
                       m < 0);
}

struct stripeawn_enclosure plain_enclose_double(double m, double e,
                                                uint32_t depth)
{
    return mirror_ends(
        unmirrored_enclose_double(unmirrored_double(m, m < 0), e, depth),
        m < 0);
}

struct stripeawn_proposal plain_propose(int32_t m, uint32_t a)
{
    return mirror_proposal(unmirrored_propose(unmirrored(m, m < 0), a),
                           m < 0);
}

struct stripeawn_proposal plain_propose_double(double m, double e)
{
    return mirror_proposal(
        unmirrored_propose_double(unmirrored_double(m, m < 0), e), m < 0);
}

struct stripeawn_verdict plain_judge(int32_t m, uint32_t a, double estimate,
                                     uint32_t n, uint32_t depth)
{
    return unmirrored_judge(unmirrored(m, m < 0), a,
                            unmirrored_double(estimate, m < 0), n, depth);
}

struct stripeawn_verdict plain_judge_double(double m, double e,
                                            double estimate, uint32_t n,
                                            uint32_t depth)
{
    return unmirrored_judge_double(unmirrored_double(m, m < 0), e,
                                   unmirrored_double(estimate, m < 0), n,
                                   depth);
}

struct stripeawn_settled plain_settle(int32_t m, uint32_t a, double estimate,
                                      uint32_t n)
{
    return unmirrored_settle(unmirrored(m, m < 0), a,
                             unmirrored_double(estimate, m < 0), n);
}

struct stripeawn_settled plain_settle_double(double m, double e,
                                             double estimate, uint32_t n)
{
    return unmirrored_settle_double(unmirrored_double(m, m < 0), e,
                                    unmirrored_double(estimate, m < 0), n);
}

struct stripeawn_off plain_distance(int32_t m, uint32_t a, double estimate)
{
    return unmirrored_distance(unmirrored(m, m < 0), a,
                               unmirrored_double(estimate, m < 0));
}

struct stripeawn_off plain_distance_double(double m, double e,
                                           double estimate)
{
    return unmirrored_distance_double(unmirrored_double(m, m < 0), e,
                                      unmirrored_double(estimate, m < 0));
}

/* 0.0 less it, and not its negative: zero stays plus zero. */
static double mirror_estimate(double estimate, int mirrored)
{
    return mirrored ? 0.0 - estimate : estimate;
}

struct stripeawn_stepped plain_step(int32_t m, uint32_t a, double estimate,
                                    uint32_t method)
{
    struct stripeawn_stepped r =
        unmirrored_step(unmirrored(m, m < 0), a,
                        unmirrored_double(estimate, m < 0), method);

    r.estimate = mirror_estimate(r.estimate, m < 0);
    return r;
}

struct stripeawn_judged_step plain_step_judged(int32_t m, uint32_t a,
                                               double estimate,
                                               uint32_t method, uint32_t n,
                                               uint32_t depth)
{
    struct stripeawn_judged_step r =
        unmirrored_step_judged(unmirrored(m, m < 0), a,
                               unmirrored_double(estimate, m < 0), method, n,
                               depth);

    r.estimate = mirror_estimate(r.estimate, m < 0);
    return r;
}
