/*
** given.c: one call for both ways to give M and the eccentricity.
*/
#include <math.h>

#include "check.h"

struct given grid(int32_t m, uint32_t a)
{
    struct given g = { 0, m, a };

    return g;
}

struct given doubles(double m, double e)
{
    struct given g = { 1, m, e };

    return g;
}

struct given as_doubles(struct given g)
{
    return g.is_double ? g : doubles(g.m / ONE, g.e / ONE);
}

struct given mirror_of(struct given g)
{
    g.m = -g.m;
    return g;
}

struct given brought_to_grid(struct given g)
{
    return grid((int32_t)floor(g.m * ONE + 0.5),
                (uint32_t)(g.e * (ONE + 1)));
}

struct stripeawn_end end_of(int upper, int32_t x, struct given g,
                            uint32_t depth)
{
    if (g.is_double)
        return upper ? stripeawn_upper_end_double(x, g.m, g.e, depth)
                     : stripeawn_lower_end_double(x, g.m, g.e, depth);
    return upper ? stripeawn_upper_end(x, (int32_t)g.m, (uint32_t)g.e, depth)
                 : stripeawn_lower_end(x, (int32_t)g.m, (uint32_t)g.e, depth);
}

struct stripeawn_enclosure enclosure_of(struct given g, uint32_t depth)
{
    return g.is_double
               ? stripeawn_enclose_double(g.m, g.e, depth)
               : stripeawn_enclose((int32_t)g.m, (uint32_t)g.e, depth);
}

struct stripeawn_proposal proposal_of(struct given g)
{
    return g.is_double ? stripeawn_propose_double(g.m, g.e)
                       : stripeawn_propose((int32_t)g.m, (uint32_t)g.e);
}

struct stripeawn_verdict verdict_of(struct given g, double estimate,
                                    uint32_t n, uint32_t depth)
{
    return g.is_double
               ? stripeawn_judge_double(g.m, g.e, estimate, n, depth)
               : stripeawn_judge((int32_t)g.m, (uint32_t)g.e, estimate, n,
                                 depth);
}

struct stripeawn_settled settled_of(struct given g, double estimate,
                                    uint32_t n)
{
    return g.is_double
               ? stripeawn_settle_double(g.m, g.e, estimate, n)
               : stripeawn_settle((int32_t)g.m, (uint32_t)g.e, estimate, n);
}

struct stripeawn_off distance_of(struct given g, double estimate)
{
    return g.is_double
               ? stripeawn_distance_double(g.m, g.e, estimate)
               : stripeawn_distance((int32_t)g.m, (uint32_t)g.e, estimate);
}

/* The high half of the state is the better one, and is mixed into the low. */
uint64_t random_bits(uint64_t *state)
{
    *state = *state * UINT64_C(6364136223846793005) +
             UINT64_C(1442695040888963407);
    return *state ^ *state >> 32;
}

double random_fraction(uint64_t *state)
{
    return ldexp((double)(random_bits(state) >> 11), -53);
}

struct given random_doubles(uint64_t *state)
{
    double m = units(H) * random_fraction(state), e = random_fraction(state);
    uint64_t kind = random_bits(state) % 4;
    int near = -(int)(random_bits(state) % 32);

    if (kind == 0) {
        m = ldexp(m, near);
        e = 1 - ldexp(e, near);
    } else if (kind == 1) {
        m = units(H) - ldexp(m, near);
    }
    return doubles(random_bits(state) % 2 ? -m : m, e);
}
