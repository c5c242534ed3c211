/*
** off.c: a distance by the ends of an enclosure, and beside a verdict.
*/
#include <math.h>

#include "off.h"

static int64_t greater(int64_t a, int64_t b)
{
    return a > b ? a : b;
}

/* The product with 2^28 is exact, of a subnormal estimate too. */
struct stripeawn_off off_by_ends(struct stripeawn_enclosure e,
                                 double estimate)
{
    int64_t f = (int64_t)floor(estimate * 268435456.0);
    int64_t c = (int64_t)ceil(estimate * 268435456.0);
    int64_t least = greater(greater(e.lower - c, f - e.upper), 0);
    int64_t most = greater(c - e.lower, e.upper - f);
    struct stripeawn_off o = { 0, (uint32_t)least, (uint32_t)most };

    return o;
}

int contradicts(struct stripeawn_off o, uint32_t verdict, uint32_t n)
{
    return (verdict == 16 && o.least > n) || (verdict == 17 && o.most <= n);
}
