/* first.c: encloses the root of one orbit and judges an estimate of it. */
#include <stdio.h>

#include "stripeawn.h"

int main(void)
{
    double degrees = 20;        /* M, less 360 where it is above 180 */
    double m = degrees * (3.14159265358979323846 / 180), e = 0.9;
    double estimate = 1.181841; /* what some solver found */
    struct stripeawn_enclosure r = stripeawn_enclose_double(m, e, 5);
    struct stripeawn_verdict v =
        stripeawn_judge_double(m, e, estimate, 100, 5);

    if (r.code != STRIPEAWN_DONE || v.code != STRIPEAWN_DONE) {
        fprintf(stderr, "enclose: %s, judge: %s\n", stripeawn_name(r.code),
                stripeawn_name(v.code));
        return 1;
    }
    printf("M = %.8f rad, e = %.8f\n", m, e);
    printf("E lies between %.8f and %.8f rad: %ld to %ld units\n",
           r.lower * STRIPEAWN_UNIT, r.upper * STRIPEAWN_UNIT, (long)r.lower,
           (long)r.upper);
    printf("%.8f rad, give or take 100 units: %s\n", estimate,
           stripeawn_name(v.verdict));
    return 0;
}
