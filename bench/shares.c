/*
** shares.c: at which depths claims are settled, in per cent of those drawn.
**
** A claim is an orbit, a tolerance N and an estimate at most 2N units off the
** middle of the root's enclosure, so that about as many claims are true as
** are false; or an estimate anywhere, which is most often far off. Orbits on
** the grid are given as doubles too, which get the answers of the grid. Of M
** below 0 the shares are those of the mirror.
*/
#include <stdio.h>

#include "inputs.h"
#include "shares.h"

struct kind {
    const char *name;
    enum orbits orbits;
    int anywhere; /* whether the estimate is */
};

static const struct kind kinds[] = {
    { "any M and e, grid", ANY_ON_GRID, 0 },
    { "any M and e, doubles", ANY_OFF_GRID, 0 },
    { "M near 0, e near 1", NEAR_PARABOLIC, 0 },
    { "an estimate anywhere", ANY_ON_GRID, 1 },
};

static const uint32_t tolerances[] = { 10, 1000, STRIPEAWN_N_MAX };

/* Claims settled at depth 1 and on, and after them those that none settles. */
enum { UNDECIDED = STRIPEAWN_DEPTH_MAX + 1, PLACES };

struct tally {
    unsigned long claims[PLACES];
};

static void count(struct tally *tally, struct stripeawn_settled s)
{
    tally->claims[s.verdict == STRIPEAWN_UNDECIDED ? UNDECIDED : s.depth]++;
}

/* One claim more of every tolerance. */
static void count_orbit(struct tally *tallies, const struct kind *kind)
{
    struct doubles orbit = draw_orbit(kind->orbits);
    size_t i;

    for (i = 0; i < COUNT(tolerances); i++) {
        double estimate = kind->anywhere
                              ? draw_any_estimate()
                              : draw_estimate(&orbit, tolerances[i]);

        count(&tallies[i], stripeawn_settle_double(orbit.m, orbit.e, estimate,
                                                   tolerances[i]));
    }
}

static void print_tally(const char *name, uint32_t n,
                        const struct tally *tally, long claims)
{
    int place;

    printf("%-20s %6lu", name, (unsigned long)n);
    for (place = 1; place < PLACES; place++)
        printf(" %*.2f", place == UNDECIDED ? 10 : 7,
               100.0 * tally->claims[place] / claims);
    printf("\n");
}

static void print_kind(const struct kind *kind, long claims)
{
    struct tally tallies[COUNT(tolerances)] = { { { 0 } } };
    size_t i;
    long k;

    for (k = 0; k < claims; k++)
        count_orbit(tallies, kind);
    for (i = 0; i < COUNT(tolerances); i++)
        print_tally(kind->name, tolerances[i], &tallies[i], claims);
}

void print_shares(long claims)
{
    size_t i;

    printf("the depth at which settle decides, per cent of %ld claims a "
           "line\n", claims);
    printf("(estimates up to 2N units off the middle of the root's enclosure, "
           "either side,\n but for the last lines)\n");
    printf("%-20s %6s %7d %7d %7d %7d %7d %10s\n", "orbits", "N", 1, 2, 3, 4,
           5, "undecided");
    for (i = 0; i < COUNT(kinds); i++)
        print_kind(&kinds[i], claims);
}
