/*
** flattered.c: a solver that trusts its residual, and what it is worth.
**
** A textbook Newton loop in doubles stops as soon as E - e sin E - M is
** below 2^-28, one unit. On ordinary orbits that is a good rule. Near the
** parabolic limit it says little about E: no answer is Confirmed to within
** 1000 units, and at M = 0, where the root is 0, thousands are certainly
** wrong by more.
**
** The judge says Undecided of these too: it tests the two ends of the claim
** alone, and a residual below one unit is less than what the bounds of sine
** leave open. The distance looks at the whole enclosure: it takes no
** tolerance, and says by how much an answer is off, at least and at most.
*/
#include <math.h>
#include <stdio.h>

#include "stripeawn.h"

enum { ORBITS = 100000, TOLERANCE = 1000, ROWS = 4 };

/* One orbit, an answer to it, and what the library says of that. */
struct row {
    int32_t m;
    uint32_t a;
    double estimate, residual; /* radians */
    uint32_t verdict;
    struct stripeawn_off off;
};

/* What became of many orbits. */
struct tally {
    unsigned long solved, verdicts[3], near, far_off;
    uint32_t most; /* the greatest of them all */
    struct row worst;
};

/* A fixed sequence of numbers below the limit (Marsaglia's xorshift). */
static uint32_t draw(uint32_t limit)
{
    static uint64_t state = UINT64_C(88172645463325252);

    state ^= state << 13;
    state ^= state >> 7;
    state ^= state << 17;
    return (uint32_t)((state >> 32) % limit);
}

/* Sets the residual, E - e sin E - M, of the row's estimate. */
static void find_residual(struct row *row)
{
    double e = (double)row->a / STRIPEAWN_A_MAX, angle = row->estimate;

    row->residual = angle - e * sin(angle) - row->m * STRIPEAWN_UNIT;
}

/* Newton from pi, the usual start for a large e; 1 where it converged. */
static int newton(struct row *row)
{
    double e = (double)row->a / STRIPEAWN_A_MAX;
    int step;

    row->estimate = 3.141592653589793;
    for (step = 0; step < 200; step++) {
        find_residual(row);
        if (fabs(row->residual) < STRIPEAWN_UNIT)
            return 1;
        row->estimate -= row->residual / (1 - e * cos(row->estimate));
    }
    return 0;
}

/* Asks the library about the row's estimate; 0 where it refuses. */
static int ask(struct row *row)
{
    struct stripeawn_verdict v =
        stripeawn_judge(row->m, row->a, row->estimate, TOLERANCE, 5);

    row->verdict = v.verdict;
    row->off = stripeawn_distance(row->m, row->a, row->estimate);
    return v.code == STRIPEAWN_DONE && row->off.code == STRIPEAWN_DONE;
}

static void print_row(const struct row *row)
{
    struct stripeawn_enclosure root = stripeawn_enclose(row->m, row->a, 5);

    printf("%2ld  %9lu  %9.1f  %8.3f  %7ld to %-7ld  %-12s  %6lu to %lu\n",
           (long)row->m, (unsigned long)row->a,
           row->estimate * STRIPEAWN_RADIAN, row->residual * STRIPEAWN_RADIAN,
           (long)root.lower, (long)root.upper, stripeawn_name(row->verdict),
           (unsigned long)row->off.least, (unsigned long)row->off.most);
}

static void count(struct tally *tally, const struct row *row)
{
    tally->solved++;
    tally->verdicts[row->verdict - STRIPEAWN_CONFIRMED]++;
    tally->near += row->off.most <= TOLERANCE;
    tally->far_off += row->off.least > TOLERANCE;
    if (row->off.most > tally->most)
        tally->most = row->off.most;
    if (row->off.least > tally->worst.off.least)
        tally->worst = *row;
}

/*
** Draws and solves orbits with M below its limit and A below its greatest by
** less than its limit. Prints the first rows of either kind, certainly wrong
** or not.
*/
static struct tally run(uint32_t m_limit, uint32_t a_greatest,
                        uint32_t a_limit, int rows)
{
    struct tally tally = { .solved = 0 };
    int shown[2] = { 0, 0 }, i;

    for (i = 0; i < ORBITS; i++) {
        struct row row;

        row.m = (int32_t)draw(m_limit);
        row.a = a_greatest - draw(a_limit);
        if (!newton(&row) || !ask(&row))
            continue;
        count(&tally, &row);
        if (shown[row.off.least > TOLERANCE]++ < rows)
            print_row(&row);
    }
    return tally;
}

/* The guess 2^-9 at M = 0, e = 1, where the root is 0. */
static int print_guess(void)
{
    struct row row = { .a = STRIPEAWN_A_MAX, .estimate = 1.0 / 512 };

    find_residual(&row);
    if (!ask(&row))
        return 0;
    print_row(&row);
    return 1;
}

static void print_tally(const char *orbits, struct tally tally)
{
    printf("\n%s:\n"
           "  %lu solved, each to a residual below one unit.\n"
           "  Within %d units of the root? %lu Confirmed, %lu Refuted, "
           "%lu Undecided.\n"
           "  By their distances %lu certainly are, and %lu certainly are "
           "not.\n"
           "  The worst is off by at least %lu, and none by more than %lu.\n",
           orbits, tally.solved, TOLERANCE, tally.verdicts[0],
           tally.verdicts[1], tally.verdicts[2], tally.near, tally.far_off,
           (unsigned long)tally.worst.off.least, (unsigned long)tally.most);
}

int main(void)
{
    struct tally near_parabolic, ordinary;
    int guessed;

    printf("In units of 2^-28 radian:\n"
           " M          A          E  residual  the root is in      "
           "within %d?  so E is off by\n"
           "a guess, 2^-9 radian:\n", TOLERANCE);
    guessed = print_guess();
    printf("found by Newton's method:\n");
    near_parabolic = run(16, STRIPEAWN_A_MAX, 4096, ROWS);
    printf("the worst of these:\n");
    print_row(&near_parabolic.worst);
    print_tally("Near-parabolic orbits, M below 16 units, A within 4096 of "
                "2^28", near_parabolic);
    ordinary = run(STRIPEAWN_M_MAX, STRIPEAWN_A_MAX / 10 * 9,
                   STRIPEAWN_A_MAX / 10 * 9, 0);
    print_tally("Ordinary orbits, any M, e below 0.9", ordinary);
    if (!guessed || near_parabolic.solved < ORBITS ||
        ordinary.solved < ORBITS)
        return 1;
    return 0;
}
