/*
** flyby.c: a textbook solver of flybys, and what the judge says of it.
**
** A flyby is a hyperbolic orbit: e is 1 or above, and the equation is
** e sinh X - X = M. The solver is Newton's method in doubles, from M + e on,
** and stops as soon as the residual, e sinh X - X - M, is below 2^-28, one
** unit. Of an ordinary flyby the answer is then right. Near the parabolic
** limit the left side is flat at X = 0, and a residual is small far from the
** root too: the judge refutes such an answer.
**
** Where it does not confirm one, the loop goes on until it does, or gives up
** after sixty steps. The enclosure beside it says what can be known.
*/
#include <math.h>
#include <stdio.h>

#include "stripeawn.h"

enum { STEPS = 60, E_1 = STRIPEAWN_FLYBY_B_MIN };

/* M and B in units, and how many units X may be off. */
static const struct flyby { uint32_t m, b, n; } flybys[] = {
    { STRIPEAWN_RADIAN, E_1 / 2 * 3, 10 },
    { 0, E_1 + 256, 1000 }, /* e = 1 + 2^-20 */
    { 0, E_1, 1000 }, { 16, E_1, 1000 },
};

enum { FLYBYS = sizeof flybys / sizeof flybys[0] };

/* Where the solver is. */
struct solver {
    double m, e, x, residual; /* radians, but for e */
    int steps;
};

static void find_residual(struct solver *s)
{
    s->residual = s->e * sinh(s->x) - s->x - s->m;
}

static void make_step(struct solver *s)
{
    s->x -= s->residual / (s->e * cosh(s->x) - 1);
    s->steps++;
    find_residual(s);
}

/* Newton from M + e, a usual start; 1 where the residual gets small. */
static int solve(struct solver *s)
{
    s->x = s->m + s->e;
    find_residual(s);
    while (fabs(s->residual) >= STRIPEAWN_UNIT && s->steps < STEPS)
        make_step(s);
    return fabs(s->residual) < STRIPEAWN_UNIT;
}

/* The verdict on where the solver is, or 0 where the judge refuses. */
static uint32_t judge(const struct flyby *f, const struct solver *s)
{
    struct stripeawn_verdict v = stripeawn_flyby_judge(f->m, f->b, s->x, f->n);

    if (v.code != STRIPEAWN_DONE)
        fprintf(stderr, "judge: %s\n", stripeawn_name(v.code));
    return v.verdict;
}

/* One line of the table; 0 where there is no enclosure. */
static int print_line(const struct flyby *f, const struct solver *s,
                      const char *end, uint32_t verdict)
{
    struct stripeawn_enclosure root = stripeawn_flyby_enclose(f->m, f->b);

    if (root.code != STRIPEAWN_DONE) {
        fprintf(stderr, "enclose: %s\n", stripeawn_name(root.code));
        return 0;
    }
    printf("%.8f  %9lu  %4lu  %-11s  %5d  %9.0f  %8.3f  %-9s  %ld to %ld\n",
           s->e, (unsigned long)f->m, (unsigned long)f->n, end, s->steps,
           s->x * STRIPEAWN_RADIAN, fabs(s->residual) * STRIPEAWN_RADIAN,
           stripeawn_name(verdict), (long)root.lower, (long)root.upper);
    return 1;
}

/* Solves a flyby by its residual, then by verdicts; 0 where one is refused. */
static int run(const struct flyby *f)
{
    struct solver s = { .m = f->m * STRIPEAWN_UNIT,
                        .e = f->b * STRIPEAWN_UNIT };
    uint32_t verdict = solve(&s) ? judge(f, &s) : 0;
    const char *end = "residual";

    if (verdict == 0 || !print_line(f, &s, end, verdict))
        return 0;
    if (verdict == STRIPEAWN_CONFIRMED)
        return 1;
    while (verdict != STRIPEAWN_CONFIRMED && s.steps < STEPS) {
        make_step(&s);
        verdict = judge(f, &s);
        if (verdict == 0)
            return 0;
    }
    end = verdict == STRIPEAWN_CONFIRMED ? "verdict" : "sixty steps";
    return print_line(f, &s, end, verdict);
}

int main(void)
{
    int i;

    printf("In units of 2^-28 radian:\n"
           "         e          M     n  stopped by   steps          X  "
           "residual  verdict    the root is in\n");
    for (i = 0; i < FLYBYS; i++)
        if (!run(&flybys[i]))
            return 1;
    return 0;
}
