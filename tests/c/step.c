/*
** step.c: steps of Newton and Halley with the new estimates written out.
**
** Each step with M above 0 goes on to its mirror. The limits are in
** step_limits.c, steps with a verdict in step_judged.c, the order of codes in
** step_order.c, and the rule over many starts in step_laws.c.
*/
#include "steps.h"

/* One unit, in radians. */
#define U 0x1p-28

/* In a wanted estimate's place no step, as none leads so far. */
#define NONE 9.0

/* Where the two methods lead from one start. */
struct row {
    int32_t m;
    uint32_t a;
    double estimate, newton, halley;
};

static void leads_to(struct place at, struct start from, double next)
{
    step_is(at, from, next == NONE ? no_step() : step_to(from, next));
}

static void rows_are(struct place at, const struct row *rows, size_t count)
{
    size_t i;

    for (i = 0; i < count; i++) {
        struct row r = rows[i];
        struct start newton = { r.m, r.a, r.estimate, 1 };
        struct start halley = { r.m, r.a, r.estimate, 2 };

        leads_to(at, newton, r.newton);
        leads_to(at, halley, r.halley);
    }
}

/* e = 1, estimate 0: the divisor is 0, and at M = 0 so is the residual. */
static void test_flat_at_0(void)
{
    static const struct row rows[] = {
        { 0, ONE, 0.0, NONE, NONE },
        { 0, ONE, -0.0, NONE, NONE },
        { 1, ONE, 0.0, NONE, NONE },
        { H, ONE, 0.0, NONE, NONE },
    };

    rows_are(HERE, rows, COUNT(rows));
}

/*
** e = 1 and a few units. Below 1 unit s is 0 and k is 1; from there up to
** 23170 units s is one unit less than f and k one unit less than 1, so that D
** is one unit. Every operation is exact.
*/
static void test_few_units(void)
{
    static const struct row rows[] = {
        /* D is 0: to minus infinity, to infinity, and no number */
        { 0, ONE, 0.5 * U, NONE, NONE },
        { 1, ONE, 0.5 * U, NONE, NONE },
        { 1, ONE, 0x0.fffffffffffff8p-28, NONE, NONE },
        /* the residual is 0, and the step stands still */
        { 1, ONE, U, U, U },
        { 1, ONE, 4 * U, 4 * U, 4 * U },
        { 0, ONE, 1.5 * U, NONE, NONE },
        { 2, ONE, U, 1 + U, 1 + U },
        { 3, ONE, U, 2 + U, 2 + U },
        { 4, ONE, U, 3 + U, 3 + U },
        { 5, ONE, U, NONE, NONE },
        { 4, ONE, 1.5 * U, 2.5 + 1.5 * U, 2.5 + 1.5 * U },
        { 3, ONE, 2 * U, 2 + 2 * U, 1 + 2 * U },
        /* Halley's divisor is 0 where the residual is not */
        { 0, ONE, 3 * U, NONE, NONE },
        { 1, ONE, 5.5 * U, NONE, NONE },
        /* and below 0, which is no reason to be flat */
        { 0, ONE, 3.5 * U, NONE, 3 + 3.5 * U },
        { 0, ONE, 4 * U, NONE, 2 + 4 * U },
        { 1, ONE, 5.75 * U, NONE, 1.5 + 5.75 * U },
    };

    rows_are(HERE, rows, COUNT(rows));
}

/* From 0 the step goes to M / (1 - e), and to T units at the farthest. */
static void test_from_0(void)
{
    static const struct row rows[] = {
        { 0, 0, 0.0, 0.0, 0.0 },
        { 0, ONE - 1, -0.0, 0.0, 0.0 },
        { 1, ONE - 1, 0.0, 1.0, 1.0 },
        { 1, ONE - 1, -0.0, 1.0, 1.0 },
        { 2, ONE - 1, 0.0, 2.0, 2.0 },
        { 3, ONE - 1, 0.0, 3.0, 3.0 },
        { 4, ONE - 1, 0.0, NONE, NONE },
        { 1, ONE - 2, 0.0, 0.5, 0.5 },
        { 105414364, 234881024, 0.0, (T - 8) * U, (T - 8) * U },
        { 105414365, 234881024, 0.0, T * U, T * U },
        { 105414366, 234881024, 0.0, NONE, NONE },
        /* rounded to T units, or to the double above or below it */
        { 532571708, 98912629, 0.0, T * U, T * U },
        { 216328613, 199575925, 0.0, NONE, NONE },
        { 427157343, 132467061, 0.0, T * U, NONE },
        { 754400204, 28302431, 0.0, NONE, T * U },
        { 205328847, 203077259, 0.0, 0x1.921fb73ffffffp+1, T * U },
    };

    rows_are(HERE, rows, COUNT(rows));
}

/* To 0 and to the doubles beside it: a step to what is below 0 is flat. */
static void test_to_0(void)
{
    static const struct row rows[] = {
        { 1, 150000001, 0x1.ca213d6d7014p-28, 0x1p-80, 0x1p-80 },
        { 1, 150000001, 0x1.ca213d6d70141p-28, 0.0, 0.0 },
        { 1, 150000001, 0x1.ca213d6d70142p-28, NONE, NONE },
        { 1, 134217729, 0x1.ffffffdffffffp-28, 0x1p-80, 0x1p-80 },
        { 1, 134217729, 0x1.ffffffep-28, 0.0, 0.0 },
        { 1, 134217729, 0x1.ffffffe000001p-28, NONE, NONE },
    };
    struct start newton = { -1, 150000001,
                            from_bits(UINT64_C(0xBE3CA213D6D70141)), 1 };
    struct start halley = newton;

    rows_are(HERE, rows, COUNT(rows));
    halley.method = 2;
    step_is(HERE, newton, step_to(newton, from_bits(0)));
    step_is(HERE, halley, step_to(halley, from_bits(0)));
}

/* With A = 0 the step goes to M, from the least and the greatest estimate. */
static void test_circle(void)
{
    static const struct row rows[] = {
        { 0, 0, ABOVE_0, 0.0, 0.0 },  { 0, 0, T * U, 0.0, 0.0 },
        { 1, 0, ABOVE_0, U, U },      { 7, 0, 1.0, 7 * U, 7 * U },
        { H, 0, 0.0, H * U, H * U },  { H, 0, T * U, H * U, H * U },
    };

    rows_are(HERE, rows, COUNT(rows));
}

/*
** The least double above 0 as residual: (2F) D is 0.8 and 0.4 of it, which is
** rounded to it and to 0. Were F D doubled instead, the first would be 0 too.
*/
static void test_least_double(void)
{
    static const struct row rows[] = {
        { 0, 161061274, ABOVE_0, NONE, NONE },
        { 0, 214748365, ABOVE_0, NONE, ABOVE_0 },
        { 0, ONE - 1, ABOVE_0, NONE, ABOVE_0 },
        { 0, 1, ABOVE_0, 0.0, 0.0 },
        { 0, ONE, ABOVE_0, NONE, NONE },
    };

    rows_are(HERE, rows, COUNT(rows));
}

/* From near and far, with every number rounded. */
static void test_ordinary(void)
{
    static const struct row rows[] = {
        { H, ONE, T * U, 0x1.921fb52c00007p+1, 0x1.921fb52c00007p+1 },
        { H, ONE, H * U, 0x1.921fb52cp+1, 0x1.921fb52cp+1 },
        { H, ONE, 3.0, NONE, 0x1.9217ecd1ff56cp+1 },
        { 0, ONE, T * U, 0x1.921fb56ff6f08p+0, 0x1.921fb818f7a97p+0 },
        { 1, ONE - 1, T * U, 0x1.921fb56b65f2dp+0, 0x1.921fb81466abdp+0 },
        { 100000000, 241591910, 1.25, 0x1.37a4326e083f8p+0,
          0x1.3779b63a1d1c4p+0 },
        { 700000000, 200000000, 2.75, 0x1.6ac4b14f6b7d6p+1,
          0x1.6ab14db464e76p+1 },
        { 1, ONE, 0.01, 0x1.b5c91a54e59dep-8, 0x1.49a8b5b961d4cp-8 },
        { 1000, ONE - 1, 1000 * U, NONE, 0x1.06a600769c3cp-8 },
    };

    rows_are(HERE, rows, COUNT(rows));
}

/*
** Were an operation fused with another, made in another order, or a division
** by way of a reciprocal, one of these would be another double.
*/
static void test_rounded_once(void)
{
    static const struct row rows[] = {
        { 177410, 267666853, 0x1.ab7d132dc7af4p-3, 0x1.32bdfc99d299cp-3,
          0x1.0acde56ab8f99p-3 },
        { 504174, 268422455, 0x1.86844a788381p-3, 0x1.d7297d3e65756p-3,
          0x1.c96c7ba59fcedp-3 },
        { 349441818, 164943273, 0x1.bcfa401afc70cp+0, 0x1.e4540d910869p+0,
          0x1.e2bbc5af73dd3p+0 },
    };

    rows_are(HERE, rows, COUNT(rows));
}

/* Every step of a loop from its start; the last is NONE where it is flat. */
static void loop_is(struct place at, struct start from, const double *steps,
                    size_t count)
{
    size_t i;

    for (i = 0; i < count; i++) {
        leads_to(at, from, steps[i]);
        from.estimate = steps[i];
    }
}

/* An orbit by both methods, one that goes astray, and one below 0. */
static void test_loops(void)
{
    static const double newton[] = {
        0x1.06520f3a2fe06p+1, 0x1.c2ae97a97df96p+0, 0x1.bc38b43b0055fp+0,
        0x1.bc2b12b667b74p+0, 0x1.bc2b12771c5d9p+0,
    };
    static const double halley[] = {
        0x1.ad3ffc66207e2p+0, 0x1.bc2966aefc404p+0, 0x1.bc2b127b107cp+0,
        0x1.bc2b1270aac7p+0, 0x1.bc2b126f89bf6p+0,
    };
    static const double astray[] = {
        0x1.b5c91a54e59dep-8, 0x1.207d2f7327c66p-8, 0x1.79239ced334d6p-9,
        0x1.31701c0027fc6p-10, NONE,
    };
    static const double mirrored[] = {
        -0x1.32f046d5279fep+1, -0x1.8bcc6e3fa52ecp+0, -0x1.441a5a6912b6cp+0,
        -0x1.37d6502f33121p+0, -0x1.377915f78a8b3p+0,
    };
    struct start orbit = { 268435456, 200000000, 1.0, 1 };
    struct start parabola = { 1, ONE, 0.01, 1 };
    struct start below_0 = { -100000000, 241591910, -100000000 * U, 1 };

    loop_is(HERE, orbit, newton, COUNT(newton));
    orbit.method = 2;
    loop_is(HERE, orbit, halley, COUNT(halley));
    loop_is(HERE, parabola, astray, COUNT(astray));
    loop_is(HERE, below_0, mirrored, COUNT(mirrored));
}

void test_step(void)
{
    test_flat_at_0();
    test_few_units();
    test_from_0();
    test_to_0();
    test_circle();
    test_least_double();
    test_ordinary();
    test_rounded_once();
    test_loops();
}
