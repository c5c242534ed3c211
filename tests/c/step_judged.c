/*
** step_judged.c: a step with the judge's verdict on the new estimate: first
** verdicts that are written out, then each limit on both sides of it.
**
** Each step with M above 0 goes on to its mirror.
*/
#include <math.h>

#include "steps.h"

static void verdict_on(struct place at, struct start from, double next,
                       uint32_t n, uint32_t depth, uint32_t verdict)
{
    judged_step_is(at, from, n, depth,
                   with_verdict(step_to(from, next), verdict));
}

/* Steps of a loop, each from the new estimate of the one before. */
struct turn {
    double next;
    uint32_t verdict;
};

static void loop_is(struct place at, struct start from, uint32_t n,
                    const struct turn *turns, size_t count)
{
    size_t i;

    for (i = 0; i < count; i++) {
        verdict_on(at, from, turns[i].next, n, 5, turns[i].verdict);
        from.estimate = turns[i].next;
    }
}

/* An orbit with e = 0.745, from 1 radian to within 100 units of its root. */
static void test_orbit(void)
{
    static const struct turn newton[] = {
        { 0x1.06520f3a2fe06p+1, 17 }, { 0x1.c2ae97a97df96p+0, 17 },
        { 0x1.bc38b43b0055fp+0, 17 }, { 0x1.bc2b12b667b74p+0, 16 },
        { 0x1.bc2b12771c5d9p+0, 16 },
    };
    static const struct turn halley[] = {
        { 0x1.ad3ffc66207e2p+0, 17 }, { 0x1.bc2966aefc404p+0, 17 },
        { 0x1.bc2b127b107cp+0, 16 },  { 0x1.bc2b1270aac7p+0, 16 },
        { 0x1.bc2b126f89bf6p+0, 16 },
    };
    struct start from = { 268435456, 200000000, 1.0, 1 };

    loop_is(HERE, from, 100, newton, COUNT(newton));
    from.method = 2;
    loop_is(HERE, from, 100, halley, COUNT(halley));
}

/* M = -100000000 units, e = 0.9: the mirror by itself. */
static void test_below_0(void)
{
    static const struct turn newton[] = {
        { -0x1.32f046d5279fep+1, 17 }, { -0x1.8bcc6e3fa52ecp+0, 17 },
        { -0x1.441a5a6912b6cp+0, 17 }, { -0x1.37d6502f33121p+0, 17 },
        { -0x1.377915f78a8b3p+0, 16 },
    };
    static const struct turn halley[] = {
        { -0x1.094e0a3aa7d78p+0, 17 }, { -0x1.36f38967c217ap+0, 17 },
        { -0x1.3779010f02e6p+0, 16 },
    };
    struct start from = { -100000000, 241591910, units(-100000000), 1 };

    loop_is(HERE, from, 600, newton, COUNT(newton));
    from.method = 2;
    loop_is(HERE, from, 600, halley, COUNT(halley));
}

/* M = 1, e = 1: past the root, Undecided beside it, and then astray. */
static void test_astray(void)
{
    static const struct turn newton[] = {
        { 0x1.b5c91a54e59dep-8, 17 },  { 0x1.207d2f7327c66p-8, 17 },
        { 0x1.79239ced334d6p-9, 18 },  { 0x1.31701c0027fc6p-10, 17 },
    };
    static const struct turn halley[] = {
        { 0x1.49a8b5b961d4cp-8, 17 },  { 0x1.6633dd7c97731p-9, 18 },
        { 0x1.61b8bd5d33bd4p-10, 17 }, { 0x1.bfd9df82aed2fp-9, 18 },
    };
    struct start from = { 1, ONE, 0.01, 1 };
    struct start last = { 1, ONE, 0x1.31701c0027fc6p-10, 1 };

    loop_is(HERE, from, 65535, newton, COUNT(newton));
    judged_step_is(HERE, last, 65535, 5, with_verdict(no_step(), 0));
    from.method = 2;
    loop_is(HERE, from, 65535, halley, COUNT(halley));
}

/* One step, and the verdicts on it at depths 1 to 5. */
struct row {
    struct start from;
    double next;
    uint32_t n, verdicts[5];
};

static void test_depths(void)
{
    static const struct row rows[] = {
        { { 700000000, ONE, 2.5, 1 }, 0x1.722f5df640052p+1, 65535,
          { 18, 17, 17, 17, 17 } },
        { { 700000000, ONE, 2.5, 2 }, 0x1.6f1db34cca736p+1, 0,
          { 18, 18, 17, 17, 17 } },
        { { 700000000, ONE, 2.87, 1 }, 0x1.6fbfc93108fcep+1, 100,
          { 18, 18, 18, 17, 17 } },
        { { 700000000, ONE, 2.87, 2 }, 0x1.6fbfc3e525f59p+1, 0,
          { 18, 18, 18, 18, 17 } },
        { { 700000000, ONE, 2.87, 2 }, 0x1.6fbfc3e525f59p+1, 1,
          { 18, 18, 18, 18, 18 } },
        { { 700000000, ONE, 2.87, 2 }, 0x1.6fbfc3e525f59p+1, 10,
          { 18, 18, 18, 18, 16 } },
        { { 700000000, ONE, 2.87, 2 }, 0x1.6fbfc3e525f59p+1, 100,
          { 18, 18, 18, 16, 16 } },
        { { 700000000, ONE, 2.87, 2 }, 0x1.6fbfc3e525f59p+1, 65535,
          { 18, 18, 16, 16, 16 } },
        /* to M itself, and far from the root to 0 and to T units */
        { { 7, 0, 1.0, 1 }, 0x1.cp-26, 0, { 16, 16, 16, 16, 16 } },
        { { 1, 150000001, 0x1.ca213d6d70141p-28, 1 }, 0.0, 0,
          { 17, 17, 17, 17, 17 } },
        { { 1, 150000001, 0x1.ca213d6d70141p-28, 2 }, 0.0, 1,
          { 18, 18, 18, 18, 18 } },
        { { 105414365, 234881024, 0.0, 2 }, 0x1.921fb74p+1, 65535,
          { 17, 17, 17, 17, 17 } },
    };
    uint32_t depth;
    size_t i;

    for (i = 0; i < COUNT(rows); i++)
        for (depth = 1; depth <= 5; depth++)
            verdict_on(HERE, rows[i].from, rows[i].next, rows[i].n, depth,
                       rows[i].verdicts[depth - 1]);
}

/* Nothing is handed over, and so nothing is judged, whatever n and depth. */
static void test_flat(void)
{
    static const struct start flat[] = {
        { 0, ONE, 0.0, 1 },  { 0, ONE, 0.0, 2 },      { 0, ONE, -0.0, 2 },
        { 1, ONE, 0.0, 1 },  { 4, ONE - 1, 0.0, 2 },
        { 0, ONE, 3 * STRIPEAWN_UNIT, 2 },
        { 1, 150000001, 0x1.ca213d6d70142p-28, 1 },
    };
    uint32_t depth;
    size_t i;

    for (i = 0; i < COUNT(flat); i++)
        for (depth = 1; depth <= 5; depth++) {
            struct stripeawn_judged_step wanted = with_verdict(no_step(), 0);

            judged_step_is(HERE, flat[i], 0, depth, wanted);
            judged_step_is(HERE, flat[i], 65535, depth, wanted);
        }
}

/* With A = 0 the step goes to M, where it is Confirmed; or it is refused. */
static void confirmed(struct place at, struct start from, uint32_t n,
                      uint32_t depth)
{
    verdict_on(at, from, units(from.m), n, depth, 16);
}

static void refused(struct place at, struct start from, uint32_t n,
                    uint32_t depth, uint32_t code)
{
    judged_step_is(at, from, n, depth, with_verdict(refused_step(code), 0));
}

static void test_tolerances_and_depths(void)
{
    static const uint32_t bad[] = { 0, 6, 257, 65537, FAR };
    struct start from = { 7, 0, 1.0, 1 }, flat = { 0, ONE, 0.0, 2 };
    size_t i;

    confirmed(HERE, from, 0, 1);
    confirmed(HERE, from, 65535, 5);
    refused(HERE, from, 65536, 5, 5);
    refused(HERE, from, FAR, 1, 5);
    refused(HERE, flat, 65536, 5, 5);
    for (i = 0; i < COUNT(bad); i++) {
        refused(HERE, from, 0, bad[i], 3);
        refused(HERE, flat, 65535, bad[i], 3);
    }
}

/* A start with one number that is taken, and with the next that is not. */
static void test_starts(void)
{
    static const struct start good[] = {
        { H, 0, 1.0, 1 },    { -H, 0, -1.0, 2 },         { 0, 0, 1.0, 2 },
        { 1, 0, 0.0, 1 },    { 1, 0, -0.0, 2 },          { -1, 0, 0.0, 1 },
        { 1, 0, ABOVE_0, 2 }, { H, 0, 0x1.921fb74p+1, 1 },
    };
    static const struct {
        struct start from;
        uint32_t code;
    } bad[] = {
        { { H + 1, 0, 1.0, 1 }, 1 },    { { -H - 1, 0, -1.0, 2 }, 1 },
        { { INT32_MAX, 0, 1.0, 1 }, 1 }, { { INT32_MIN, 0, -1.0, 1 }, 1 },
        { { 1, ONE + 1, 1.0, 1 }, 2 },  { { 1, FAR, 1.0, 2 }, 2 },
        { { 0, 0, -ABOVE_0, 1 }, 4 },   { { 1, 0, -1.0, 2 }, 4 },
        { { -1, 0, ABOVE_0, 1 }, 4 },   { { 1, 0, INFINITY, 1 }, 4 },
        { { 1, 0, NAN, 1 }, 4 },        { { 1, 0, -NAN, 2 }, 4 },
        { { H, 0, 0x1.921fb74000001p+1, 1 }, 4 },
        { { 7, 0, 1.0, 0 }, 21 },       { { 7, 0, 1.0, 3 }, 21 },
        { { 7, 0, 1.0, 257 }, 21 },     { { 7, 0, 1.0, 65537 }, 21 },
        { { 7, 0, 1.0, 65538 }, 21 },   { { 7, 0, 1.0, FAR }, 21 },
        { { 0, ONE, 0.0, 0 }, 21 },
    };
    size_t i;

    for (i = 0; i < COUNT(good); i++)
        confirmed(HERE, good[i], 0, 1);
    for (i = 0; i < COUNT(bad); i++) {
        refused(HERE, bad[i].from, 0, 1, bad[i].code);
        refused(HERE, bad[i].from, 65535, 5, bad[i].code);
    }
}

void test_step_judged(void)
{
    test_orbit();
    test_below_0();
    test_astray();
    test_depths();
    test_flat();
    test_tolerances_and_depths();
    test_starts();
}
