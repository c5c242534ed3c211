/*
** step_laws.c: what holds of every step, on many pseudo-random starts of all
** kinds, by both methods and for M of either sign: it is the rule's, bit for
** bit; the new estimate is within its limits; and a judged step is the step
** alone with the judge's verdict on the new estimate.
*/
#include <math.h>

#include "steps.h"

/* An M that is not below 0: next to 0, H, of any size, or any. */
static int32_t random_anomaly(uint64_t *random)
{
    static const int32_t stated[] = { 0, 1, 2, H };
    uint64_t kind = random_bits(random) % 12, bits = random_bits(random);

    if (kind < 4)
        return stated[kind];
    if (kind < 8)
        return (int32_t)(bits >> (35 + bits % 29)) % (H + 1);
    return (int32_t)(bits % (H + 1));
}

/* Both limits and what is next to them, any distance from 2^28, or any. */
static uint32_t random_eccentricity(uint64_t *random)
{
    static const uint32_t stated[] = { ONE, ONE - 1, 0, 1 };
    uint64_t kind = random_bits(random) % 12, bits = random_bits(random);

    if (kind < 4)
        return stated[kind];
    if (kind < 8)
        return ONE - (uint32_t)(bits >> (36 + bits % 28));
    return (uint32_t)(bits % (ONE + 1));
}

enum { ANYWHERE, WHOLE, BESIDE_WHOLE, SMALL, SUBNORMAL, NEAR_M, NEAR_ROOT,
       NEAR_TOP, TOP, ZERO, KINDS };

/* What is small or near is so by any number of digits. */
static double random_estimate(uint64_t *random, int kind, int32_t m,
                              uint32_t a)
{
    double any = random_fraction(random), other = random_fraction(random);
    double off = ldexp(other - 0.5, -(int)(any * 52));
    double whole = floor(any * T) * STRIPEAWN_UNIT;

    switch (kind) {
    case WHOLE: return whole;
    case BESIDE_WHOLE: return nextafter(whole, other < 0.5 ? 0.0 : 4.0);
    case SMALL: return ldexp(other, -(int)(any * 64));
    case SUBNORMAL: return ldexp(other, -1022 - (int)(any * 53));
    case NEAR_M: return units(m) + off;
    case NEAR_ROOT: return units(stripeawn_propose(m, a).angle) + off;
    case NEAR_TOP: return units(T) + off;
    case TOP: return units(T);
    case ZERO: return other < 0.5 ? 0.0 : -0.0;
    default: return any * units(T);
    }
}

/* The estimate is brought into 0 to T units; minus zero stays. */
static struct start random_start(uint64_t *random, int kind)
{
    int32_t m = random_anomaly(random);
    uint32_t a = random_eccentricity(random);
    struct start from = { m, a, random_estimate(random, kind, m, a), 1 };

    if (from.estimate < 0)
        from.estimate = -from.estimate;
    if (from.estimate > units(T))
        from.estimate = units(T);
    return from;
}

/* What was met, by each method. */
enum { TAKEN, TO_0, BELOW_0, ABOVE_TOP, NO_NUMBER, OUTCOMES };

static const char *const outcomes[OUTCOMES] = {
    "steps to above 0", "steps to 0", "flat ones, to below 0",
    "flat ones, to above T units", "flat ones, to no number",
};

static unsigned long met[3][OUTCOMES];

/* How many new estimates got each verdict. */
static unsigned long verdicts[19];

static int outcome_of(double next)
{
    if (!isfinite(next))
        return NO_NUMBER;
    if (next <= 0)
        return next == 0 ? TO_0 : BELOW_0;
    return next <= units(T) ? TAKEN : ABOVE_TOP;
}

/* What is handed over is judged, and starts the next step. */
static void handed_over(struct start from)
{
    struct stripeawn_stepped s =
        stripeawn_step(from.m, from.a, from.estimate, from.method);
    uint32_t judged = stripeawn_judge(from.m, from.a, s.estimate, 0, 1).code;
    uint32_t newton = stripeawn_step(from.m, from.a, s.estimate, 1).code;
    uint32_t halley = stripeawn_step(from.m, from.a, s.estimate, 2).code;

    check(HERE, s.step == from.method || s.step == 3,
          "method %lu makes step %lu", (unsigned long)from.method,
          (unsigned long)s.step);
    check(HERE, s.code == 0 && judged == 0 && newton == 0 && halley == 0,
          "m=%ld a=%lu: to the new estimate %a the judge gives %lu, the next "
          "step %lu and %lu", (long)from.m, (unsigned long)from.a, s.estimate,
          (unsigned long)judged, (unsigned long)newton,
          (unsigned long)halley);
}

/* The step by the rule, and the same with the judge's verdict. */
static void start_is(struct start from, uint32_t n, uint32_t depth)
{
    struct stripeawn_stepped due = step_by_rule(from);
    uint32_t verdict = 0;

    if (due.step != 3)
        verdict = stripeawn_judge(from.m, from.a, due.estimate, n,
                                  depth).verdict;
    step_is(HERE, from, due);
    judged_step_is(HERE, from, n, depth, with_verdict(due, verdict));
    handed_over(from);
    if (from.m > 0)
        handed_over(mirror_of_start(from));
    met[from.method][outcome_of(raw_step_of(from).next)]++;
    if (verdict <= 18)
        verdicts[verdict]++;
}

static void test_starts(void)
{
    uint64_t random = 76;
    uint32_t i;

    for (i = 0; i < 100000; i++) {
        struct start from = random_start(&random, (int)(i % KINDS));
        uint32_t n = random_bits(&random) >> (48 + i % 16);

        for (from.method = 1; from.method <= 2; from.method++)
            start_is(from, n, i / KINDS % 5 + 1);
    }
    for (i = 0; i < 2 * OUTCOMES; i++)
        check(HERE, met[1 + i % 2][i / 2] > 1000, "method %lu: %lu %s",
              (unsigned long)(1 + i % 2), met[1 + i % 2][i / 2],
              outcomes[i / 2]);
    check(HERE,
          verdicts[16] > 1000 && verdicts[17] > 1000 && verdicts[18] > 1000,
          "%lu Confirmed, %lu Refuted, %lu Undecided", verdicts[16],
          verdicts[17], verdicts[18]);
}

/* How many loops ended on each verdict, and how many were flat. */
static unsigned long ended[19];

/* Steps until one is Confirmed or flat, twenty at most. */
static void loop_from(struct start from, uint32_t n)
{
    struct stripeawn_judged_step s = { 0, 0, 0.0, 0 };
    int i;

    for (i = 0; i < 20 && s.step != 3 && s.verdict != 16; i++) {
        start_is(from, n, 5);
        s = stripeawn_step_judged(from.m, from.a, from.estimate, from.method,
                                  n, 5);
        from.estimate = s.estimate;
    }
    if (s.verdict <= 18)
        ended[s.verdict]++;
}

/* From M, on orbits of all kinds, to within what their figure promises. */
static void test_loops(void)
{
    uint64_t random = 77;
    uint32_t i;

    for (i = 0; i < 1000; i++) {
        struct given g = brought_to_grid(random_doubles(&random));
        uint32_t n = stripeawn_least_n((uint32_t)g.e);
        struct start from = { (int32_t)g.m, (uint32_t)g.e,
                              units((int32_t)g.m), 1 + i % 2 };

        loop_from(from, n != 0 ? n : 65535);
    }
    check(HERE, ended[16] > 500 && ended[0] > 10,
          "%lu loops end Confirmed, %lu Refuted, %lu Undecided, %lu flat",
          ended[16], ended[17], ended[18], ended[0]);
}

void test_step_laws(void)
{
    test_starts();
    test_loops();
}
