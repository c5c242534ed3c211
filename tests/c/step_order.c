/*
** step_order.c: the order of codes of the entries that make a step: 1, 2, 4,
** 21 and, of a judged one, 1, 2, 3, 4, 5, 21.
**
** Each input runs over good and bad values, and all inputs against each
** other, so that every pair of codes meets, and all of them at once.
*/
#include <math.h>

#include "order.h"
#include "steps.h"

static const struct value anomalies[] = {
    { 0, 0 }, { 7, 0 }, { H, 0 }, { H + 1, 1 }, { INT32_MAX, 1 },
    { -7, 0 }, { -H, 0 }, { -H - 1, 1 }, { INT32_MIN, 1 }
};
static const struct value eccentricities[] = {
    { 0, 0 }, { ONE, 0 }, { ONE + 1, 2 }, { FAR, 2 }
};
static const struct value depths[] = {
    { 1, 0 }, { 5, 0 }, { 0, 3 }, { 6, 3 }, { 257, 3 }, { 65537, 3 },
    { FAR, 3 }
};
static const struct value tolerances[] = {
    { 0, 0 }, { 65535, 0 }, { 65536, 5 }, { FAR, 5 }
};
static const struct value methods[] = {
    { 1, 0 }, { 2, 0 }, { 0, 21 }, { 3, 21 }, { 257, 21 }, { 258, 21 },
    { 65537, 21 }, { 65538, 21 }, { FAR, 21 }
};

/* Estimates of either sign: the code of one depends on M's. */
static const double estimates[] = {
    0.0, -0.0, ABOVE_0, -ABOVE_0, 1.0, -1.0, 0x1.921fb74p+1, /* T units */
    -0x1.921fb74p+1, 0x1.921fb74000001p+1, -0x1.921fb74000001p+1, 4.0, -4.0,
    INFINITY, -INFINITY, NAN, -NAN
};

/* How many calls got each code. */
static unsigned long met[22], met_judged[22];

/* The codes that the numbers of a start are due, 0 for good ones. */
struct due {
    uint32_t m, a, estimate, method;
};

/* A step by its method or none, and plus zero unless one was taken. */
static int is_step(uint32_t code, uint32_t method, uint32_t step,
                   double estimate)
{
    if (code != 0)
        return step == 0 && to_bits(estimate) == 0;
    if (step == 3)
        return to_bits(estimate) == 0;
    return step == method;
}

static void step_order(struct start from, struct due due)
{
    uint32_t codes[] = { due.m, due.a, due.estimate, due.method };
    uint32_t code = first(codes, COUNT(codes));
    struct stripeawn_stepped got =
        stripeawn_step(from.m, from.a, from.estimate, from.method);

    check(HERE, got.code == code, "step gives %lu, wanted %lu",
          (unsigned long)got.code, (unsigned long)code);
    check(HERE, is_step(code, from.method, got.step, got.estimate),
          "step %lu to %a with code %lu", (unsigned long)got.step,
          got.estimate, (unsigned long)code);
    met[code]++;
}

static void judged_order(struct start from, struct due due, struct value n,
                         struct value depth)
{
    uint32_t codes[] = { due.m, due.a, depth.code, due.estimate, n.code,
                         due.method };
    uint32_t code = first(codes, COUNT(codes));
    struct stripeawn_judged_step got = stripeawn_step_judged(
        from.m, from.a, from.estimate, from.method, (uint32_t)n.value,
        (uint32_t)depth.value);
    int judged = got.verdict >= 16 && got.verdict <= 18;

    check(HERE, got.code == code, "judged step gives %lu, wanted %lu",
          (unsigned long)got.code, (unsigned long)code);
    check(HERE,
          is_step(code, from.method, got.step, got.estimate) &&
              (code != 0 || got.step == 3 ? got.verdict == 0 : judged),
          "judged step %lu to %a, verdict %lu with code %lu",
          (unsigned long)got.step, got.estimate, (unsigned long)got.verdict,
          (unsigned long)code);
    met_judged[code]++;
}

/* The step alone, and judged with every tolerance and depth. */
static void start_order(struct value m, struct value a, double estimate,
                        struct value method)
{
    struct start from = { (int32_t)m.value, (uint32_t)a.value, estimate,
                          (uint32_t)method.value };
    struct due due = { m.code, a.code, estimate_code(estimate, m.value),
                       method.code };
    size_t n, d;

    step_order(from, due);
    EACH(n, tolerances) EACH(d, depths)
        judged_order(from, due, tolerances[n], depths[d]);
}

void test_step_order(void)
{
    size_t m, a, e, k;

    EACH(m, anomalies) EACH(a, eccentricities) EACH(e, estimates)
        EACH(k, methods)
            start_order(anomalies[m], eccentricities[a], estimates[e],
                        methods[k]);
    check(HERE, met[0] && met[1] && met[2] && met[4] && met[21],
          "a code of a step is not met");
    check(HERE,
          met_judged[0] && met_judged[1] && met_judged[2] && met_judged[3] &&
              met_judged[4] && met_judged[5] && met_judged[21],
          "a code of a judged step is not met");
}
