/*
** flyby_order.c: the order of codes of flybys: 1, 2, 10 of the end tests, 1,
** 2, 15 of the enclosure and 1, 2, 4, 5 of the judge.
**
** Each input runs over good and bad values, and all inputs against each
** other, so that every pair of codes of an entry meets, and all of them.
*/
#include <math.h>

#include "flyby.h"
#include "order.h"

static const struct value anomalies[] = {
    { 0, 0 }, { 1, 0 }, { 436707012, 0 }, { 436707013, 0 }, { MOST_M, 0 },
    { 2147483648.0, 1 }, { FAR - 1, 1 }, { FAR, 1 }
};
static const struct value eccentricities[] = {
    { ONE, 0 }, { 740131757, 0 }, { 740131758, 0 }, { MOST_B, 0 }, { 0, 2 },
    { 1, 2 }, { ONE - 1, 2 }, { MOST_B + 1, 2 }, { 2147483648.0, 2 },
    { FAR, 2 }
};
static const struct value numbers[] = {
    { 0, 0 }, { 1, 0 }, { TOP, 0 }, { TOP + 1, 10 }, { T, 10 },
    { 2147483648.0, 10 }, { FAR, 10 }
};
static const struct value tolerances[] = {
    { 0, 0 }, { 65535, 0 }, { 65536, 5 }, { 65537, 5 }, { FAR, 5 }
};
static const struct value estimates[] = {
    { 0.0, 0 }, { -0.0, 0 }, { ABOVE_0, 0 }, { -ABOVE_0, 4 }, { 1.0, 0 },
    { -1.0, 4 }, { BELOW_2, 0 }, { 2.0, 0 }, { ABOVE_2, 4 }, { -2.0, 4 },
    { 1e300, 4 }, { INFINITY, 4 }, { -INFINITY, 4 }, { NAN, 4 }, { -NAN, 4 }
};

/* How many calls of each kind got each code. */
static unsigned long met_end[16], met_enclosure[16], met_verdict[16];

/* A flyby and the first code that its M and B are due. */
struct posed {
    struct flyby f;
    uint32_t code;
};

/* 0 is always a lower end, and an upper one for M = 0 alone. */
static void ends_order(struct posed p, struct value x)
{
    uint32_t codes[] = { p.code, x.code };
    uint32_t code = first(codes, COUNT(codes)), number = (uint32_t)x.value;

    if (code != 0 || number == 0) {
        flyby_end_is(HERE, LOWER, number, p.f, code, code == 0);
        flyby_end_is(HERE, UPPER, number, p.f, code,
                     code == 0 && p.f.m == 0);
    } else {
        ends_by_rule(HERE, number, p.f);
    }
    met_end[code]++;
}

/* Code 15 begins at the M that is written out, and at the B. */
static void enclose_order(struct posed p)
{
    int beyond = p.f.b == ONE ? p.f.m > 436707012
                              : p.f.b < 740131758 && p.f.m == MOST_M;
    uint32_t codes[] = { p.code, beyond ? 15 : 0 };
    uint32_t code = first(codes, COUNT(codes));
    struct stripeawn_enclosure got = stripeawn_flyby_enclose(p.f.m, p.f.b);

    check(HERE, got.code == code, "m=%lu b=%lu: enclose gives %lu, wanted %lu",
          (unsigned long)p.f.m, (unsigned long)p.f.b, (unsigned long)got.code,
          (unsigned long)code);
    check(HERE,
          code == 0 ? (got.upper == 0) == (p.f.m == 0)
                    : got.lower == 0 && got.upper == 0,
          "m=%lu b=%lu: %ld to %ld with code %lu", (unsigned long)p.f.m,
          (unsigned long)p.f.b, (long)got.lower, (long)got.upper,
          (unsigned long)code);
    met_enclosure[code]++;
}

static void judge_order(struct posed p, struct value estimate,
                        struct value n)
{
    uint32_t codes[] = { p.code, estimate.code, n.code };
    uint32_t code = first(codes, COUNT(codes));

    if (code != 0)
        flyby_verdict_is(HERE, p.f, estimate.value, (uint32_t)n.value, code,
                         0);
    else
        verdict_by_rule(HERE, p.f, estimate.value, (uint32_t)n.value);
    met_verdict[code]++;
}

static void flyby_order(struct posed p)
{
    size_t x, e, n;

    EACH(x, numbers)
        ends_order(p, numbers[x]);
    enclose_order(p);
    EACH(e, estimates) EACH(n, tolerances)
        judge_order(p, estimates[e], tolerances[n]);
}

void test_flyby_order(void)
{
    size_t m, b;

    EACH(m, anomalies) EACH(b, eccentricities) {
        uint32_t codes[] = { anomalies[m].code, eccentricities[b].code };
        struct posed p = { { (uint32_t)anomalies[m].value,
                             (uint32_t)eccentricities[b].value },
                           first(codes, COUNT(codes)) };

        flyby_order(p);
    }
    check(HERE, met_end[0] && met_end[1] && met_end[2] && met_end[10],
          "a code of an end test is not met");
    check(HERE,
          met_enclosure[0] && met_enclosure[1] && met_enclosure[2] &&
              met_enclosure[15],
          "a code of an enclosure is not met");
    check(HERE,
          met_verdict[0] && met_verdict[1] && met_verdict[2] &&
              met_verdict[4] && met_verdict[5],
          "a code of the judge is not met");
}
