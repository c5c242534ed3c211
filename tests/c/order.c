/*
** order.c: with several bad inputs at once, the first code in the order is
** given: 9, 1, 2, 3, 10, 4, 5, 6. Cosine's are in cosine.c, and those of
** steps, whose 21 comes last, in step_order.c.
**
** Each input runs over good and bad values, and all inputs against each
** other, so that every pair of codes of an entry meets.
*/
#include <math.h>

#include "check.h"
#include "order.h"

static const struct value anomalies[] = {
    { 0, 0 }, { H, 0 }, { H + 1, 1 }, { INT32_MAX, 1 },
    { -1, 0 }, { -H, 0 }, { -H - 1, 1 }, { INT32_MIN, 1 }
};
static const struct value eccentricities[] = {
    { 0, 0 }, { ONE, 0 }, { ONE + 1, 2 }, { FAR, 2 }
};
static const struct value depths[] = {
    { 1, 0 }, { 5, 0 }, { 0, 3 }, { 6, 3 }, { 257, 3 }, { FAR, 3 }
};
static const struct value tolerances[] = {
    { 0, 0 }, { 65535, 0 }, { 65536, 5 }, { FAR, 5 }
};

/* Angles that sine takes, which have no sign. */
static const struct value sine_angles[] = {
    { 0, 0 }, { T, 0 }, { T + 1, 10 }, { FAR, 10 }
};

/* Angles to test: the code of one depends on M's sign. */
static const int32_t angles[] = { 0, 1, T, T + 1, INT32_MAX,
                                  -1, -T, -T - 1, INT32_MIN };

static uint32_t angle_code(int32_t x, double m)
{
    int opposes = m < 0 ? x > 0 : x < 0;

    return opposes || x < -T || x > T ? 10 : 0;
}

/* Estimates by their bits, each with either sign: its code depends on M's. */
static const uint64_t estimates[] = {
    0,
    1,                            /* the least above 0 */
    UINT64_C(0x3FF0000000000000), /* 1 */
    UINT64_C(0x400921FB74000000), /* T units, and the next double */
    UINT64_C(0x400921FB74000001),
    UINT64_C(0x4010000000000000), /* 4, which is above T units */
    INFINITE,
    UINT64_C(0x7FF8000000000000), /* NaN */
    UINT64_C(0x7FF0000000000001), /* signalling NaN */
};

static const uint64_t signs[] = { 0, SIGN };

/* No comparison holds of a NaN, and the two zeros are equal. */
uint32_t estimate_code(double estimate, double m)
{
    double size = m < 0 ? -estimate : estimate;

    return size >= 0 && size <= units(T) ? 0 : 4;
}

uint32_t first(const uint32_t *codes, size_t count)
{
    size_t i;

    for (i = 0; i < count; i++)
        if (codes[i] != 0)
            return codes[i];
    return 0;
}

static void test_sine_order(void)
{
    size_t d, x;

    EACH(d, depths) EACH(x, sine_angles) {
        uint32_t codes[] = { depths[d].code, sine_angles[x].code };
        uint32_t code = first(codes, COUNT(codes));
        uint32_t angle = sine_angles[x].value, depth = depths[d].value;

        if (code != 0)
            sine_is(HERE, angle, depth, code, 0, 0);
        else
            check(HERE, stripeawn_sine(angle, depth).code == 0,
                  "sine refuses good input");
    }
}

/* An M with an eccentricity, and the first code that the two are due. */
struct posed {
    struct given given;
    uint32_t code;
};

/*
** One combination for both end tests. Of the ends on 0's side, which are
** upper ones for M below 0, 0 is always one and T is none.
*/
static void ends_order(struct posed p, struct value d, int32_t x)
{
    uint32_t codes[] = { p.code, d.code, angle_code(x, p.given.m) };
    uint32_t code = first(codes, COUNT(codes));
    struct stripeawn_end lower = end_of(LOWER, x, p.given, d.value);
    struct stripeawn_end upper = end_of(UPPER, x, p.given, d.value);
    uint32_t inner = p.given.m < 0 ? upper.accepted : lower.accepted;

    check(HERE, lower.code == code && upper.code == code,
          "end tests give %lu and %lu, wanted %lu", (unsigned long)lower.code,
          (unsigned long)upper.code, (unsigned long)code);
    check(HERE,
          code != 0 ? lower.accepted == 0 && upper.accepted == 0
                    : x == 0 ? inner == 1 : inner == 0 || (x != T && x != -T),
          "end tests give %lu and %lu with code %lu",
          (unsigned long)lower.accepted, (unsigned long)upper.accepted,
          (unsigned long)code);
}

/* H units, e = 1, depth 1 are due code 6, and all that is rounded up to it. */
static int has_no_upper_end(struct given g, double depth)
{
    struct given d = as_doubles(g);

    return ceil(fabs(d.m) * ONE) == H && ceil(d.e * ONE) == ONE && depth == 1;
}

static void enclose_order(struct posed p, struct value d)
{
    uint32_t codes[] = { p.code, d.code,
                         has_no_upper_end(p.given, d.value) ? 6 : 0 };
    uint32_t code = first(codes, COUNT(codes));
    struct stripeawn_enclosure got = enclosure_of(p.given, d.value);

    check(HERE, got.code == code, "enclose gives %lu, wanted %lu",
          (unsigned long)got.code, (unsigned long)code);
    check(HERE, code == 0 || (got.lower == 0 && got.upper == 0),
          "enclose gives numbers with code %lu", (unsigned long)code);
}

static void propose_order(struct posed p)
{
    struct stripeawn_proposal got = proposal_of(p.given);

    check(HERE, got.code == p.code, "propose gives %lu, wanted %lu",
          (unsigned long)got.code, (unsigned long)p.code);
    check(HERE,
          p.code == 0 || (got.angle == 0 && got.e_sin == 0 &&
                          got.e_cos == 0 && got.j == 0),
          "propose gives numbers with code %lu", (unsigned long)p.code);
}

static void judge_order(struct posed p, struct value d, double estimate,
                        struct value n)
{
    uint32_t codes[] = { p.code, d.code, estimate_code(estimate, p.given.m),
                         n.code };
    uint32_t code = first(codes, COUNT(codes));
    struct stripeawn_verdict got =
        verdict_of(p.given, estimate, n.value, d.value);

    check(HERE, got.code == code, "judge gives %lu, wanted %lu",
          (unsigned long)got.code, (unsigned long)code);
    check(HERE,
          code == 0 ? got.verdict >= 16 && got.verdict <= 18
                    : got.verdict == 0,
          "judge gives verdict %lu with code %lu", (unsigned long)got.verdict,
          (unsigned long)code);
}

/* The same without a depth: the codes are the judge's, and 3 is none. */
static void settle_order(struct posed p, double estimate, struct value n)
{
    uint32_t codes[] = { p.code, estimate_code(estimate, p.given.m), n.code };
    uint32_t code = first(codes, COUNT(codes));
    struct stripeawn_settled got = settled_of(p.given, estimate, n.value);

    check(HERE, got.code == code, "settle gives %lu, wanted %lu",
          (unsigned long)got.code, (unsigned long)code);
    check(HERE,
          code == 0 ? got.verdict >= 16 && got.verdict <= 18 &&
                          got.depth >= 1 && got.depth <= 5
                    : got.verdict == 0 && got.depth == 0,
          "settle gives verdict %lu and depth %lu with code %lu",
          (unsigned long)got.verdict, (unsigned long)got.depth,
          (unsigned long)code);
}

/* A claim, at every depth and without one. */
static void claim_order(struct posed p, double estimate, struct value n)
{
    size_t d;

    settle_order(p, estimate, n);
    EACH(d, depths)
        judge_order(p, depths[d], estimate, n);
}

/* Neither depth nor tolerance, and none of their codes, nor code 6. */
static void distance_order(struct posed p, double estimate)
{
    uint32_t codes[] = { p.code, estimate_code(estimate, p.given.m) };
    uint32_t code = first(codes, COUNT(codes));
    struct stripeawn_off got = distance_of(p.given, estimate);

    check(HERE, got.code == code, "distance gives %lu, wanted %lu",
          (unsigned long)got.code, (unsigned long)code);
    check(HERE,
          code == 0 ? got.least <= got.most && got.most <= T
                    : got.least == 0 && got.most == 0,
          "distance gives %lu and %lu with code %lu",
          (unsigned long)got.least, (unsigned long)got.most,
          (unsigned long)code);
}

static void posed_order(struct posed p)
{
    size_t d, x, e, s, n;

    propose_order(p);
    EACH(d, depths) {
        enclose_order(p, depths[d]);
        EACH(x, angles)
            ends_order(p, depths[d], angles[x]);
    }
    EACH(e, estimates) EACH(s, signs) {
        double estimate = from_bits(estimates[e] | signs[s]);

        distance_order(p, estimate);
        EACH(n, tolerances)
            claim_order(p, estimate, tolerances[n]);
    }
}

void test_way(struct way way)
{
    size_t m, e;

    for (m = 0; m < way.m_count; m++)
        for (e = 0; e < way.e_count; e++) {
            uint32_t codes[] = { way.m[m].code, way.e[e].code };
            struct posed p = {
                { way.is_double, way.m[m].value, way.e[e].value },
                first(codes, COUNT(codes))
            };

            posed_order(p);
        }
}

/* A record with every mixture of faults; its N cannot be too great. */
static void record_order(struct value m, struct value a, struct value d,
                         double estimate, uint32_t reserved)
{
    uint32_t codes[] = { reserved ? 9u : 0u, m.code, a.code, d.code,
                         estimate_code(estimate, m.value) };
    uint32_t code = first(codes, COUNT(codes));
    uint8_t claim[20], answer = 0xEE;
    struct stripeawn_batch got;

    put_claim(claim, m.value, a.value, estimate, 65535, d.value, reserved);
    got = stripeawn_judge_claims(claim, sizeof claim, &answer, 1);
    check(HERE, got.code == 0 && got.count == 1,
          "a bad record refuses the batch with %lu", (unsigned long)got.code);
    check(HERE, code == 0 ? answer >= 16 && answer <= 18 : answer == code,
          "record answered by %d, wanted %lu", answer, (unsigned long)code);
}

static void test_record_order(void)
{
    static const uint32_t reserved[] = { 0, 1, 128, 255 };
    size_t m, a, d, e, s, r;

    EACH(m, anomalies) EACH(a, eccentricities) EACH(e, estimates)
        EACH(s, signs) EACH(r, reserved)
            for (d = 0; d < 4; d++) /* depths of one byte */
                record_order(anomalies[m], eccentricities[a], depths[d],
                             from_bits(estimates[e] | signs[s]), reserved[r]);
}

void test_order(void)
{
    struct way on_grid = { 0, anomalies, COUNT(anomalies), eccentricities,
                           COUNT(eccentricities) };

    test_sine_order();
    test_way(on_grid);
    test_record_order();
}
