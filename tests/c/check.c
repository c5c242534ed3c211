/*
** check.c: the counting of checks, and one comparison for each entry, which
** goes on to the mirrored call where M is above 0 and, from the grid, to the
** entry for doubles.
*/
#include <inttypes.h>
#include <stdarg.h>
#include <stdio.h>
#include <string.h>

#include "check.h"

static unsigned long checks_run, checks_failed;

void check(struct place at, int good, const char *format, ...)
{
    va_list arguments;

    checks_run++;
    if (good)
        return;
    checks_failed++;
    printf("%s:%d: FAILED: ", at.file, at.line);
    va_start(arguments, format);
    vprintf(format, arguments);
    va_end(arguments);
    printf("\n");
}

int check_report(void)
{
    printf("C tests: %lu checks, %lu failed\n", checks_run, checks_failed);
    return checks_run == 0 || checks_failed != 0;
}

void sine_is(struct place at, uint32_t x, uint32_t depth, uint32_t code,
             int64_t lo, int64_t hi)
{
    struct stripeawn_bounds got = stripeawn_sine(x, depth);

    check(at, got.code == code && got.lo == lo && got.hi == hi,
          "sine x=%" PRIu32 " depth=%" PRIu32 ": code %" PRIu32 " lo %" PRId64
          " hi %" PRId64 ", wanted %" PRIu32 " %" PRId64 " %" PRId64,
          x, depth, got.code, got.lo, got.hi, code, lo, hi);
}

/* The other side of 0; the least number has none and is far off anyway. */
static int32_t opposite(int32_t number)
{
    return number == INT32_MIN ? INT32_MAX : -number;
}

static const char *way(struct given g)
{
    return g.is_double ? "doubles" : "grid";
}

void given_end_is(struct place at, int upper, int32_t x, struct given g,
                  uint32_t depth, uint32_t code, uint32_t accepted)
{
    struct stripeawn_end got = end_of(upper, x, g, depth);

    check(at, got.code == code && got.accepted == accepted,
          "%s end x=%" PRId32 ", %s m=%.17g e=%.17g depth=%" PRIu32
          ": code %" PRIu32 " accepted %" PRIu32 ", wanted %" PRIu32
          " %" PRIu32,
          upper ? "upper" : "lower", x, way(g), g.m, g.e, depth, got.code,
          got.accepted, code, accepted);
    if (g.m > 0)
        given_end_is(at, !upper, opposite(x), mirror_of(g), depth, code,
                     accepted);
}

void given_enclosure_is(struct place at, struct given g, uint32_t depth,
                        uint32_t code, int32_t lower, int32_t upper)
{
    struct stripeawn_enclosure got = enclosure_of(g, depth);

    check(at, got.code == code && got.lower == lower && got.upper == upper,
          "enclose %s m=%.17g e=%.17g depth=%" PRIu32 ": code %" PRIu32
          " lower %" PRId32 " upper %" PRId32 ", wanted %" PRIu32 " %" PRId32
          " %" PRId32,
          way(g), g.m, g.e, depth, got.code, got.lower, got.upper, code,
          lower, upper);
    if (g.m > 0)
        given_enclosure_is(at, mirror_of(g), depth, code, -upper, -lower);
}

void given_proposal_is(struct place at, struct given g,
                       struct stripeawn_proposal wanted)
{
    struct stripeawn_proposal got = proposal_of(g);

    check(at,
          got.code == wanted.code && got.angle == wanted.angle &&
              got.e_sin == wanted.e_sin && got.e_cos == wanted.e_cos &&
              got.j == wanted.j,
          "propose %s m=%.17g e=%.17g: code %" PRIu32 " angle %" PRId32
          " e_sin %" PRId64 " e_cos %" PRId64 " j %" PRIu32,
          way(g), g.m, g.e, got.code, got.angle, got.e_sin, got.e_cos, got.j);
    if (g.m > 0) {
        wanted.angle = -wanted.angle;
        wanted.e_sin = -wanted.e_sin;
        given_proposal_is(at, mirror_of(g), wanted);
    }
}

void given_verdict_is(struct place at, struct given g, double estimate,
                      uint32_t n, uint32_t depth, uint32_t code,
                      uint32_t verdict)
{
    struct stripeawn_verdict got = verdict_of(g, estimate, n, depth);

    check(at, got.code == code && got.verdict == verdict,
          "judge %s m=%.17g e=%.17g estimate=%a n=%" PRIu32 " depth=%" PRIu32
          ": code %" PRIu32 " verdict %" PRIu32 ", wanted %" PRIu32
          " %" PRIu32,
          way(g), g.m, g.e, estimate, n, depth, got.code, got.verdict, code,
          verdict);
    settled_agrees(at, g, estimate, n, depth, got);
    if (g.m > 0)
        given_verdict_is(at, mirror_of(g), -estimate, n, depth, code,
                         verdict);
}

void given_settled_is(struct place at, struct given g, double estimate,
                      uint32_t n, uint32_t code, uint32_t verdict,
                      uint32_t depth)
{
    struct stripeawn_settled got = settled_of(g, estimate, n);

    check(at,
          got.code == code && got.verdict == verdict && got.depth == depth,
          "settle %s m=%.17g e=%.17g estimate=%a n=%" PRIu32 ": code %" PRIu32
          " verdict %" PRIu32 " depth %" PRIu32 ", wanted %" PRIu32
          " %" PRIu32 " %" PRIu32,
          way(g), g.m, g.e, estimate, n, got.code, got.verdict, got.depth,
          code, verdict, depth);
    if (g.m > 0)
        given_settled_is(at, mirror_of(g), -estimate, n, code, verdict,
                         depth);
}

void given_distance_is(struct place at, struct given g, double estimate,
                       uint32_t code, uint32_t least, uint32_t most)
{
    struct stripeawn_off got = distance_of(g, estimate);

    check(at, got.code == code && got.least == least && got.most == most,
          "distance %s m=%.17g e=%.17g estimate=%a: code %" PRIu32
          " least %" PRIu32 " most %" PRIu32 ", wanted %" PRIu32 " %" PRIu32
          " %" PRIu32,
          way(g), g.m, g.e, estimate, got.code, got.least, got.most, code,
          least, most);
    if (g.m > 0)
        given_distance_is(at, mirror_of(g), -estimate, code, least, most);
}

/* A depth out of limits, which gets code 3, comes after M and e only. */
static int agree(struct stripeawn_settled s, struct stripeawn_verdict v,
                 uint32_t depth)
{
    if (v.code == 3)
        return s.code == 0 || s.code == 4 || s.code == 5;
    if (v.code != 0)
        return s.code == v.code && s.verdict == 0 && s.depth == 0;
    return s.code == 0 && s.depth >= 1 && s.depth <= 5 &&
           (s.verdict != 18 || s.depth == 5) &&
           v.verdict == (depth < s.depth ? 18 : s.verdict);
}

void settled_agrees(struct place at, struct given g, double estimate,
                    uint32_t n, uint32_t depth, struct stripeawn_verdict v)
{
    struct stripeawn_settled s = settled_of(g, estimate, n);

    check(at, agree(s, v, depth),
          "%s m=%.17g e=%.17g estimate=%a n=%" PRIu32 ": settle has code %"
          PRIu32 " verdict %" PRIu32 " depth %" PRIu32 ", the judge at depth %"
          PRIu32 " code %" PRIu32 " verdict %" PRIu32,
          way(g), g.m, g.e, estimate, n, s.code, s.verdict, s.depth, depth,
          v.code, v.verdict);
}

static void grid_end_is(struct place at, int upper, int32_t x,
                        struct given g, uint32_t depth, uint32_t code,
                        uint32_t accepted)
{
    given_end_is(at, upper, x, g, depth, code, accepted);
    given_end_is(at, upper, x, as_doubles(g), depth, code, accepted);
}

void lower_is(struct place at, int32_t x, int32_t m, uint32_t a,
              uint32_t depth, uint32_t code, uint32_t accepted)
{
    grid_end_is(at, LOWER, x, grid(m, a), depth, code, accepted);
}

void upper_is(struct place at, int32_t x, int32_t m, uint32_t a,
              uint32_t depth, uint32_t code, uint32_t accepted)
{
    grid_end_is(at, UPPER, x, grid(m, a), depth, code, accepted);
}

void enclosure_is(struct place at, int32_t m, uint32_t a, uint32_t depth,
                  uint32_t code, int32_t lower, int32_t upper)
{
    struct given g = grid(m, a);

    given_enclosure_is(at, g, depth, code, lower, upper);
    given_enclosure_is(at, as_doubles(g), depth, code, lower, upper);
}

void proposal_is(struct place at, int32_t m, uint32_t a,
                 struct stripeawn_proposal wanted)
{
    struct given g = grid(m, a);

    given_proposal_is(at, g, wanted);
    given_proposal_is(at, as_doubles(g), wanted);
}

void verdict_is(struct place at, int32_t m, uint32_t a, double estimate,
                uint32_t n, uint32_t depth, uint32_t code, uint32_t verdict)
{
    struct given g = grid(m, a);

    given_verdict_is(at, g, estimate, n, depth, code, verdict);
    given_verdict_is(at, as_doubles(g), estimate, n, depth, code, verdict);
}

void settled_is(struct place at, int32_t m, uint32_t a, double estimate,
                uint32_t n, uint32_t code, uint32_t verdict, uint32_t depth)
{
    struct given g = grid(m, a);

    given_settled_is(at, g, estimate, n, code, verdict, depth);
    given_settled_is(at, as_doubles(g), estimate, n, code, verdict, depth);
}

void distance_is(struct place at, int32_t m, uint32_t a, double estimate,
                 uint32_t code, uint32_t least, uint32_t most)
{
    struct given g = grid(m, a);

    given_distance_is(at, g, estimate, code, least, most);
    given_distance_is(at, as_doubles(g), estimate, code, least, most);
}

double from_bits(uint64_t bits)
{
    double value;

    memcpy(&value, &bits, sizeof value);
    return value;
}

uint64_t to_bits(double value)
{
    uint64_t bits;

    memcpy(&bits, &value, sizeof bits);
    return bits;
}

double units(int32_t count)
{
    return count / 268435456.0;
}

static void put_number(uint8_t *bytes, uint64_t value, int size)
{
    int i;

    for (i = 0; i < size; i++)
        bytes[i] = (uint8_t)(value >> 8 * i);
}

void put_claim(uint8_t *record, int32_t m, uint32_t a, double estimate,
               uint32_t n, uint32_t depth, uint32_t reserved)
{
    put_number(record, (uint32_t)m, 4);
    put_number(record + 4, a, 4);
    put_number(record + 8, to_bits(estimate), 8);
    put_number(record + 16, n, 2);
    put_number(record + 18, depth, 1);
    put_number(record + 19, reserved, 1);
}
