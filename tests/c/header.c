/*
** header.c: the numbers that the header names, their names in words, the
** layout of results, the types of the entries for doubles, of cosine, steps
** and figures, and what the notes on doubles say of M in degrees. Limits and
** entries of flybys are in flyby_header.c.
*/
#include <math.h>
#include <stddef.h>
#include <stdio.h>
#include <string.h>

#include "check.h"

static void named(struct place at, uint32_t got, uint32_t wanted)
{
    check(at, got == wanted, "the header has %lu where %lu is right",
          (unsigned long)got, (unsigned long)wanted);
}

static void test_limits(void)
{
    named(HERE, STRIPEAWN_M_MAX, 843314856);
    named(HERE, STRIPEAWN_X_MAX, 843314920);
    named(HERE, STRIPEAWN_A_MAX, 268435456);
    named(HERE, STRIPEAWN_DEPTH_MAX, 5);
    named(HERE, STRIPEAWN_N_MAX, 65535);
    named(HERE, STRIPEAWN_RADIAN, 268435456);
    named(HERE, STRIPEAWN_CLAIM_BYTES, 20);
}

/* Limits of signed numbers are signed, so that they compare with any. */
static void test_signed_limits(void)
{
    static const int32_t below[] = { -1, -5, -T - 1, INT32_MIN };
    size_t i;

    for (i = 0; i < COUNT(below); i++)
        check(HERE,
              !(below[i] > STRIPEAWN_M_MAX) && !(below[i] > STRIPEAWN_X_MAX) &&
                  !(below[i] > STRIPEAWN_RADIAN),
              "%ld is above a limit", (long)below[i]);
    check(HERE, -STRIPEAWN_M_MAX == -H && -STRIPEAWN_X_MAX == -T,
          "the least M or X is not below 0");
    check(HERE, -1 * STRIPEAWN_RADIAN * STRIPEAWN_UNIT == -1.0,
          "-1 radian is %f", -1 * STRIPEAWN_RADIAN * STRIPEAWN_UNIT);
}

/* What may be below 0 in a result reads so. */
static void test_signed_results(void)
{
    struct stripeawn_bounds bounds = { 0, -1, -1 };
    struct stripeawn_enclosure enclosure = { 0, -1, -1 };
    struct stripeawn_proposal proposal = { 0, -1, -1, -1, 0 };

    check(HERE, bounds.lo < 0 && bounds.hi < 0, "bounds have no sign");
    check(HERE, enclosure.lower < 0 && enclosure.upper < 0,
          "ends have no sign");
    check(HERE,
          proposal.angle < 0 && proposal.e_sin < 0 && proposal.e_cos < 0,
          "a proposal has no sign");
}

static void test_codes(void)
{
    named(HERE, STRIPEAWN_DONE, 0);
    named(HERE, STRIPEAWN_BAD_M, 1);
    named(HERE, STRIPEAWN_BAD_A, 2);
    named(HERE, STRIPEAWN_BAD_DEPTH, 3);
    named(HERE, STRIPEAWN_BAD_ESTIMATE, 4);
    named(HERE, STRIPEAWN_BAD_N, 5);
    named(HERE, STRIPEAWN_NO_UPPER_END, 6);
    named(HERE, STRIPEAWN_BAD_LENGTH, 7);
    named(HERE, STRIPEAWN_SHORT_ANSWERS, 8);
    named(HERE, STRIPEAWN_BAD_RESERVED, 9);
    named(HERE, STRIPEAWN_BAD_X, 10);
    named(HERE, STRIPEAWN_NO_FLYBY_END, 15);
    named(HERE, STRIPEAWN_BAD_METHOD, 21);
    named(HERE, STRIPEAWN_NEWTON, 1);
    named(HERE, STRIPEAWN_HALLEY, 2);
    named(HERE, STRIPEAWN_FLAT, 3);
    named(HERE, STRIPEAWN_CONFIRMED, 16);
    named(HERE, STRIPEAWN_REFUTED, 17);
    named(HERE, STRIPEAWN_UNDECIDED, 18);
}

/* One unit and one radian, exact, each from the other. */
static void test_unit(void)
{
    check(HERE, STRIPEAWN_UNIT * STRIPEAWN_RADIAN == 1.0,
          "a radian's units make %a radian",
          STRIPEAWN_UNIT * STRIPEAWN_RADIAN);
    check(HERE, to_bits(STRIPEAWN_UNIT) == UINT64_C(0x3E30000000000000),
          "a unit is %a radian", STRIPEAWN_UNIT);
    check(HERE, 100 * STRIPEAWN_UNIT == units(100), "100 units");
}

static void test_version(void)
{
    char version[40];

    snprintf(version, sizeof version, "%d.%d.%d", STRIPEAWN_VERSION_MAJOR,
             STRIPEAWN_VERSION_MINOR, STRIPEAWN_VERSION_PATCH);
    check(HERE, strcmp(STRIPEAWN_VERSION, version) == 0,
          "version %s, in numbers %s", STRIPEAWN_VERSION, version);
}

/* Names of 0 to 21; what is neither code nor verdict has none. */
static const char *const names[] = {
    "done",
    "M out of range",
    "A, B or e out of range",
    "depth not 1 to 5",
    "estimate out of range",
    "N too large",
    "no enclosure at this depth",
    "claims length no multiple of 20",
    "answers buffer too short",
    "reserved byte not zero",
    "angle X out of range",
    NULL, NULL, NULL, NULL,
    "no enclosure up to 2^29 units",
    "Confirmed",
    "Refuted",
    "Undecided",
    NULL, NULL,
    "method neither 1 nor 2",
};

static void name_is(struct place at, uint32_t number, const char *wanted)
{
    const char *got = stripeawn_name(number);

    check(at, got != NULL && strcmp(got, wanted) == 0,
          "the name of %lu is '%s', wanted '%s'", (unsigned long)number,
          got != NULL ? got : "NULL", wanted);
}

static void test_names(void)
{
    static const uint32_t others[] = { 22, 255, 256, 272, 277, 65536 + 16,
                                       UINT32_C(0x80000000), FAR };
    uint32_t i;

    for (i = 0; i < COUNT(names); i++)
        name_is(HERE, i, names[i] != NULL ? names[i] : "unknown number");
    for (i = 0; i < COUNT(others); i++)
        name_is(HERE, others[i], "unknown number");
}

/* The library is compiled apart: fields must stand where it writes them. */
static void test_layout(void)
{
    named(HERE, sizeof(struct stripeawn_bounds), 24);
    named(HERE, offsetof(struct stripeawn_bounds, lo), 8);
    named(HERE, offsetof(struct stripeawn_bounds, hi), 16);
    named(HERE, sizeof(struct stripeawn_end), 8);
    named(HERE, offsetof(struct stripeawn_end, accepted), 4);
    named(HERE, sizeof(struct stripeawn_enclosure), 12);
    named(HERE, offsetof(struct stripeawn_enclosure, lower), 4);
    named(HERE, offsetof(struct stripeawn_enclosure, upper), 8);
    named(HERE, sizeof(struct stripeawn_proposal), 32);
    named(HERE, offsetof(struct stripeawn_proposal, angle), 4);
    named(HERE, offsetof(struct stripeawn_proposal, e_sin), 8);
    named(HERE, offsetof(struct stripeawn_proposal, e_cos), 16);
    named(HERE, offsetof(struct stripeawn_proposal, j), 24);
    named(HERE, sizeof(struct stripeawn_verdict), 8);
    named(HERE, offsetof(struct stripeawn_verdict, verdict), 4);
    named(HERE, sizeof(struct stripeawn_settled), 12);
    named(HERE, offsetof(struct stripeawn_settled, verdict), 4);
    named(HERE, offsetof(struct stripeawn_settled, depth), 8);
    named(HERE, sizeof(struct stripeawn_off), 12);
    named(HERE, offsetof(struct stripeawn_off, least), 4);
    named(HERE, offsetof(struct stripeawn_off, most), 8);
    named(HERE, sizeof(struct stripeawn_stepped), 16);
    named(HERE, offsetof(struct stripeawn_stepped, step), 4);
    named(HERE, offsetof(struct stripeawn_stepped, estimate), 8);
    named(HERE, sizeof(struct stripeawn_judged_step), 24);
    named(HERE, offsetof(struct stripeawn_judged_step, step), 4);
    named(HERE, offsetof(struct stripeawn_judged_step, estimate), 8);
    named(HERE, offsetof(struct stripeawn_judged_step, verdict), 16);
    named(HERE, sizeof(struct stripeawn_batch), 16);
    named(HERE, offsetof(struct stripeawn_batch, count), 8);
}

/* Where a type differs, this does not compile without a warning. */
static void test_double_entries(void)
{
    struct stripeawn_end (*const ends[])(int32_t, double, double, uint32_t) =
        { stripeawn_lower_end_double, stripeawn_upper_end_double };
    struct stripeawn_enclosure (*const enclose)(double, double, uint32_t) =
        stripeawn_enclose_double;
    struct stripeawn_proposal (*const propose)(double, double) =
        stripeawn_propose_double;
    struct stripeawn_verdict (*const judge)(double, double, double, uint32_t,
                                            uint32_t) =
        stripeawn_judge_double;
    struct stripeawn_settled (*const settle)(double, double, double,
                                             uint32_t) =
        stripeawn_settle_double;
    struct stripeawn_off (*const distance)(double, double, double) =
        stripeawn_distance_double;

    named(HERE, ends[LOWER](1, units(2), 0.0, 5).accepted, 1);
    named(HERE, ends[UPPER](1, units(2), 0.0, 5).accepted, 0);
    named(HERE, enclose(units(2), 0.0, 5).upper, 2);
    named(HERE, propose(1.0, 2.0).code, 2);
    named(HERE, judge(units(2), 0.0, units(3), 1, 5).verdict, 16);
    named(HERE, settle(units(2), 0.0, units(3), 1).depth, 1);
    named(HERE, distance(units(2), 0.0, units(3)).most, 1);
}

/* The same of cosine and steps. */
static void test_step_entries(void)
{
    struct stripeawn_bounds (*const cosine)(uint32_t, uint32_t) =
        stripeawn_cosine;
    struct stripeawn_stepped (*const step)(int32_t, uint32_t, double,
                                           uint32_t) = stripeawn_step;
    struct stripeawn_judged_step (*const judged)(int32_t, uint32_t, double,
                                                 uint32_t, uint32_t,
                                                 uint32_t) =
        stripeawn_step_judged;

    named(HERE, (uint32_t)cosine(1, 5).lo, 268435455);
    named(HERE, step(-2, 0, -1.0, 2).estimate == units(-2), 1);
    named(HERE, judged(-2, 0, -1.0, 2, 0, 5).verdict, 16);
}

/* The same; a width may need more than 32 bits. */
static void test_figure_types(void)
{
    uint64_t (*const greatest_width)(uint32_t) = stripeawn_greatest_width;
    uint32_t (*const least_n)(uint32_t) = stripeawn_least_n;

    named(HERE, greatest_width(1) >> 32, 0);
    named(HERE, greatest_width(268435455) >> 32, 3);
    named(HERE, least_n(1), 2);
}

/* H units as the header writes them out, and pi, which is above them. */
static void test_greatest_m(void)
{
    double greatest = STRIPEAWN_M_MAX * STRIPEAWN_UNIT;
    double pi = PI * STRIPEAWN_RADIAN;

    check(HERE, greatest == 3.14159265160560607910 && greatest == H_DOUBLE,
          "H units are %.20f", greatest);
    check(HERE, pi >= 843314856.53 && pi < 843314856.54, "pi is %f", pi);
    named(HERE, stripeawn_enclose_double(greatest, 1.0, 5).code, 0);
    named(HERE, stripeawn_enclose_double(PI, 1.0, 5).code, 1);
}

/* 360 off an M in degrees, both with a factor of 2^45 as whole numbers. */
static void turn_taken_off(double degrees)
{
    int64_t whole = (int64_t)ldexp(degrees, 45) - (INT64_C(360) << 45);
    double off = degrees - 360;

    check(HERE, ldexp(off, 45) == (double)whole && -180 <= off && off < 0,
          "%a less 360 degrees is %a", degrees, off);
    check(HERE, remainder(degrees, 360.0) == off, "remainder of %a",
          degrees);
}

/* Before converting a turn comes off exactly, and afterwards it does not. */
static void test_turns(void)
{
    double last = nextafter(360.0, 0.0), off = (last - 360) * (PI / 180);
    uint64_t random = 8;
    int i;

    for (i = 0; i < 1000; i++)
        turn_taken_off(180 + ldexp((double)(random_bits(&random) >> 11),
                                   -53) * 180);
    turn_taken_off(last);
    check(HERE, remainder(-725.0, 360.0) == -5, "remainder of -725");
    check(HERE, fabs(last * (PI / 180) - 2 * PI - off) > fabs(off) / 20,
          "2 pi as a double is exact");
}

void test_header(void)
{
    test_limits();
    test_signed_limits();
    test_signed_results();
    test_codes();
    test_unit();
    test_version();
    test_names();
    test_layout();
    test_double_entries();
    test_step_entries();
    test_figure_types();
    test_greatest_m();
    test_turns();
}
