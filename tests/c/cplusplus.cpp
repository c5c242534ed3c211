// cplusplus.cpp: the header in a C++ program, with calls of every entry, for
// M of either sign where it has one. Every code is held to the one that is
// due, 0 or another.
#include <cstdio>
#include <cstring>
#include <limits>
#include <vector>

#include "stripeawn.h"

typedef std::vector<uint8_t> bytes;

static int failed = 0;

// One call: its code, and whether its numbers are right.
static void check(const char *call, uint32_t code, uint32_t due, bool right)
{
    if (code == due && right)
        return;
    failed++;
    std::printf("cplusplus.cpp: FAILED: %s: code %lu (%s)\n", call,
                static_cast<unsigned long>(code), stripeawn_name(code));
}

// Every entry with numbers, answered.
static void answered()
{
    stripeawn_bounds s = stripeawn_sine(1, 1);
    stripeawn_bounds c = stripeawn_cosine(1, 1);
    stripeawn_end l = stripeawn_lower_end(0, 0, 0, 1);
    stripeawn_end u = stripeawn_upper_end(1, 2, 0, 1);
    stripeawn_enclosure e = stripeawn_enclose(7, 0, 5);
    stripeawn_proposal p = stripeawn_propose(1, STRIPEAWN_A_MAX);
    stripeawn_verdict v = stripeawn_judge(7, 0, 7 * STRIPEAWN_UNIT, 0, 5);
    stripeawn_settled d = stripeawn_settle(7, 0, 7 * STRIPEAWN_UNIT, 0);
    stripeawn_off o = stripeawn_distance(7, 0, 9.5 * STRIPEAWN_UNIT);

    check("sine", s.code, 0, s.lo == 0 && s.hi == 2);
    check("cosine", c.code, 0, c.lo == 268435455 && c.hi == 268435457);
    check("lower_end", l.code, 0, l.accepted == 1);
    check("upper_end", u.code, 0, u.accepted == 0);
    check("enclose", e.code, 0, e.lower == 7 && e.upper == 7);
    check("propose", p.code, 0, p.angle == 1048514 && p.e_sin == 1048514 &&
                                    p.e_cos == 268433424 && p.j == 19);
    check("judge", v.code, 0, v.verdict == STRIPEAWN_CONFIRMED);
    check("settle", d.code, 0, d.verdict == STRIPEAWN_CONFIRMED &&
                                   d.depth == 1);
    check("distance", o.code, 0, o.least == 2 && o.most == 3);
}

// The entries that take M, answered for M below 0.
static void mirrored()
{
    stripeawn_end l = stripeawn_lower_end(-1, -2, 0, 1);
    stripeawn_end u = stripeawn_upper_end(0, -2, 0, 1);
    stripeawn_enclosure e = stripeawn_enclose(-1, STRIPEAWN_A_MAX, 5);
    stripeawn_proposal p = stripeawn_propose(-1, STRIPEAWN_A_MAX);
    stripeawn_verdict v = stripeawn_judge(-7, 0, -7 * STRIPEAWN_UNIT, 0, 5);
    stripeawn_settled d = stripeawn_settle(-7, 0, -9 * STRIPEAWN_UNIT, 1);
    stripeawn_off o = stripeawn_distance(-7, 0, -9.5 * STRIPEAWN_UNIT);

    check("lower_end, M < 0", l.code, 0, l.accepted == 0);
    check("upper_end, M < 0", u.code, 0, u.accepted == 1);
    check("enclose, M < 0", e.code, 0, e.lower == -952744 &&
                                           e.upper == -756153);
    check("propose, M < 0", p.code, 0, p.angle == -1048514 &&
                                           p.e_sin == -1048514 &&
                                           p.e_cos == 268433424 && p.j == 19);
    check("judge, M < 0", v.code, 0, v.verdict == STRIPEAWN_CONFIRMED);
    check("settle, M < 0", d.code, 0, d.verdict == STRIPEAWN_REFUTED &&
                                          d.depth == 1);
    check("distance, M < 0", o.code, 0, o.least == 2 && o.most == 3);
}

// The same entries, refused.
static void refused()
{
    const int32_t m = STRIPEAWN_M_MAX, x = STRIPEAWN_X_MAX;
    stripeawn_bounds s = stripeawn_sine(x + 1, 1);
    stripeawn_bounds c = stripeawn_cosine(x + 1, 1);
    stripeawn_end l = stripeawn_lower_end(x + 1, m, 0, 1);
    stripeawn_end u = stripeawn_upper_end(x, m + 1, 0, 1);
    stripeawn_enclosure e = stripeawn_enclose(m, STRIPEAWN_A_MAX, 1);
    stripeawn_proposal p = stripeawn_propose(m, STRIPEAWN_A_MAX + 1);
    stripeawn_verdict v = stripeawn_judge(m, 0, -1.0, 0, 5);
    stripeawn_settled d = stripeawn_settle(m, 0, -1.0, 0);
    stripeawn_off o = stripeawn_distance(m, 0, -1.0);
    stripeawn_end opposing = stripeawn_lower_end(1, -m, 0, 1);
    stripeawn_enclosure least = stripeawn_enclose(INT32_MIN, 0, 1);

    check("bad sine", s.code, 10, s.lo == 0 && s.hi == 0);
    check("bad cosine", c.code, 10, c.lo == 0 && c.hi == 0);
    check("bad lower_end", l.code, 10, l.accepted == 0);
    check("bad upper_end", u.code, 1, u.accepted == 0);
    check("bad enclose", e.code, 6, e.lower == 0 && e.upper == 0);
    check("bad propose", p.code, 2, p.angle == 0 && p.e_sin == 0 &&
                                        p.e_cos == 0 && p.j == 0);
    check("bad judge", v.code, 4, v.verdict == 0);
    check("bad settle", d.code, 4, d.verdict == 0 && d.depth == 0);
    check("bad distance", o.code, 4, o.least == 0 && o.most == 0);
    check("opposing x", opposing.code, 10, opposing.accepted == 0);
    check("least M", least.code, 1, least.lower == 0 && least.upper == 0);
}

// Steps from 1 radian to M, where A is 0, and one that is flat.
static void steps()
{
    const double seven = 7 * STRIPEAWN_UNIT;
    stripeawn_stepped s = stripeawn_step(7, 0, 1.0, STRIPEAWN_NEWTON);
    stripeawn_stepped mirror = stripeawn_step(-7, 0, -1.0, STRIPEAWN_HALLEY);
    stripeawn_stepped flat =
        stripeawn_step(0, STRIPEAWN_A_MAX, 0.0, STRIPEAWN_HALLEY);
    stripeawn_judged_step j =
        stripeawn_step_judged(7, 0, 1.0, STRIPEAWN_HALLEY, 0, 5);
    stripeawn_judged_step none =
        stripeawn_step_judged(0, STRIPEAWN_A_MAX, 0.0, STRIPEAWN_NEWTON, 0, 5);

    check("step", s.code, 0, s.step == 1 && s.estimate == seven);
    check("step, M < 0", mirror.code, 0, mirror.step == 2 &&
                                             mirror.estimate == -seven);
    check("flat step", flat.code, 0, flat.step == 3 && flat.estimate == 0);
    check("step_judged", j.code, 0, j.step == 2 && j.estimate == seven &&
                                        j.verdict == STRIPEAWN_CONFIRMED);
    check("flat step_judged", none.code, 0,
          none.step == 3 && none.estimate == 0 && none.verdict == 0);
}

static void refused_steps()
{
    const double nan = std::numeric_limits<double>::quiet_NaN();
    stripeawn_stepped s = stripeawn_step(7, 0, 1.0, STRIPEAWN_FLAT);
    stripeawn_stepped no = stripeawn_step(7, 0, nan, 0);
    stripeawn_judged_step j = stripeawn_step_judged(7, 0, 1.0, 0, 0, 5);
    stripeawn_judged_step d = stripeawn_step_judged(7, 0, nan, 0, 65536, 6);

    check("bad step", s.code, 21, s.step == 0 && s.estimate == 0);
    check("step from no number", no.code, 4, no.step == 0 &&
                                                 no.estimate == 0);
    check("bad step_judged", j.code, 21,
          j.step == 0 && j.estimate == 0 && j.verdict == 0);
    check("step_judged of no depth", d.code, 3,
          d.step == 0 && d.estimate == 0 && d.verdict == 0);
}

// M and e as doubles, off the grid, M of either sign.
static void doubles()
{
    stripeawn_end l = stripeawn_lower_end_double(169340758, 0.1, 0.9, 5);
    stripeawn_end u = stripeawn_upper_end_double(-169340758, -0.1, 0.9, 5);
    stripeawn_enclosure e = stripeawn_enclose_double(0.1, 0.9, 5);
    stripeawn_enclosure mirror = stripeawn_enclose_double(-0.1, 0.9, 5);
    stripeawn_proposal p = stripeawn_propose_double(-0.1, 0.9);
    stripeawn_verdict v =
        stripeawn_judge_double(0.1, 0.9, 169340769 * STRIPEAWN_UNIT, 11, 5);
    stripeawn_settled d =
        stripeawn_settle_double(0.1, 0.9, 169340769 * STRIPEAWN_UNIT, 11);
    stripeawn_off o =
        stripeawn_distance_double(0.1, 0.9, 169340792 * STRIPEAWN_UNIT);

    check("lower_end_double", l.code, 0, l.accepted == 1);
    check("upper_end_double", u.code, 0, u.accepted == 1);
    check("enclose_double", e.code, 0, e.lower == 169340758 &&
                                           e.upper == 169340780);
    check("enclose_double, M < 0", mirror.code, 0,
          mirror.lower == -169340780 && mirror.upper == -169340758);
    check("propose_double, M < 0", p.code, 0,
          p.angle == -169340770 && p.e_sin == -142497227 &&
              p.e_cos == 195092774 && p.j == 4);
    check("judge_double", v.code, 0, v.verdict == STRIPEAWN_CONFIRMED);
    check("settle_double", d.code, 0, d.verdict == STRIPEAWN_CONFIRMED &&
                                          d.depth == 3);
    check("distance_double", o.code, 0, o.least == 12 && o.most == 34);
}

static void refused_doubles()
{
    const double nan = std::numeric_limits<double>::quiet_NaN();
    const double top = STRIPEAWN_M_MAX * STRIPEAWN_UNIT;
    stripeawn_end l = stripeawn_lower_end_double(1, -1e-300, 0.5, 5);
    stripeawn_end u = stripeawn_upper_end_double(0, nan, nan, 5);
    stripeawn_enclosure e = stripeawn_enclose_double(top, 1.0, 1);
    stripeawn_enclosure pi =
        stripeawn_enclose_double(3.14159265358979323846, 1.0, 5);
    stripeawn_proposal p = stripeawn_propose_double(top, nan);
    stripeawn_verdict v = stripeawn_judge_double(top, 1.0, nan, 0, 5);
    stripeawn_settled d = stripeawn_settle_double(top, nan, nan, 0);
    stripeawn_off o = stripeawn_distance_double(top, nan, nan);

    check("bad lower_end_double", l.code, 10, l.accepted == 0);
    check("bad upper_end_double", u.code, 1, u.accepted == 0);
    check("bad enclose_double", e.code, 6, e.lower == 0 && e.upper == 0);
    check("pi", pi.code, 1, pi.lower == 0 && pi.upper == 0);
    check("bad propose_double", p.code, 2, p.angle == 0 && p.e_sin == 0 &&
                                               p.e_cos == 0 && p.j == 0);
    check("bad judge_double", v.code, 4, v.verdict == 0);
    check("bad settle_double", d.code, 2, d.verdict == 0 && d.depth == 0);
    check("bad distance_double", o.code, 2, o.least == 0 && o.most == 0);
}

// The entries of flybys, answered and refused.
static void flybys()
{
    const uint32_t one = STRIPEAWN_FLYBY_B_MIN, m = STRIPEAWN_FLYBY_M_MAX;
    stripeawn_bounds s = stripeawn_flyby_sinh(STRIPEAWN_FLYBY_X_MAX);
    stripeawn_end l = stripeawn_flyby_lower_end(0, 7, one);
    stripeawn_end u = stripeawn_flyby_upper_end(0, 7, m);
    stripeawn_enclosure e = stripeawn_flyby_enclose(m, STRIPEAWN_FLYBY_B_MAX);
    stripeawn_enclosure no = stripeawn_flyby_enclose(m, one);
    stripeawn_verdict v = stripeawn_flyby_judge(0, one, 0.001953125, 1000);
    stripeawn_verdict bad = stripeawn_flyby_judge(0, one, -1.0, 1000);

    check("flyby_sinh", s.code, 0, s.lo == 973577924 && s.hi == 973577934);
    check("flyby_lower_end", l.code, 0, l.accepted == 1);
    check("bad flyby_upper_end", u.code, 2, u.accepted == 0);
    check("flyby_enclose", e.code, 0, e.lower == 432299576 &&
                                          e.upper == 432299581);
    check("no flyby_enclose", no.code, 15, no.lower == 0 && no.upper == 0);
    check("flyby_judge", v.code, 0, v.verdict == STRIPEAWN_REFUTED);
    check("bad flyby_judge", bad.code, 4, bad.verdict == 0);
}

// A batch over whole vectors; the data of an empty one may be NULL.
static void batch(const char *call, const bytes &claims, bytes &answers,
                  uint32_t due, const bytes &wanted)
{
    stripeawn_batch b = stripeawn_judge_claims(claims.data(), claims.size(),
                                               answers.data(),
                                               answers.size());
    uint64_t count = due == 0 ? claims.size() / STRIPEAWN_CLAIM_BYTES : 0;

    check(call, b.code, due, b.count == count && answers == wanted);
}

static void batches()
{
    const bytes none, painted(3, 0xA5);
    bytes claims(2 * STRIPEAWN_CLAIM_BYTES), empty, room = painted, due;

    claims[18] = 1; // a depth in the first record, none in the second
    due.push_back(STRIPEAWN_CONFIRMED);
    due.push_back(STRIPEAWN_BAD_DEPTH);
    due.push_back(0xA5);
    batch("no claims, no room", none, empty, 0, none);
    batch("no claims", none, room, 0, painted);
    batch("no room", claims, empty, 8, none);
    batch("two claims", claims, room, 0, due);
    claims.pop_back();
    room = painted;
    batch("cut claims, no room", claims, empty, 7, none);
    batch("cut claims", claims, room, 7, painted);
}

static void figures()
{
    uint64_t width = stripeawn_greatest_width(STRIPEAWN_A_MAX - 1);
    uint32_t n = stripeawn_least_n(STRIPEAWN_A_MAX / 2);

    check("greatest_width", 0, 0, width == UINT64_C(17179869121) &&
                                      stripeawn_greatest_width(0) == 2);
    check("least_n", 0, 0, n == 65 && stripeawn_least_n(0) == 1);
    check("no figures", 0, 0,
          stripeawn_greatest_width(STRIPEAWN_A_MAX) == 0 &&
              stripeawn_least_n(STRIPEAWN_A_MAX) == 0);
}

static void names()
{
    check("name", 0, 0, std::strcmp(stripeawn_name(16), "Confirmed") == 0);
    check("name of a code", 0, 0,
          std::strcmp(stripeawn_name(21), "method neither 1 nor 2") == 0);
    check("no name", 0, 0,
          std::strcmp(stripeawn_name(11), "unknown number") == 0);
}

int main()
{
    answered();
    mirrored();
    refused();
    steps();
    refused_steps();
    doubles();
    refused_doubles();
    flybys();
    batches();
    figures();
    names();
    return failed != 0;
}
