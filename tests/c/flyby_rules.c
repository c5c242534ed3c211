/*
** flyby_rules.c: the rules of flybys, number for number, and one comparison
** for each entry.
*/
#include <inttypes.h>
#include <math.h>

#include "flyby.h"

static uint64_t divided_up(uint64_t number, uint64_t by)
{
    return number / by + (number % by != 0);
}

/* Terms 0 to 9, each from the one before; the last counts twice above. */
struct stripeawn_bounds plain_sinh(uint32_t x)
{
    uint64_t square = (uint64_t)x * x, down = x, up = x, lo = x, hi = x, k;
    struct stripeawn_bounds sums = { 0, 0, 0 };

    for (k = 1; k <= 9; k++) {
        uint64_t divisor = ONE * (2 * k * (2 * k + 1));

        down = down * (square / ONE) / divisor;
        up = divided_up(up * divided_up(square, ONE), divisor);
        lo += down;
        hi += up;
    }
    sums.lo = (int64_t)lo;
    sums.hi = (int64_t)(hi + up);
    return sums;
}

int plain_end(int upper, uint32_t x, struct flyby f)
{
    struct stripeawn_bounds sums = plain_sinh(x);
    int64_t left = ONE * ((int64_t)x + f.m);

    return upper ? left <= f.b * sums.lo : left >= f.b * sums.hi;
}

/* An accepted middle becomes p for a lower end, and q for an upper one. */
static int32_t halved(int upper, struct flyby f)
{
    int32_t p = 0, q = TOP;

    while (q > p + 1) {
        int32_t middle = (p + q) / 2;

        if (plain_end(upper, (uint32_t)middle, f) == upper)
            q = middle;
        else
            p = middle;
    }
    return upper ? q : p;
}

struct stripeawn_enclosure plain_enclosure(struct flyby f)
{
    struct stripeawn_enclosure found = { 0, 0, 0 };

    if (!plain_end(UPPER, TOP, f)) {
        found.code = 15;
        return found;
    }
    found.lower = halved(LOWER, f);
    found.upper = plain_end(UPPER, 0, f) ? 0 : halved(UPPER, f);
    return found;
}

/* An end beyond 0 or the top is none. */
static int is_end(int upper, int64_t x, struct flyby f)
{
    return x >= 0 && x <= TOP && plain_end(upper, (uint32_t)x, f);
}

/* 2^28 times a double is exact, for the least ones too. */
uint32_t plain_verdict(struct flyby f, double estimate, uint32_t n)
{
    int64_t below = (int64_t)floor(estimate * ONE);
    int64_t above = (int64_t)ceil(estimate * ONE);
    int64_t p = above - n, q = below + n;

    if (is_end(LOWER, p < 0 ? 0 : p, f) && is_end(UPPER, q > TOP ? TOP : q, f))
        return 16;
    return is_end(LOWER, q + 1, f) || is_end(UPPER, p - 1, f) ? 17 : 18;
}

uint32_t last_m_above(uint32_t x, uint32_t b)
{
    int64_t last = b * plain_sinh(x).lo / ONE - x;

    return last > MOST_M ? MOST_M : (uint32_t)last;
}

struct flyby random_flyby(uint64_t *state)
{
    uint64_t kind = random_bits(state) % 4, near = random_bits(state) % 32;
    uint32_t excess = (uint32_t)(random_bits(state) % (MOST_B - ONE + 1));
    uint32_t x = (uint32_t)(random_bits(state) % (TOP + 1));
    struct flyby f = { (uint32_t)(random_bits(state) >> 33), ONE + excess };

    if (kind == 0) {
        f.m >>= near;
        f.b = ONE + (excess >> near);
    } else if (kind == 1) {
        f.b = ONE + excess % (UINT32_C(740131758) - ONE);
        f.m = last_m_above(TOP, f.b);
        near = random_bits(state) % (f.m >> near % 24);
        f.m = near % 2 ? f.m + (uint32_t)near : f.m - (uint32_t)near;
    } else if (kind == 2) {
        f.m = last_m_above(x, f.b);
    }
    f.m = f.m > MOST_M ? MOST_M : f.m;
    return f;
}

void sinh_is(struct place at, uint32_t x, uint32_t code, int64_t lo,
             int64_t hi)
{
    struct stripeawn_bounds got = stripeawn_flyby_sinh(x);

    check(at, got.code == code && got.lo == lo && got.hi == hi,
          "sinh x=%" PRIu32 ": code %" PRIu32 " lo %" PRId64 " hi %" PRId64
          ", wanted %" PRIu32 " %" PRId64 " %" PRId64,
          x, got.code, got.lo, got.hi, code, lo, hi);
}

void flyby_end_is(struct place at, int upper, uint32_t x, struct flyby f,
                  uint32_t code, uint32_t accepted)
{
    struct stripeawn_end got = upper ? stripeawn_flyby_upper_end(x, f.m, f.b)
                                     : stripeawn_flyby_lower_end(x, f.m, f.b);

    check(at, got.code == code && got.accepted == accepted,
          "flyby's %s end x=%" PRIu32 " m=%" PRIu32 " b=%" PRIu32
          ": code %" PRIu32 " accepted %" PRIu32 ", wanted %" PRIu32
          " %" PRIu32,
          upper ? "upper" : "lower", x, f.m, f.b, got.code, got.accepted,
          code, accepted);
}

void flyby_enclosure_is(struct place at, struct flyby f, uint32_t code,
                        int32_t lower, int32_t upper)
{
    struct stripeawn_enclosure got = stripeawn_flyby_enclose(f.m, f.b);

    check(at, got.code == code && got.lower == lower && got.upper == upper,
          "flyby m=%" PRIu32 " b=%" PRIu32 ": code %" PRIu32 " lower %" PRId32
          " upper %" PRId32 ", wanted %" PRIu32 " %" PRId32 " %" PRId32,
          f.m, f.b, got.code, got.lower, got.upper, code, lower, upper);
}

void flyby_verdict_is(struct place at, struct flyby f, double estimate,
                      uint32_t n, uint32_t code, uint32_t verdict)
{
    struct stripeawn_verdict got =
        stripeawn_flyby_judge(f.m, f.b, estimate, n);

    check(at, got.code == code && got.verdict == verdict,
          "flyby m=%" PRIu32 " b=%" PRIu32 " estimate=%a n=%" PRIu32
          ": code %" PRIu32 " verdict %" PRIu32 ", wanted %" PRIu32
          " %" PRIu32,
          f.m, f.b, estimate, n, got.code, got.verdict, code, verdict);
}

struct stripeawn_bounds sinh_by_rule(struct place at, uint32_t x)
{
    struct stripeawn_bounds sums = plain_sinh(x);

    sinh_is(at, x, 0, sums.lo, sums.hi);
    return sums;
}

void ends_by_rule(struct place at, uint32_t x, struct flyby f)
{
    flyby_end_is(at, LOWER, x, f, 0, (uint32_t)plain_end(LOWER, x, f));
    flyby_end_is(at, UPPER, x, f, 0, (uint32_t)plain_end(UPPER, x, f));
}

struct stripeawn_enclosure enclosure_by_rule(struct place at, struct flyby f)
{
    struct stripeawn_enclosure found = plain_enclosure(f);

    flyby_enclosure_is(at, f, found.code, found.lower, found.upper);
    return found;
}

uint32_t verdict_by_rule(struct place at, struct flyby f, double estimate,
                         uint32_t n)
{
    uint32_t verdict = plain_verdict(f, estimate, n);

    flyby_verdict_is(at, f, estimate, n, 0, verdict);
    return verdict;
}
