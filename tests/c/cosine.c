/*
** cosine.c: bounds of cosine: numbers that are written out, each limit on
** both sides of it, and over the whole range the sums of all the terms and
** the cosine of the mathematical library.
*/
#include <inttypes.h>
#include <math.h>

#include "check.h"

static void cosine_is(struct place at, uint32_t x, uint32_t depth,
                      uint32_t code, int64_t lo, int64_t hi)
{
    struct stripeawn_bounds got = stripeawn_cosine(x, depth);

    check(at, got.code == code && got.lo == lo && got.hi == hi,
          "cosine x=%" PRIu32 " depth=%" PRIu32 ": code %" PRIu32
          " lo %" PRId64 " hi %" PRId64 ", wanted %" PRIu32 " %" PRId64
          " %" PRId64,
          x, depth, got.code, got.lo, got.hi, code, lo, hi);
}

/* Lo and Hi at depths 1 to last, whose bounds every greater depth has too. */
struct stated {
    uint32_t x, last;
    int64_t lo[5], hi[5];
};

static const struct stated all_stated[] = {
    { 0, 1, { 268435456 }, { 268435456 } },
    { 1, 1, { 268435455 }, { 268435457 } },
    /* the last raw bounds are 268434940 and 268434949: the best ones stay */
    { 524288, 1, { 268434944 }, { 268434945 } },
    { ONE, 3,
      { 134217728, 145029710, 145036293 },
      { 145402539, 145036370, 145036298 } },
    /* a right angle, and nearly two: below zero, and past one radian */
    { 421657428, 4,
      { -62733514, -240124, -128, -4 },
      { 5360378, 6644, 6, 6 } },
    { H, 5,
      { -1056240422, -325170055, -268926456, -268436579, -268435462 },
      { 33261818, -261998965, -268408482, -268435414, -268435450 } },
    { T - 1, 5,
      { -1056240620, -325170089, -268926457, -268436580, -268435463 },
      { 33261946, -261998960, -268408482, -268435414, -268435450 } },
    { T, 5,
      { -1056240623, -325170089, -268926457, -268436580, -268435463 },
      { 33261948, -261998959, -268408481, -268435413, -268435449 } },
    /* spent after one pair up to 4641734; depth 2 is better from 5520023 */
    { 4641734, 1, { 268395324 }, { 268395326 } },
    { 4641735, 1, { 268395323 }, { 268395326 } },
    { 5520022, 1, { 268378700 }, { 268378704 } },
    { 5520023, 2, { 268378699, 268378700 }, { 268378703, 268378703 } },
    /* after two up to 89301474 */
    { 89301474, 2, { 253581320, 253717808 }, { 253718316, 253717812 } },
    { 89301475, 2, { 253581320, 253717808 }, { 253718316, 253717813 } },
    { 97404086, 3,
      { 250763505, 250956553, 250956554 },
      { 250957407, 250956559, 250956559 } },
    /* after three up to 281537481 */
    { 281537481, 3,
      { 120795955, 133833342, 133842969 },
      { 134329577, 133843093, 133842975 } },
    { 281537482, 3,
      { 120795954, 133833341, 133842968 },
      { 134329577, 133843093, 133842976 } },
    { 298521115, 4,
      { 102446101, 118847713, 118863072, 118863073 },
      { 119552925, 118863291, 118863080, 118863080 } },
    /* after four up to 542239754 */
    { 542239754, 4,
      { -279226830, -118332202, -116570305, -116567777 },
      { -93003304, -116486625, -116567712, -116567768 } },
    { 542239755, 4,
      { -279226832, -118332204, -116570307, -116567780 },
      { -93003305, -116486626, -116567713, -116567768 } },
    { 566871896, 5,
      { -330113915, -140741691, -138238992, -138234693, -138234692 },
      { -107675992, -138108511, -138234577, -138234682, -138234682 } },
};

static void test_stated_numbers(void)
{
    uint32_t depth;
    size_t i;

    for (i = 0; i < COUNT(all_stated); i++)
        for (depth = 1; depth <= 5; depth++) {
            struct stated s = all_stated[i];
            uint32_t at = (depth < s.last ? depth : s.last) - 1;

            cosine_is(HERE, s.x, depth, 0, s.lo[at], s.hi[at]);
        }
}

/* T is taken and T + 1 is not, depths 1 and 5 are and 0 and 6 are not. */
static void test_limits(void)
{
    cosine_is(HERE, T, 5, 0, -268435463, -268435449);
    cosine_is(HERE, T + 1, 5, 10, 0, 0);
    cosine_is(HERE, T + 1, 1, 10, 0, 0);
    cosine_is(HERE, INT32_MAX, 5, 10, 0, 0);
    cosine_is(HERE, UINT32_C(0x80000000), 5, 10, 0, 0);
    cosine_is(HERE, FAR, 1, 10, 0, 0);
    cosine_is(HERE, ONE, 0, 3, 0, 0);
    cosine_is(HERE, ONE, 1, 0, 134217728, 145402539);
    cosine_is(HERE, ONE, 5, 0, 145036293, 145036298);
    cosine_is(HERE, ONE, 6, 3, 0, 0);
    cosine_is(HERE, ONE, FAR, 3, 0, 0);
    /* depth 1 and angle 0 if only the low bytes were read */
    cosine_is(HERE, ONE, 257, 3, 0, 0);
    cosine_is(HERE, ONE, UINT32_C(65537), 3, 0, 0);
}

/* A bad depth comes before a bad angle, whichever they are. */
static void test_code_order(void)
{
    static const uint32_t depths[] = { 1, 2, 5, 0, 6, 257, 65537, FAR };
    static const uint32_t angles[] = { 0, T, T + 1, INT32_MAX, FAR };
    size_t d, x;

    for (d = 0; d < COUNT(depths); d++)
        for (x = 0; x < COUNT(angles); x++) {
            uint32_t code = d > 2 ? 3 : x > 1 ? 10 : 0;

            if (code != 0)
                cosine_is(HERE, angles[x], depths[d], code, 0, 0);
            else
                check(HERE, stripeawn_cosine(angles[x], depths[d]).code == 0,
                      "cosine refuses good input");
        }
}

/* What term k is divided by, 2^28 included. */
static uint64_t divisor(uint32_t k)
{
    return (uint64_t)ONE * ((2 * k - 1) * (2 * k));
}

/* One term further, rounded down and up. */
static void next_term(uint64_t x, uint32_t k, uint64_t *down, uint64_t *up)
{
    uint64_t floor = x * x / ONE, ceiling = (x * x + ONE - 1) / ONE;

    *down = *down * floor / divisor(k);
    *up = (*up * ceiling + divisor(k) - 1) / divisor(k);
}

/* How many depths had a worse raw bound than a lesser one, low and high. */
static unsigned long worse[2];

/* The rule: all terms of each depth, and the best bounds so far. */
static void by_sums(uint32_t x)
{
    uint64_t down = ONE, up = ONE;
    int64_t low = 0, high = ONE, lo = INT64_MIN, hi = INT64_MAX;
    uint32_t depth;

    for (depth = 1; depth <= 5; depth++) {
        low += (int64_t)down;
        next_term(x, 2 * depth - 1, &down, &up);
        low -= (int64_t)up;
        high -= (int64_t)down;
        next_term(x, 2 * depth, &down, &up);
        high += (int64_t)up;
        worse[0] += low < lo;
        worse[1] += high > hi;
        lo = low > lo ? low : lo;
        hi = high < hi ? high : hi;
        cosine_is(HERE, x, depth, 0, lo, hi);
    }
}

/* Small angles, those around each angle that is written out, and the rest. */
static void test_sums(void)
{
    uint32_t x, off;
    size_t i;

    for (x = 0; x < 1 << 20; x += 997)
        by_sums(x);
    for (i = 0; i < COUNT(all_stated); i++)
        for (off = 0; off <= 6; off++)
            if (all_stated[i].x + off >= 3 && all_stated[i].x + off - 3 <= T)
                by_sums(all_stated[i].x + off - 3);
    for (x = 1 << 20; x < T; x += 104729)
        by_sums(x);
    check(HERE, worse[0] > 1000 && worse[1] > 1000,
          "only %lu raw low and %lu raw high bounds get worse", worse[0],
          worse[1]);
}

/*
** Ordered, better with depth, about the cosine, and 26 apart at depth 5. The
** library's cosine, in units, is off by far less than a thousandth.
*/
static void shape_is(uint32_t x)
{
    struct stripeawn_bounds last = { 0, INT64_MIN, INT64_MAX };
    double cosine = cos(x * STRIPEAWN_UNIT) * ONE;
    uint32_t depth;

    for (depth = 1; depth <= 5; depth++) {
        struct stripeawn_bounds next = stripeawn_cosine(x, depth);

        check(HERE,
              next.code == 0 && last.lo <= next.lo && next.lo <= next.hi &&
                  next.hi <= last.hi,
              "cosine x=%" PRIu32 " is not better at depth %" PRIu32, x,
              depth);
        check(HERE,
              (double)next.lo <= cosine + 0.001 &&
                  cosine - 0.001 <= (double)next.hi,
              "cosine x=%" PRIu32 " is %f, outside its bounds at depth %"
              PRIu32, x, cosine, depth);
        last = next;
    }
    check(HERE, last.hi - last.lo <= 26,
          "cosine x=%" PRIu32 " is wide at depth 5", x);
}

static void test_shape(void)
{
    uint32_t x;

    for (x = 0; x < T - 104729; x += 104729)
        shape_is(x);
    for (x = T - 2000; x <= T; x++)
        shape_is(x);
}

void test_cosine(void)
{
    test_stated_numbers();
    test_limits();
    test_code_order();
    test_sums();
    test_shape();
}
