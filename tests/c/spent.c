/*
** spent.c: where sine's terms are spent no deeper bound is better. First
** bounds that are written out, at the angles beside which that turns. Then
** many angles with end tests that just hold or just fail: held to sums of all
** the terms up to the depth that spends them, and from there on to the answer
** at that depth.
*/
#include "check.h"

/* Lo and Hi at depths 1 to last, whose bounds every greater depth has too. */
struct stated {
    int32_t x;
    uint32_t last;
    int64_t lo[5], hi[5];
};

/*
** Of each number of pairs: the greatest angle at which they spend the terms,
** the greatest at which the last term is 0 rounded down, and the least at
** which the next depth has a better bound, with the angles beside them.
*/
static const struct stated all_stated[] = {
    /* to 756153 term 1 is 0 rounded down and, from 1 on, 1 rounded up */
    { 0, 1, { 0 }, { 0 } },
    { 1, 1, { 0 }, { 2 } },
    { 756153, 1, { 756152 }, { 756154 } },
    { 756154, 1, { 756152 }, { 756155 } },
    { 1048575, 1, { 1048572 }, { 1048574 } },
    { 1048576, 1, { 1048573 }, { 1048575 } },
    /* spent after one pair up to 14417715 */
    { 14417714, 1, { 14410782 }, { 14410784 } },
    { 14417715, 1, { 14410783 }, { 14410785 } },
    { 14417716, 1, { 14410783 }, { 14410787 } },
    { 14418413, 1, { 14411479 }, { 14411483 } },
    { 14418414, 1, { 14411480 }, { 14411483 } },
    { 16562165, 1, { 16551656 }, { 16551661 } },
    { 16562166, 2, { 16551657, 16551658 }, { 16551661, 16551661 } },
    { 16562933, 2, { 16552423, 16552424 }, { 16552427, 16552427 } },
    /* spent after two pairs up to 128808899 */
    { 128808898, 2, { 123865716, 123922313 }, { 123922627, 123922317 } },
    { 128808899, 2, { 123865717, 123922314 }, { 123922628, 123922318 } },
    { 128808900, 2, { 123865717, 123922313 }, { 123922630, 123922321 } },
    { 128868146, 2, { 123918139, 123974865 }, { 123975182, 123974872 } },
    { 128868147, 2, { 123918140, 123974867 }, { 123975183, 123974872 } },
    { 139161674, 2, { 132928231, 133011457 }, { 133011998, 133011466 } },
    { 139161675, 3,
      { 132928232, 133011459, 133011460 },
      { 133011998, 133011465, 133011465 } },
    /* spent after three up to 341821575 */
    { 341821574, 3,
      { 249443819, 256644230, 256650645 },
      { 256933385, 256650745, 256650651 } },
    { 341821575, 3,
      { 249443819, 256644230, 256650645 },
      { 256933386, 256650746, 256650652 } },
    { 341821576, 3,
      { 249443819, 256644231, 256650645 },
      { 256933386, 256650747, 256650654 } },
    { 342147060, 3,
      { 249505164, 256739368, 256745837 },
      { 257030458, 256745943, 256745849 } },
    { 342147061, 3,
      { 249505165, 256739370, 256745840 },
      { 257030458, 256745942, 256745847 } },
    { 360625617, 3,
      { 252148355, 261516784, 261527154 },
      { 261937442, 261527332, 261527163 } },
    { 360625618, 4,
      { 252148355, 261516784, 261527154, 261527155 },
      { 261937442, 261527332, 261527162, 261527162 } },
    /* spent after four up to 614482590 */
    { 614482589, 4,
      { 77824427, 200888759, 202104682, 202106673 },
      { 218431497, 202165510, 202106733, 202106684 } },
    { 614482590, 4,
      { 77824426, 200888759, 202104682, 202106673 },
      { 218431496, 202165509, 202106732, 202106683 } },
    { 614482591, 4,
      { 77824424, 200888759, 202104683, 202106673 },
      { 218431495, 202165508, 202106732, 202106684 } },
    { 615309524, 4,
      { 76481835, 200328896, 201559459, 201561484 },
      { 218037558, 201621194, 201561548, 201561499 } },
    { 615309525, 4,
      { 76481833, 200328895, 201559459, 201561485 },
      { 218037558, 201621193, 201561546, 201561496 } },
    { 640968177, 4,
      { 31882486, 181947803, 183717630, 183721068 },
      { 205519210, 183814385, 183721174, 183721082 } },
    { 640968178, 5,
      { 31882484, 181947801, 183717629, 183721068, 183721069 },
      { 205519210, 183814384, 183721172, 183721079, 183721079 } },
};

/* With A = 2^28 the tests turn at M = X - Lo and at M = X - Hi. */
static void turns_at(int32_t x, int64_t lo, int64_t hi, uint32_t depth)
{
    int32_t low = (int32_t)(x - lo), high = (int32_t)(x - hi);

    lower_is(HERE, x, low, ONE, depth, 0, 1);
    if (low > 0)
        lower_is(HERE, x, low - 1, ONE, depth, 0, 0);
    if (high >= 0)
        upper_is(HERE, x, high, ONE, depth, 0, 1);
    if (high >= -1)
        upper_is(HERE, x, high + 1, ONE, depth, 0, 0);
}

static void test_stated_numbers(void)
{
    uint32_t depth;
    size_t i;

    for (i = 0; i < COUNT(all_stated); i++)
        for (depth = 1; depth <= 5; depth++) {
            struct stated s = all_stated[i];
            uint32_t at = (depth < s.last ? depth : s.last) - 1;

            sine_is(HERE, (uint32_t)s.x, depth, 0, s.lo[at], s.hi[at]);
            turns_at(s.x, s.lo[at], s.hi[at], depth);
        }
}

/* Lo and Hi by depth, and after how many pairs the terms are spent. */
struct sums {
    int64_t lo[6], hi[6];
    uint32_t spent;
};

/* What term k is divided by, 2^28 included. */
static uint64_t divisor(uint32_t k)
{
    return (uint64_t)ONE * (2 * k * (2 * k + 1));
}

/* One term further, rounded down and up. */
static void next_term(uint64_t x, uint32_t k, uint64_t *down, uint64_t *up)
{
    uint64_t floor = x * x / ONE, ceiling = (x * x + ONE - 1) / ONE;

    *down = *down * floor / divisor(k);
    *up = (*up * ceiling + divisor(k) - 1) / divisor(k);
}

/* All ten terms, whether they are spent or not. */
static struct sums sums_of(int32_t x)
{
    struct sums s = { { INT64_MIN }, { INT64_MAX }, 0 };
    uint64_t angle = (uint64_t)x, down = angle, up = angle;
    int64_t low = 0, high = x;
    uint32_t depth;

    for (depth = 1; depth <= 5; depth++) {
        low += (int64_t)down;
        next_term(angle, 2 * depth - 1, &down, &up);
        low -= (int64_t)up;
        high -= (int64_t)down;
        next_term(angle, 2 * depth, &down, &up);
        high += (int64_t)up;
        s.lo[depth] = low > s.lo[depth - 1] ? low : s.lo[depth - 1];
        s.hi[depth] = high < s.hi[depth - 1] ? high : s.hi[depth - 1];
        if (s.spent == 0 && down == 0 && up <= 1)
            s.spent = depth;
    }
    return s;
}

static void spent_sine(int32_t x, struct sums s)
{
    struct stripeawn_bounds last = stripeawn_sine((uint32_t)x, s.spent);
    uint32_t depth;

    for (depth = 1; depth <= s.spent; depth++)
        sine_is(HERE, (uint32_t)x, depth, 0, s.lo[depth], s.hi[depth]);
    for (; depth <= 5; depth++)
        sine_is(HERE, (uint32_t)x, depth, last.code, last.lo, last.hi);
}

/* From the depth that spends the terms on, each end's answer stays. */
static void ends_stay(int32_t x, struct given g, uint32_t spent)
{
    struct stripeawn_end lower = end_of(LOWER, x, g, spent);
    struct stripeawn_end upper = end_of(UPPER, x, g, spent);
    uint32_t depth;

    for (depth = spent + 1; depth <= 5; depth++) {
        given_end_is(HERE, LOWER, x, g, depth, lower.code, lower.accepted);
        given_end_is(HERE, UPPER, x, g, depth, upper.code, upper.accepted);
    }
}

/* How many close tests accepted, and how many refused, each end. */
static unsigned long answered[2][2];

static void spent_ends(int32_t x, int32_t m, uint32_t a, struct sums s)
{
    int64_t left = (int64_t)ONE * (x - m);
    uint32_t depth;

    for (depth = 1; depth <= s.spent; depth++) {
        int lower = left <= a * s.lo[depth], upper = left >= a * s.hi[depth];

        lower_is(HERE, x, m, a, depth, 0, (uint32_t)lower);
        upper_is(HERE, x, m, a, depth, 0, (uint32_t)upper);
        answered[LOWER][lower]++;
        answered[UPPER][upper]++;
    }
    ends_stay(x, grid(m, a), s.spent);
    ends_stay(x, as_doubles(grid(m, a)), s.spent);
}

/* Each M at which a bound's test turns, and two units on either side. */
static void close_to(int32_t x, int64_t bound, uint32_t a, struct sums s)
{
    int64_t product = a * bound, rest = (product % ONE + ONE) % ONE;
    int64_t m = x - (product - rest) / ONE - 2, end = m + 4;

    for (; m <= end; m++)
        if (m >= 0 && m <= H)
            spent_ends(x, (int32_t)m, a, s);
}

static void spent_angle(int32_t x)
{
    static const uint32_t eccentricities[] = { ONE, ONE - 3, 187654321 };
    struct sums s = sums_of(x);
    uint32_t depth;
    size_t i;

    check(HERE, s.spent != 0, "the terms at %ld are not spent", (long)x);
    if (s.spent == 0)
        return;
    spent_sine(x, s);
    for (i = 0; i < COUNT(eccentricities); i++)
        for (depth = 1; depth <= s.spent; depth++) {
            close_to(x, s.lo[depth], eccentricities[i], s);
            close_to(x, s.hi[depth], eccentricities[i], s);
        }
}

/* The written-out angles are those at which the number of pairs turns. */
static void test_greatest(void)
{
    static const int32_t greatest[] = { 14417715, 128808899, 341821575,
                                        614482590, T };
    uint32_t i;

    for (i = 0; i < COUNT(greatest); i++) {
        uint32_t at = sums_of(greatest[i]).spent;
        uint32_t above = sums_of(greatest[i] + 1).spent;

        check(HERE, at == i + 1 && (above == i + 2 || greatest[i] == T),
              "spent after %lu pairs at %ld, and after %lu one above",
              (unsigned long)at, (long)greatest[i], (unsigned long)above);
    }
}

/* Small angles, those around each angle that is written out, and the rest. */
static void test_angles(void)
{
    int32_t x, off;
    size_t i;

    for (x = 0; x < 1 << 20; x += 4099)
        spent_angle(x);
    for (i = 0; i < COUNT(all_stated); i++)
        for (off = -2; off <= 2; off++)
            if (all_stated[i].x + off >= 0)
                spent_angle(all_stated[i].x + off);
    for (x = 1 << 20; x < T; x += 8388593)
        spent_angle(x);
    spent_angle(T);
    for (i = 0; i < 4; i++)
        check(HERE, answered[i / 2][i % 2] > 10000,
              "only %lu close tests of %s ends answered %d",
              answered[i / 2][i % 2], i / 2 == UPPER ? "upper" : "lower",
              (int)(i % 2));
}

void test_spent(void)
{
    test_stated_numbers();
    test_greatest();
    test_angles();
}
