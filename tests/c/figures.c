/*
** figures.c: the greatest width of an enclosure and the least tolerance that
** confirms every right answer, and that the answers at depth 5 keep to them:
** a right answer is confirmed, and a wrong one refuted.
*/
#include <inttypes.h>
#include <math.h>

#include "check.h"

static void figures_are(struct place at, uint32_t a, uint64_t width,
                        uint32_t n)
{
    uint64_t got_width = stripeawn_greatest_width(a);
    uint32_t got_n = stripeawn_least_n(a);

    check(at, got_width == width && got_n == n,
          "a=%" PRIu32 ": greatest width %" PRIu64 ", least n %" PRIu32
          ", wanted %" PRIu64 " and %" PRIu32,
          a, got_width, got_n, width, n);
}

/* The header's table, where A is 2^28 e rounded down. */
static void test_table(void)
{
    static const struct { double e; uint32_t a, width, n; } rows[] = {
        { 0.0, 0, 2, 1 },
        { 0.5, 134217728, 65, 65 },
        { 0.9, 241591910, 577, 577 },
        { 0.99, 265751101, 6337, 6337 },
        { 0.999, 268167020, 63937, 63937 },
    };
    size_t i;

    for (i = 0; i < COUNT(rows); i++) {
        check(HERE, (uint32_t)(rows[i].e * 268435456.0) == rows[i].a,
              "e=%g: %" PRIu32 " is not A", rows[i].e, rows[i].a);
        figures_are(HERE, rows[i].a, rows[i].width, rows[i].n);
    }
}

/* Both sides of N's limit, of T and of 2^32, and no figure from e = 1 up. */
static void test_figures_at_limits(void)
{
    figures_are(HERE, 0, 2, 1);
    figures_are(HERE, 1, 2, 2);
    figures_are(HERE, 2, 2, 2);
    figures_are(HERE, 4129776, 2, 2);
    figures_are(HERE, 4129777, 3, 3);
    figures_are(HERE, 134217728, 65, 65);
    figures_are(HERE, 134217729, 66, 66);
    figures_are(HERE, 268173559, 65535, 65535);
    figures_are(HERE, 268173560, 65536, 0);
    figures_are(HERE, 268435435, 818088946, 0);
    figures_are(HERE, 268435436, 858993397, 0);
    figures_are(HERE, 268435452, UINT64_C(4294967233), 0);
    figures_are(HERE, 268435453, UINT64_C(5726622999), 0);
    figures_are(HERE, 268435455, UINT64_C(17179869121), 0);
    figures_are(HERE, 268435456, 0, 0);
    figures_are(HERE, 268435457, 0, 0);
    figures_are(HERE, FAR, 0, 0);
}

/*
** A width of v + 1 is allowed where A (v + 63) > (v - 1) 2^28. So each figure
** has a last A, and the A after it has the next figure.
*/
static void test_steps(void)
{
    uint32_t v;

    for (v = 2; v <= 65535; v++) {
        uint32_t last = (uint32_t)((v - 1) * (uint64_t)ONE / (v + 63));

        figures_are(HERE, last, v, v);
        figures_are(HERE, last + 1, v + 1, v < 65535 ? v + 1 : 0);
    }
}

/* Each is allowed by its inequality, and one more or one less is not. */
static void by_inequalities(uint32_t a)
{
    int64_t room = ONE - (int64_t)a, spare = 64 * (int64_t)a;
    int64_t w = (int64_t)stripeawn_greatest_width(a);
    int64_t n = stripeawn_least_n(a);

    check(HERE,
          (w == 2 || (w > 2 && (w - 2) * room < spare)) &&
              (w - 1) * room >= spare,
          "a=%" PRIu32 ": %" PRId64 " is not the greatest width", a, w);
    check(HERE,
          n == 0 ? 65534 * room < spare
                 : (n - 1) * room >= spare && (n - 2) * room < spare,
          "a=%" PRIu32 ": %" PRId64 " is not the least n", a, n);
}

/* From one A to a greater one neither falls, as long as it exists. */
static void not_falling(uint32_t a, uint32_t b)
{
    uint32_t n = stripeawn_least_n(a), next = stripeawn_least_n(b);

    check(HERE, stripeawn_greatest_width(a) <= stripeawn_greatest_width(b),
          "the greatest width falls from a=%" PRIu32 " to %" PRIu32, a, b);
    check(HERE, next == 0 || (n != 0 && n <= next),
          "the least n falls from a=%" PRIu32 " to %" PRIu32, a, b);
}

/* About every power of 2, from 0 up and from 2^28 down; and all between. */
static void test_inequalities(void)
{
    uint64_t random = 63;
    uint32_t i;

    for (i = 0; i < 3 * 28; i++) {
        uint32_t edge = (UINT32_C(1) << i / 3) - 1 + i % 3;

        by_inequalities(edge);
        by_inequalities(ONE - 1 - edge);
    }
    for (i = 0; i < 20000; i++) {
        uint32_t a = (uint32_t)(random_bits(&random) % (ONE - 1));
        uint32_t more = (uint32_t)(random_bits(&random) % (ONE - 1 - a));

        by_inequalities(a);
        not_falling(a, a + 1);
        not_falling(a, a + 1 + more);
    }
}

/* An orbit on the grid, 2^28 - A, and the ends of its enclosure. */
struct orbit {
    int32_t m;
    int64_t a, room, lower, upper;
};

/* The verdict that an estimate of x units is promised, or 0. */
static uint32_t promised(const struct orbit *o, double x, int64_t n)
{
    int64_t f = (int64_t)floor(x), c = (int64_t)ceil(x);

    if (o->lower <= f && c <= o->upper && (n - 1) * o->room >= 64 * o->a)
        return 16;
    if ((o->lower - (f + n + 1)) * o->room >= 32 * o->a ||
        ((c - n - 1) - o->upper) * o->room >= 32 * o->a)
        return 17;
    return 0;
}

/* What was met, for M from 0 up and for M below 0. */
enum { WIDE, AT_END, WHOLE, BETWEEN_UNITS, BELOW, ABOVE, KINDS };

static const char *const kinds[KINDS] = {
    "enclosures wider than 2 units", "right answers at an end",
    "right answers in whole units", "right answers between units",
    "wrong answers below the ends", "wrong answers above the ends",
};

static unsigned long met[2][KINDS];

static int kind_of(const struct orbit *o, double x)
{
    if (x < o->lower)
        return BELOW;
    if (x > o->upper)
        return ABOVE;
    if (x == o->lower || x == o->upper)
        return AT_END;
    return x == floor(x) ? WHOLE : BETWEEN_UNITS;
}

/* What is promised, where the estimate is within its limits. */
static void claim_kept(const struct orbit *o, double x, uint32_t n)
{
    uint32_t verdict = promised(o, x, n);
    double size = o->m < 0 ? -x : x;

    if (verdict == 0 || size < 0 || size > T)
        return;
    verdict_is(HERE, o->m, (uint32_t)o->a, x * STRIPEAWN_UNIT, n, 5, 0,
               verdict);
    met[o->m < 0][kind_of(o, x)]++;
}

/* From end to end, and about the least distance outside that is promised. */
static void tolerance_kept(const struct orbit *o, uint32_t n)
{
    int64_t away = n + 1 + (32 * o->a + o->room - 1) / o->room;
    double width = (double)(o->upper - o->lower), part, off;

    for (part = 0; part <= 1; part += 0.125)
        claim_kept(o, o->lower + part * width, n);
    for (off = -1; off <= 1; off += 0.5) {
        claim_kept(o, o->lower - away + off, n);
        claim_kept(o, o->upper + away - off, n);
    }
}

static void orbit_kept(int32_t m, uint32_t a)
{
    struct stripeawn_enclosure e = stripeawn_enclose(m, a, 5);
    struct orbit o = { m, a, ONE - (int64_t)a, e.lower, e.upper };
    uint64_t width = (uint64_t)(o.upper - o.lower);
    uint32_t least = stripeawn_least_n(a);
    uint32_t tolerances[] = { 0, 1, 1000, least,
                              least < 65535 ? least + 1 : least, 65535 };
    size_t i;

    check(HERE, e.code == 0 && width <= stripeawn_greatest_width(a),
          "m=%" PRId32 " a=%" PRIu32 ": code %" PRIu32 ", width %" PRIu64,
          m, a, e.code, width);
    met[m < 0][WIDE] += width > 2;
    for (i = 0; i < COUNT(tolerances); i++)
        tolerance_kept(&o, tolerances[i]);
}

/* M of a few hundred units or of any size, A close to 2^28 or to 0, or 0. */
static struct given near_limits(uint64_t *random)
{
    uint64_t bits = random_bits(random);
    int32_t m = (int32_t)(random_bits(random) % (bits & 1 ? 1024 : H + 1));
    uint32_t near = (UINT32_C(1) << (bits >> 8) % 29) / 2;

    return grid(bits & 2 ? -m : m, bits & 12 ? ONE - near : near);
}

static void test_kept(void)
{
    uint64_t random = 64;
    int i;

    for (i = 0; i < 4000; i++) {
        struct given g = i % 2 ? near_limits(&random)
                               : brought_to_grid(random_doubles(&random));

        if (g.e < ONE)
            orbit_kept((int32_t)g.m, (uint32_t)g.e);
    }
    for (i = 0; i < 2 * KINDS; i++)
        check(HERE, met[i % 2][i / 2] > 1000, "M %s: %lu %s",
              i % 2 ? "below 0" : "from 0 up", met[i % 2][i / 2],
              kinds[i / 2]);
}

/* An orbit too wide for w - less and factor in the place of w - 2 and 64. */
static void too_wide(struct place at, int32_t m, uint32_t a, int32_t less,
                     int64_t factor)
{
    struct stripeawn_enclosure e = stripeawn_enclose(m, a, 5);
    int64_t width = e.upper - e.lower, room = ONE - (int64_t)a;

    check(at, width > less && (width - less) * room >= factor * a,
          "m=%" PRId32 " a=%" PRIu32 ": width %" PRId64, m, a, width);
}

static void test_lesser_width(void)
{
    enclosure_is(HERE, 808404641, 17526361, 5, 0, 810539270, 810539273);
    too_wide(HERE, 808404641, 17526361, 2, 14);
    enclosure_is(HERE, 369556279, 57803, 5, 0, 369612998, 369613000);
    too_wide(HERE, 369556279, 57803, 1, 64);
    too_wide(HERE, 1, 1, 0, 64);
}

/* Right answers that a lesser n, at e = 1 even the greatest, leaves open. */
static void test_lesser_n(void)
{
    enclosure_is(HERE, 257812739, 1570330, 5, 0, 259103838, 259103840);
    figures_are(HERE, 1570330, 2, 2);
    verdict_is(HERE, 257812739, 1570330, units(259103838), 1, 5, 0, 18);
    verdict_is(HERE, 257812739, 1570330, units(259103838), 2, 5, 0, 16);
    verdict_is(HERE, 808404641, 17526361, units(810539270), 2, 5, 0, 18);
    verdict_is(HERE, 808404641, 17526361, units(810539270), 6, 5, 0, 16);
    verdict_is(HERE, 0, ONE, 0.0, 65535, 5, 0, 18);
}

/* Wrong answers with N = 0: more than 1 unit outside is not enough. */
static void test_lesser_distance(void)
{
    enclosure_is(HERE, 73434105, 200644510, 5, 0, 220152631, 220152638);
    verdict_is(HERE, 73434105, 200644510, units(220152628), 0, 5, 0, 18);
    verdict_is(HERE, 73434105, 200644510, units(220152535), 0, 5, 0, 17);
    verdict_is(HERE, -73434105, 200644510, units(-220152628), 0, 5, 0, 18);
    enclosure_is(HERE, 827412201, 141580206, 5, 0, 832902554, 832902558);
    verdict_is(HERE, 827412201, 141580206, units(832902560), 0, 5, 0, 18);
    verdict_is(HERE, 827412201, 141580206, units(832902595), 0, 5, 0, 17);
}

void test_figures(void)
{
    test_table();
    test_figures_at_limits();
    test_steps();
    test_inequalities();
    test_kept();
    test_lesser_width();
    test_lesser_n();
    test_lesser_distance();
}
