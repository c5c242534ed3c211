/*
** flyby_header.c: the limits of flybys as the header names them, and the
** types of the entries.
*/
#include "flyby.h"

static void test_limits(void)
{
    check(HERE, STRIPEAWN_FLYBY_M_MAX == UINT32_C(2147483647),
          "the greatest M of a flyby is %lu",
          (unsigned long)STRIPEAWN_FLYBY_M_MAX);
    check(HERE, STRIPEAWN_FLYBY_X_MAX == 536870912,
          "the greatest x of a flyby is %ld", (long)STRIPEAWN_FLYBY_X_MAX);
    check(HERE, STRIPEAWN_FLYBY_B_MIN == UINT32_C(268435456),
          "the least B is %lu", (unsigned long)STRIPEAWN_FLYBY_B_MIN);
    check(HERE, STRIPEAWN_FLYBY_B_MAX == UINT32_C(1073741824),
          "the greatest B is %lu", (unsigned long)STRIPEAWN_FLYBY_B_MAX);
    check(HERE, STRIPEAWN_FLYBY_X_MAX * STRIPEAWN_UNIT == 2.0,
          "the greatest x is %f radians",
          STRIPEAWN_FLYBY_X_MAX * STRIPEAWN_UNIT);
}

/* Ends are signed, so the limit they compare with is; M and B are not. */
static void test_signs(void)
{
    static const int32_t below[] = { -1, -TOP, INT32_MIN };
    size_t i;

    for (i = 0; i < COUNT(below); i++)
        check(HERE, !(below[i] > STRIPEAWN_FLYBY_X_MAX),
              "%ld is above the greatest x", (long)below[i]);
    check(HERE, STRIPEAWN_FLYBY_M_MAX + 1 == UINT32_C(0x80000000),
          "the first M that is too great is no number");
}

/* Where a type differs, this does not compile without a warning. */
static void test_entries(void)
{
    struct stripeawn_bounds (*const bounds)(uint32_t) = stripeawn_flyby_sinh;
    struct stripeawn_end (*const ends[])(uint32_t, uint32_t, uint32_t) =
        { stripeawn_flyby_lower_end, stripeawn_flyby_upper_end };
    struct stripeawn_enclosure (*const enclose)(uint32_t, uint32_t) =
        stripeawn_flyby_enclose;
    struct stripeawn_verdict (*const judge)(uint32_t, uint32_t, double,
                                            uint32_t) = stripeawn_flyby_judge;

    check(HERE, bounds(TOP).hi == 973577934, "sinh by its type");
    check(HERE, ends[LOWER](ONE, 47030220, ONE).accepted == 1,
          "a lower end by its type");
    check(HERE, ends[UPPER](ONE, 47030220, ONE).accepted == 0,
          "an upper end by its type");
    check(HERE, enclose(MOST_M, MOST_B).lower == 432299576,
          "an enclosure by its type");
    check(HERE, judge(0, ONE, units(7), 6).verdict == 17,
          "a verdict by its type");
}

void test_flyby_header(void)
{
    test_limits();
    test_signs();
    test_entries();
}
