/*
** ends.c: the two end tests.
*/
#include "check.h"

/* A = 2^28, X = 2^28: the M at which each test turns. */
static void test_stated_numbers(void)
{
    lower_is(HERE, ONE, 42554811, ONE, 5, 0, 1);
    lower_is(HERE, ONE, 42554810, ONE, 5, 0, 0);
    upper_is(HERE, ONE, 42554805, ONE, 5, 0, 1);
    upper_is(HERE, ONE, 42554806, ONE, 5, 0, 0);
    lower_is(HERE, ONE, 44739243, ONE, 1, 0, 1);
    lower_is(HERE, ONE, 44739242, ONE, 1, 0, 0);
    upper_is(HERE, ONE, 42502279, ONE, 1, 0, 1);
    upper_is(HERE, ONE, 42502280, ONE, 1, 0, 0);
}

/* With A = 0 the root is M: both ends hold there and nowhere else. */
static void test_circle(void)
{
    static const int32_t anomalies[] = { 1, 2, 12345, ONE, H - 1, H };
    uint32_t depth;
    size_t i;

    for (i = 0; i < COUNT(anomalies); i++)
        for (depth = 1; depth <= 5; depth++) {
            int32_t m = anomalies[i];

            lower_is(HERE, m, m, 0, depth, 0, 1);
            upper_is(HERE, m, m, 0, depth, 0, 1);
            lower_is(HERE, m + 1, m, 0, depth, 0, 0);
            upper_is(HERE, m + 1, m, 0, depth, 0, 1);
            lower_is(HERE, m - 1, m, 0, depth, 0, 1);
            upper_is(HERE, m - 1, m, 0, depth, 0, 0);
        }
}

/* 0 is always a lower end and T never; T is an upper end from depth 4 on. */
static void test_outer_ends(void)
{
    static const uint32_t eccentricities[] = { 0, 1, ONE / 2, ONE - 1, ONE };
    static const int32_t anomalies[] = { 0, 1, ONE, H - 1, H };
    uint32_t depth;
    size_t i, k;

    for (i = 0; i < COUNT(eccentricities); i++)
        for (k = 0; k < COUNT(anomalies); k++)
            for (depth = 1; depth <= 5; depth++) {
                int32_t m = anomalies[k];
                uint32_t a = eccentricities[i];

                lower_is(HERE, 0, m, a, depth, 0, 1);
                lower_is(HERE, T, m, a, depth, 0, 0);
                if (depth >= 4)
                    upper_is(HERE, T, m, a, depth, 0, 1);
                upper_is(HERE, 0, m, a, depth, 0, m == 0);
            }
    upper_is(HERE, T, H, ONE, 1, 0, 0);
    upper_is(HERE, T, H, ONE, 3, 0, 0);
}

/* Accepted lower ends are not one unbroken run. */
static void test_broken_run(void)
{
    lower_is(HERE, 755614006, 734064451, 67147247, 5, 0, 0);
    lower_is(HERE, 755614007, 734064451, 67147247, 5, 0, 1);
}

static void test_limits(void)
{
    lower_is(HERE, 0, H, 0, 1, 0, 1);
    lower_is(HERE, 0, H + 1, 0, 1, 1, 0);
    upper_is(HERE, T, H + 1, 0, 1, 1, 0);
    lower_is(HERE, 0, INT32_MAX, 0, 1, 1, 0);
    upper_is(HERE, 0, INT32_MIN, 0, 1, 1, 0);
    lower_is(HERE, 0, 0, ONE, 1, 0, 1);
    lower_is(HERE, 0, 0, ONE + 1, 1, 2, 0);
    upper_is(HERE, T, 0, ONE + 1, 1, 2, 0);
    lower_is(HERE, 0, 0, 0, 0, 3, 0);
    upper_is(HERE, T, 0, 0, 6, 3, 0);
    lower_is(HERE, 0, 0, 0, 257, 3, 0);
    upper_is(HERE, T, 0, 0, 5, 0, 1);
    upper_is(HERE, T + 1, 0, 0, 5, 10, 0);
    lower_is(HERE, T + 1, H, 0, 5, 10, 0);
    upper_is(HERE, INT32_MAX, 0, 0, 1, 10, 0);
    upper_is(HERE, INT32_MAX, H, 0, 1, 10, 0);
    lower_is(HERE, INT32_MIN, -H, 0, 1, 10, 0);
}

/* An angle on the other side of 0 than M is refused, however small. */
static void test_opposing(void)
{
    static const int32_t opposing[] = { -1, -2, -ONE, -H, -T, -T - 1,
                                        INT32_MIN };
    static const int32_t anomalies[] = { 0, 1, ONE, H };
    size_t i, k;

    for (i = 0; i < COUNT(opposing); i++)
        for (k = 0; k < COUNT(anomalies); k++) {
            lower_is(HERE, opposing[i], anomalies[k], 0, 5, 10, 0);
            upper_is(HERE, opposing[i], anomalies[k], ONE, 1, 10, 0);
        }
}

void test_ends(void)
{
    test_stated_numbers();
    test_circle();
    test_outer_ends();
    test_broken_run();
    test_limits();
    test_opposing();
}
