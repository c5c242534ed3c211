/*
** doubles_order.c: the order of codes where M and e are doubles.
*/
#include <float.h>
#include <math.h>

#include "check.h"
#include "order.h"

static const struct value anomalies[] = {
    { 0.0, 0 }, { ABOVE_0, 0 }, { BELOW_H, 0 }, { H_DOUBLE, 0 },
    { ABOVE_H, 1 }, { DBL_MAX, 1 }, { INFINITY, 1 }, { NAN, 1 },
    { -0.0, 0 }, { -ABOVE_0, 0 }, { -1e-300, 0 }, { -H_DOUBLE, 0 },
    { -ABOVE_H, 1 }, { -DBL_MAX, 1 }, { -INFINITY, 1 }, { -NAN, 1 }
};
static const struct value eccentricities[] = {
    { 0.0, 0 }, { -0.0, 0 }, { ABOVE_0, 0 }, { BELOW_1, 0 }, { 1.0, 0 },
    { ABOVE_1, 2 }, { DBL_MAX, 2 }, { INFINITY, 2 }, { NAN, 2 },
    { -ABOVE_0, 2 }, { -1.0, 2 }, { -INFINITY, 2 }, { -NAN, 2 }
};

void test_doubles_order(void)
{
    struct way of_doubles = { 1, anomalies, COUNT(anomalies), eccentricities,
                              COUNT(eccentricities) };

    test_way(of_doubles);
}
