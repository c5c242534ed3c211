/*
** order.h: what the tests of the order of codes share.
*/
#ifndef ORDER_H
#define ORDER_H

#include <stddef.h>
#include <stdint.h>

/* A value of an input and the code it is due, 0 for a good one. */
struct value {
    double value;
    uint32_t code;
};

/* A way to give M and the eccentricity: values of both, good and bad. */
struct way {
    int is_double;
    const struct value *m;
    size_t m_count;
    const struct value *e;
    size_t e_count;
};

#define EACH(i, table) for (i = 0; i < COUNT(table); i++)

/* The first code that is not 0, or 0. */
uint32_t first(const uint32_t *codes, size_t count);

/* The code that an estimate is due beside M. */
uint32_t estimate_code(double estimate, double m);

/* Every entry that takes M: all its inputs against each other. */
void test_way(struct way way);

#endif
