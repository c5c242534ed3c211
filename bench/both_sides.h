/*
** both_sides.h: the same loop over the inputs, with the library and with the
** plain C version.
*/
#ifndef BOTH_SIDES_H
#define BOTH_SIDES_H

#include "inputs.h"
#include "plain.h"

/*
** Two passes: CALL gives the sum of one call's numbers with the entry named by
** the prefix P, stripeawn or plain.
*/
#define BOTH_SIDES(name, CALL)                                              \
    static uint64_t library_##name(void)                                    \
    {                                                                       \
        uint64_t sum = 0;                                                   \
        int i;                                                              \
        for (i = 0; i < INPUTS; i++)                                        \
            CALL(stripeawn)                                                 \
        return sum;                                                         \
    }                                                                       \
    static uint64_t plain_##name##_pass(void)                               \
    {                                                                       \
        uint64_t sum = 0;                                                   \
        int i;                                                              \
        for (i = 0; i < INPUTS; i++)                                        \
            CALL(plain)                                                     \
        return sum;                                                         \
    }

#endif
