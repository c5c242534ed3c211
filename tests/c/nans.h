/*
** nans.h: the NaNs that every entry which takes a double has to refuse.
*/
#ifndef NANS_H
#define NANS_H

#include "check.h"

enum { NANS = 12 };

/* Quiet and signalling, with and without payload, of both signs. */
static inline double nan_of(size_t i)
{
    static const uint64_t payloads[NANS / 2] = {
        UINT64_C(0x0000000000000001), UINT64_C(0x0007FFFFFFFFFFFF),
        UINT64_C(0x0008000000000000), UINT64_C(0x0008000000000001),
        UINT64_C(0x000C000012345678), UINT64_C(0x000FFFFFFFFFFFFF),
    };

    return from_bits((i % 2 ? SIGN : 0) | INFINITE | payloads[i / 2]);
}

#endif
