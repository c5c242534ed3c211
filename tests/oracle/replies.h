/*
** replies.h: the driver's reply, made of a result of the library.
*/
#ifndef REPLIES_INCLUDED
#define REPLIES_INCLUDED

#include <string.h>

#include "stripeawn.h"

struct reply {
    int64_t code, first, second, third, fourth;
};

static int64_t bits_of(double value)
{
    int64_t bits;

    memcpy(&bits, &value, sizeof bits);
    return bits;
}

static struct reply of_bounds(struct stripeawn_bounds s)
{
    struct reply reply = { s.code, s.lo, s.hi, 0, 0 };

    return reply;
}

static struct reply of_end(struct stripeawn_end s)
{
    struct reply reply = { s.code, s.accepted, 0, 0, 0 };

    return reply;
}

static struct reply of_enclosure(struct stripeawn_enclosure s)
{
    struct reply reply = { s.code, s.lower, s.upper, 0, 0 };

    return reply;
}

static struct reply of_proposal(struct stripeawn_proposal s)
{
    struct reply reply = { s.code, s.angle, s.e_sin, s.e_cos, s.j };

    return reply;
}

static struct reply of_verdict(struct stripeawn_verdict s)
{
    struct reply reply = { s.code, s.verdict, 0, 0, 0 };

    return reply;
}

static struct reply of_settled(struct stripeawn_settled s)
{
    struct reply reply = { s.code, s.verdict, s.depth, 0, 0 };

    return reply;
}

static struct reply of_off(struct stripeawn_off s)
{
    struct reply reply = { s.code, s.least, s.most, 0, 0 };

    return reply;
}

static struct reply of_stepped(struct stripeawn_stepped s)
{
    struct reply reply = { s.code, s.step, bits_of(s.estimate), 0, 0 };

    return reply;
}

static struct reply of_judged_step(struct stripeawn_judged_step s)
{
    struct reply reply = { s.code, s.step, bits_of(s.estimate), s.verdict, 0 };

    return reply;
}

static struct reply of_figures(uint64_t width, uint32_t n)
{
    struct reply reply = { 0, (int64_t)width, n, 0, 0 };

    return reply;
}

#endif
