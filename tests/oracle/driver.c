/*
** driver.c: answers requests from standard input by calling the library.
**
** A request is 48 bytes, a reply 40, both in the byte order of x86-64. The
** entry is named by its place in the list below. A batch request is followed
** by its claims and by the bytes of the answers buffer, its reply by the
** answers buffer and the claims as they are after the call.
*/
#include <stdio.h>
#include <stdlib.h>
#include <string.h>

#include "replies.h"
#include "stripeawn.h"

enum entry {
    SINE,
    LOWER_END,
    UPPER_END,
    ENCLOSE,
    PROPOSE,
    JUDGE,
    SETTLE,
    DISTANCE,
    COSINE,
    STEP,
    STEP_JUDGED,
    FLYBY_SINH,
    FLYBY_LOWER_END,
    FLYBY_UPPER_END,
    FLYBY_ENCLOSE,
    FLYBY_JUDGE,
    FIGURES,
    BATCH,
    LOWER_END_DOUBLE,
    UPPER_END_DOUBLE,
    ENCLOSE_DOUBLE,
    PROPOSE_DOUBLE,
    JUDGE_DOUBLE,
    SETTLE_DOUBLE,
    DISTANCE_DOUBLE
};

struct request {
    uint32_t entry;
    int32_t x, m; /* x of sine and cosine: the 32 bits of an unsigned
                     number, as is a step's method, which stands there,
                     and as are x and m of a flyby */
    uint32_t a, n, depth;    /* a is also a flyby's b */
    uint64_t bits;           /* of the estimate */
    uint64_t m_bits, e_bits; /* of M and e as doubles */
};

static void fail(const char *why)
{
    fprintf(stderr, "driver: %s\n", why);
    exit(2);
}

static void write_bytes(const void *bytes, size_t count)
{
    if (count > 0 && fwrite(bytes, 1, count, stdout) != count)
        fail("cannot write");
}

/* A buffer with the next bytes of the input; NULL for none, as is allowed. */
static uint8_t *read_buffer(size_t count)
{
    uint8_t *buffer;

    if (count == 0)
        return NULL;
    buffer = malloc(count);
    if (buffer == NULL)
        fail("no memory");
    if (fread(buffer, 1, count, stdin) != count)
        fail("a batch request ends too early");
    return buffer;
}

static double double_of(uint64_t bits)
{
    double value;

    memcpy(&value, &bits, sizeof value);
    return value;
}

/* a is the length of the claims, n that of the answers, depth their room. */
static void answer_batch(const struct request *r)
{
    uint8_t *claims = read_buffer(r->a);
    uint8_t *answers = read_buffer(r->depth);
    struct stripeawn_batch s;
    struct reply reply = { 0, 0, 0, 0, 0 };

    if (r->n > r->depth)
        fail("a batch request has less room than it says");
    s = stripeawn_judge_claims(claims, r->a, answers, r->n);
    reply.code = s.code;
    reply.first = (int64_t)s.count;
    write_bytes(&reply, sizeof reply);
    write_bytes(answers, r->depth);
    write_bytes(claims, r->a);
    free(claims);
    free(answers);
}

static struct reply ask_double(const struct request *r)
{
    double m = double_of(r->m_bits), e = double_of(r->e_bits);
    struct reply none = { -1, 0, 0, 0, 0 };

    switch (r->entry) {
    case LOWER_END_DOUBLE:
        return of_end(stripeawn_lower_end_double(r->x, m, e, r->depth));
    case UPPER_END_DOUBLE:
        return of_end(stripeawn_upper_end_double(r->x, m, e, r->depth));
    case ENCLOSE_DOUBLE:
        return of_enclosure(stripeawn_enclose_double(m, e, r->depth));
    case PROPOSE_DOUBLE:
        return of_proposal(stripeawn_propose_double(m, e));
    case JUDGE_DOUBLE:
        return of_verdict(stripeawn_judge_double(m, e, double_of(r->bits),
                                                 r->n, r->depth));
    case SETTLE_DOUBLE:
        return of_settled(
            stripeawn_settle_double(m, e, double_of(r->bits), r->n));
    case DISTANCE_DOUBLE:
        return of_off(stripeawn_distance_double(m, e, double_of(r->bits)));
    }
    fail("an unknown entry");
    return none;
}

static struct reply ask_step(const struct request *r)
{
    double estimate = double_of(r->bits);
    uint32_t method = (uint32_t)r->x;

    if (r->entry == STEP)
        return of_stepped(stripeawn_step(r->m, r->a, estimate, method));
    return of_judged_step(stripeawn_step_judged(r->m, r->a, estimate, method,
                                                r->n, r->depth));
}

static struct reply ask_flyby(const struct request *r)
{
    uint32_t x = (uint32_t)r->x, m = (uint32_t)r->m, b = r->a;

    switch (r->entry) {
    case FLYBY_SINH:
        return of_bounds(stripeawn_flyby_sinh(x));
    case FLYBY_LOWER_END:
        return of_end(stripeawn_flyby_lower_end(x, m, b));
    case FLYBY_UPPER_END:
        return of_end(stripeawn_flyby_upper_end(x, m, b));
    case FLYBY_ENCLOSE:
        return of_enclosure(stripeawn_flyby_enclose(m, b));
    default:
        return of_verdict(
            stripeawn_flyby_judge(m, b, double_of(r->bits), r->n));
    }
}

static struct reply ask(const struct request *r)
{
    switch (r->entry) {
    case SINE:
        return of_bounds(stripeawn_sine((uint32_t)r->x, r->depth));
    case COSINE:
        return of_bounds(stripeawn_cosine((uint32_t)r->x, r->depth));
    case STEP:
    case STEP_JUDGED:
        return ask_step(r);
    case LOWER_END:
        return of_end(stripeawn_lower_end(r->x, r->m, r->a, r->depth));
    case UPPER_END:
        return of_end(stripeawn_upper_end(r->x, r->m, r->a, r->depth));
    case ENCLOSE:
        return of_enclosure(stripeawn_enclose(r->m, r->a, r->depth));
    case PROPOSE:
        return of_proposal(stripeawn_propose(r->m, r->a));
    case JUDGE:
        return of_verdict(stripeawn_judge(r->m, r->a, double_of(r->bits),
                                          r->n, r->depth));
    case SETTLE:
        return of_settled(
            stripeawn_settle(r->m, r->a, double_of(r->bits), r->n));
    case DISTANCE:
        return of_off(stripeawn_distance(r->m, r->a, double_of(r->bits)));
    case FLYBY_SINH:
    case FLYBY_LOWER_END:
    case FLYBY_UPPER_END:
    case FLYBY_ENCLOSE:
    case FLYBY_JUDGE:
        return ask_flyby(r);
    case FIGURES:
        return of_figures(stripeawn_greatest_width(r->a),
                          stripeawn_least_n(r->a));
    }
    return ask_double(r);
}

int main(void)
{
    struct request request;
    size_t got;

    while ((got = fread(&request, 1, sizeof request, stdin)) ==
           sizeof request) {
        if (request.entry == BATCH) {
            answer_batch(&request);
        } else {
            struct reply reply = ask(&request);

            write_bytes(&reply, sizeof reply);
        }
    }
    if (got != 0 || ferror(stdin))
        fail("a request ends too early");
    if (fflush(stdout) != 0)
        fail("cannot write");
    return 0;
}
