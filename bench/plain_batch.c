/*
** plain_batch.c: claim records, the batch of plain.h.
*/
#include <string.h>

#include "plain.h"

/* A number of the given size, lowest byte first. */
static uint64_t number(const uint8_t *bytes, int size)
{
    uint64_t value = 0;

    while (size > 0)
        value = value << 8 | bytes[--size];
    return value;
}

/* The answer byte of one record. */
static uint8_t answer_of(const uint8_t *record)
{
    uint64_t bits = number(record + 8, 8);
    struct stripeawn_verdict v;
    double estimate;

    if (record[19] != 0)
        return 9;
    memcpy(&estimate, &bits, sizeof estimate);
    v = plain_judge((int32_t)number(record, 4),
                    (uint32_t)number(record + 4, 4), estimate,
                    (uint32_t)number(record + 16, 2), record[18]);
    return (uint8_t)(v.code != 0 ? v.code : v.verdict);
}

struct stripeawn_batch plain_judge_claims(const uint8_t *claims,
                                          size_t claims_len,
                                          uint8_t *answers,
                                          size_t answers_len)
{
    struct stripeawn_batch batch = { 0, 0 };
    size_t count = claims_len / STRIPEAWN_CLAIM_BYTES;
    size_t i;

    if (claims_len % STRIPEAWN_CLAIM_BYTES != 0)
        batch.code = 7;
    else if (answers_len < count)
        batch.code = 8;
    if (batch.code != 0)
        return batch;
    for (i = 0; i < count; i++)
        answers[i] = answer_of(claims + i * STRIPEAWN_CLAIM_BYTES);
    batch.count = count;
    return batch;
}
