/*
** buffers.c: what the batch reads and writes of lent memory.
*/
#define _DEFAULT_SOURCE
#include <string.h>
#include <sys/mman.h>

#include "check.h"

#define PAINT 0xA5

/* Some claims with different answers, M below 0 in the last ones. */
enum { CLAIMS = 12 };
static const uint8_t wanted[CLAIMS] = { 16, 17, 18, 9, 1, 2, 3, 4,
                                        16, 18, 1,  4 };

static void put_claims(uint8_t *claims)
{
    put_claim(claims, 0, 0, 0.0, 0, 1, 0);
    put_claim(claims + 20, 5, 0, 0.0, 4, 1, 0);
    put_claim(claims + 40, 0, ONE, 0.0, 1, 5, 0);
    put_claim(claims + 60, H + 1, ONE + 1, -1.0, 0, 0, 1);
    put_claim(claims + 80, H + 1, ONE + 1, -1.0, 0, 0, 0);
    put_claim(claims + 100, H, ONE + 1, -1.0, 0, 0, 0);
    put_claim(claims + 120, H, ONE, -1.0, 0, 0, 0);
    put_claim(claims + 140, H, ONE, -1.0, 0, 5, 0);
    put_claim(claims + 160, -5, 0, 0.0, 5, 1, 0);
    put_claim(claims + 180, -1, ONE, units(-850000), 1000, 5, 0);
    put_claim(claims + 200, INT32_MIN, 0, 0.0, 0, 1, 0);
    put_claim(claims + 220, -H, ONE, 1.0, 0, 5, 0);
}

/* A call on a painted buffer: code, count and every byte afterwards. */
static void call_is(struct place at, size_t claims_len, size_t answers_len,
                    uint32_t code)
{
    uint8_t claims[20 * CLAIMS], claims_before[20 * CLAIMS];
    uint8_t answers[32], answers_wanted[32];
    size_t count = code == 0 ? claims_len / 20 : 0;
    struct stripeawn_batch got;

    put_claims(claims);
    memcpy(claims_before, claims, sizeof claims);
    memset(answers, PAINT, sizeof answers);
    memset(answers_wanted, PAINT, sizeof answers);
    memcpy(answers_wanted, wanted, count);
    got = stripeawn_judge_claims(claims, claims_len, answers, answers_len);
    check(at, got.code == code && got.count == count,
          "batch of %lu bytes, room %lu: code %lu count %llu",
          (unsigned long)claims_len, (unsigned long)answers_len,
          (unsigned long)got.code, (unsigned long long)got.count);
    check(at, memcmp(answers, answers_wanted, sizeof answers) == 0,
          "batch of %lu bytes, room %lu: wrong bytes in the answers",
          (unsigned long)claims_len, (unsigned long)answers_len);
    check(at, memcmp(claims, claims_before, sizeof claims) == 0,
          "the claims were changed");
}

/* Every length of claims against every room up to one more than all. */
static void test_lengths(void)
{
    size_t claims_len, answers_len;

    for (claims_len = 0; claims_len <= 20 * CLAIMS; claims_len++)
        for (answers_len = 0; answers_len <= CLAIMS + 1; answers_len++) {
            uint32_t code = claims_len % 20 != 0            ? 7
                            : answers_len < claims_len / 20 ? 8
                                                            : 0;

            call_is(HERE, claims_len, answers_len, code);
        }
}

/* Bad records don't come before 7 and 8, which read none. */
static void test_refusal_before_records(void)
{
    uint8_t claims[41], answers[2] = { PAINT, PAINT };
    struct stripeawn_batch got;

    memset(claims, 0xFF, sizeof claims);
    got = stripeawn_judge_claims(claims, 41, answers, 0);
    check(HERE, got.code == 7 && got.count == 0, "code %lu, wanted 7",
          (unsigned long)got.code);
    got = stripeawn_judge_claims(claims, 40, answers, 1);
    check(HERE, got.code == 8 && got.count == 0, "code %lu, wanted 8",
          (unsigned long)got.code);
    check(HERE, answers[0] == PAINT && answers[1] == PAINT,
          "a refusal wrote an answer");
    got = stripeawn_judge_claims(claims, 40, answers, 2);
    check(HERE, got.code == 0 && answers[0] == 9 && answers[1] == 9,
          "reserved bytes not answered by 9");
}

static void test_empty(void)
{
    uint8_t claims = PAINT, answers = PAINT;
    struct stripeawn_batch got;

    got = stripeawn_judge_claims(&claims, 0, &answers, 0);
    check(HERE, got.code == 0 && got.count == 0, "empty batch");
    got = stripeawn_judge_claims(&claims, 0, &answers, 1);
    check(HERE, got.code == 0 && got.count == 0, "empty batch with room");
    check(HERE, answers == PAINT && claims == PAINT, "an empty batch wrote");
    got = stripeawn_judge_claims(&claims, 1, &answers, 0);
    check(HERE, got.code == 7 && got.count == 0, "one byte of claims");
}

/* Nothing to answer and a painted byte that must stay so. */
static void nothing_answered(struct place at, const uint8_t *claims,
                             size_t claims_len, uint8_t *answers,
                             size_t answers_len, uint32_t code)
{
    struct stripeawn_batch got =
        stripeawn_judge_claims(claims, claims_len, answers, answers_len);

    check(at, got.code == code && got.count == 0,
          "code %lu count %llu, wanted %lu and 0", (unsigned long)got.code,
          (unsigned long long)got.count, (unsigned long)code);
    check(at, answers == NULL || *answers == PAINT, "an answer was written");
}

/* With length 0 either pointer may be NULL, or both. */
static void test_null(void)
{
    uint8_t claims[40], answer = PAINT;

    memset(claims, 0, sizeof claims);
    nothing_answered(HERE, NULL, 0, NULL, 0, 0);
    nothing_answered(HERE, NULL, 0, &answer, 0, 0);
    nothing_answered(HERE, NULL, 0, &answer, 1, 0);
    nothing_answered(HERE, claims, 0, NULL, 0, 0);
    nothing_answered(HERE, claims, 1, NULL, 0, 7);
    nothing_answered(HERE, claims, 19, NULL, 0, 7);
    nothing_answered(HERE, claims, 20, NULL, 0, 8);
    nothing_answered(HERE, claims, 21, NULL, 0, 7);
    nothing_answered(HERE, claims, 40, NULL, 0, 8);
}

/*
** A buffer between two stretches of memory that cannot be touched; the
** stretches are 64 KiB, which is a whole number of pages on any machine.
*/
enum { STRETCH = 65536 };

static uint8_t *guarded(void)
{
    uint8_t *start = mmap(NULL, 3 * STRETCH, PROT_NONE,
                          MAP_PRIVATE | MAP_ANONYMOUS, -1, 0);

    if (start == MAP_FAILED ||
        mprotect(start + STRETCH, STRETCH, PROT_READ | PROT_WRITE) != 0)
        return NULL;
    return start + STRETCH;
}

/* Both buffers end, then begin, at the guard; the claims are read-only. */
static void test_guarded(void)
{
    size_t claims_len = 20 * CLAIMS;
    uint8_t *claims = guarded(), *answers = guarded();
    uint8_t *late_claims, *late_answers;

    check(HERE, claims != NULL && answers != NULL, "no guarded memory");
    if (claims == NULL || answers == NULL)
        return;
    late_claims = claims + STRETCH - claims_len;
    late_answers = answers + STRETCH - CLAIMS;
    put_claims(claims);
    put_claims(late_claims);
    check(HERE, mprotect(claims, STRETCH, PROT_READ) == 0,
          "the claims cannot be made read-only");
    stripeawn_judge_claims(late_claims, claims_len, late_answers, CLAIMS);
    check(HERE, memcmp(late_answers, wanted, CLAIMS) == 0,
          "answers at the end of memory");
    stripeawn_judge_claims(claims, claims_len, answers, CLAIMS);
    check(HERE, memcmp(answers, wanted, CLAIMS) == 0,
          "answers at the start of memory");
    munmap(claims - STRETCH, 3 * STRETCH);
    munmap(answers - STRETCH, 3 * STRETCH);
}

/* Claims may stand at any address. */
static void test_unaligned(void)
{
    uint8_t space[20 * CLAIMS + 16], answers[CLAIMS];
    size_t shift;

    for (shift = 0; shift < 16; shift++) {
        put_claims(space + shift);
        memset(answers, PAINT, sizeof answers);
        stripeawn_judge_claims(space + shift, 20 * CLAIMS, answers, CLAIMS);
        check(HERE, memcmp(answers, wanted, CLAIMS) == 0,
              "claims at an odd address, shift %lu", (unsigned long)shift);
    }
}

void test_buffers(void)
{
    test_lengths();
    test_refusal_before_records();
    test_empty();
    test_null();
    test_guarded();
    test_unaligned();
}
