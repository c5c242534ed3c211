/*
** batch.c: claim records and the bytes that answer them.
*/
#include <string.h>

#include "check.h"

/* Two claims as bytes: all zero at depth 1, and a flattered guess. */
static const uint8_t stated_batch[40] = {
    0, 0, 0, 0, 0, 0, 0, 0, 0, 0, 0, 0, 0, 0, 0, 0, 0, 0, 0x01, 0,
    0, 0, 0, 0, 0, 0, 0, 0x10, 0, 0, 0, 0, 0, 0, 0x60, 0x3F,
    0xE8, 0x03, 0x05, 0
};

/* Claims with M below 0, again as bytes, and what is due to each. */
static const uint8_t negative_batch[] = {
    /* M = -5, A = 0, estimate -5 units, N = 0, depth 1 */
    0xFB, 0xFF, 0xFF, 0xFF, 0, 0, 0, 0, 0, 0, 0, 0, 0, 0, 0x54, 0xBE,
    0, 0, 0x01, 0,
    /* the same with an estimate of 5 units, which opposes M */
    0xFB, 0xFF, 0xFF, 0xFF, 0, 0, 0, 0, 0, 0, 0, 0, 0, 0, 0x54, 0x3E,
    0, 0, 0x01, 0,
    /* M = -1, A = 2^28, estimate -2^-8, N = 1000, depth 5 */
    0xFF, 0xFF, 0xFF, 0xFF, 0, 0, 0, 0x10, 0, 0, 0, 0, 0, 0, 0x70, 0xBF,
    0xE8, 0x03, 0x05, 0,
    /* M = -H, estimate 0 */
    0x58, 0x09, 0xBC, 0xCD, 0, 0, 0, 0, 0, 0, 0, 0, 0, 0, 0, 0,
    0, 0, 0x01, 0,
    /* M = -H - 1, and the least number */
    0x57, 0x09, 0xBC, 0xCD, 0, 0, 0, 0, 0, 0, 0, 0, 0, 0, 0, 0,
    0, 0, 0x01, 0,
    0, 0, 0, 0x80, 0, 0, 0, 0, 0, 0, 0, 0, 0, 0, 0, 0,
    0, 0, 0x01, 0,
};
static const uint8_t negative_answers[] = { 16, 4, 17, 17, 1, 1 };

static void batch_is(struct place at, struct stripeawn_batch got,
                     uint32_t code, uint64_t count)
{
    check(at, got.code == code && got.count == count,
          "batch gives code %lu count %llu, wanted %lu %llu",
          (unsigned long)got.code, (unsigned long long)got.count,
          (unsigned long)code, (unsigned long long)count);
}

static void test_stated_numbers(void)
{
    uint8_t answers[4] = { 0xEE, 0xEE, 0xEE, 0xEE };

    batch_is(HERE, stripeawn_judge_claims(stated_batch, 40, answers, 4), 0, 2);
    check(HERE, answers[0] == 0x10 && answers[1] == 0x12,
          "answers %02x %02x, wanted 10 12", answers[0], answers[1]);
    check(HERE, answers[2] == 0xEE && answers[3] == 0xEE,
          "bytes beyond the count were written");
}

/* The same for M below 0. */
static void test_stated_negative(void)
{
    uint8_t answers[COUNT(negative_answers)];
    size_t i;

    batch_is(HERE,
             stripeawn_judge_claims(negative_batch, sizeof negative_batch,
                                    answers, sizeof answers),
             0, COUNT(negative_answers));
    for (i = 0; i < COUNT(negative_answers); i++)
        check(HERE, answers[i] == negative_answers[i],
              "record %lu answered by %d, wanted %d", (unsigned long)i,
              answers[i], negative_answers[i]);
}

/* Each byte of a record stands for its place in its number; A = 0. */
static void byte_order(int32_t m)
{
    uint8_t claim[20], answer;
    int i;

    put_claim(claim, m, 0, units(m), 0, 1, 0);
    batch_is(HERE, stripeawn_judge_claims(claim, 20, &answer, 1), 0, 1);
    check(HERE, answer == 16, "claim answered by %d, wanted 16", answer);
    for (i = 0; i < 20; i++) {
        uint8_t spoiled[20];

        if (i >= 4 && i < 8)
            continue; /* A: tested below */
        if (i == 16 || i == 17 || i == 18)
            continue; /* N and depth: this claim holds for others too */
        memcpy(spoiled, claim, 20);
        spoiled[i] ^= 1;
        batch_is(HERE, stripeawn_judge_claims(spoiled, 20, &answer, 1), 0, 1);
        check(HERE, answer == (i == 19 ? 9 : 17),
              "byte %d changed, claim answered by %d", i, answer);
    }
}

static void test_byte_order(void)
{
    byte_order(INT32_C(0x12345678));
    byte_order(-INT32_C(0x12345678));
}

/* N and A with other values in each byte. */
static void test_tolerance_and_eccentricity_bytes(void)
{
    uint8_t claim[20], answer;
    int32_t n;

    for (n = 0; n <= 65535; n += 257 * 5) {
        put_claim(claim, 400000000, 0, units(400000000 + n), n, 1, 0);
        stripeawn_judge_claims(claim, 20, &answer, 1);
        check(HERE, answer == 16, "n=%lu reaches, answered by %d",
              (unsigned long)n, answer);
        put_claim(claim, 400000000, 0, units(400000001 + n), n, 1, 0);
        stripeawn_judge_claims(claim, 20, &answer, 1);
        check(HERE, answer == 17, "n=%lu falls short, answered by %d",
              (unsigned long)n, answer);
    }
    put_claim(claim, 100000000, 241591910, units(326602775), 5, 5, 0);
    stripeawn_judge_claims(claim, 20, &answer, 1);
    check(HERE, answer == 16, "answered by %d, wanted 16", answer);
    for (n = 4; n < 8; n++) {
        claim[n] ^= 4; /* moves the root by four units or far more */
        stripeawn_judge_claims(claim, 20, &answer, 1);
        check(HERE, answer != 16, "byte %lu of A is not read",
              (unsigned long)n);
        claim[n] ^= 4;
    }
}

/* Answers of a batch are those of the judge, claim by claim. */
static void test_like_the_judge(void)
{
    enum { CLAIMS = 500 };
    static uint8_t claims[20 * CLAIMS], answers[CLAIMS];
    static uint32_t wanted[CLAIMS];
    uint32_t i, random = 12345;

    for (i = 0; i < CLAIMS; i++) {
        int32_t size = (random = random * 1664525 + 1013904223) % (H + 9);
        uint32_t a = (random = random * 1664525 + 1013904223) % (ONE + 9);
        uint32_t n = (random = random * 1664525 + 1013904223) >> 16;
        uint32_t depth = i % 7, reserved = i % 50 == 49;
        int32_t m = i % 3 ? size : -size, off = random % 70000;
        double estimate = units(stripeawn_enclose(m, a, 5).lower + off);
        struct stripeawn_verdict v = stripeawn_judge(m, a, estimate, n, depth);

        wanted[i] = reserved ? 9 : v.code ? v.code : v.verdict;
        put_claim(claims + 20 * i, m, a, estimate, n, depth, reserved);
    }
    batch_is(HERE, stripeawn_judge_claims(claims, sizeof claims, answers,
                                          sizeof answers), 0, CLAIMS);
    for (i = 0; i < CLAIMS; i++)
        check(HERE, answers[i] == wanted[i], "claim %lu answered by %d, "
              "wanted %lu", (unsigned long)i, answers[i],
              (unsigned long)wanted[i]);
}

void test_batch(void)
{
    test_stated_numbers();
    test_stated_negative();
    test_byte_order();
    test_tolerance_and_eccentricity_bytes();
    test_like_the_judge();
}
