/*
** check.h: counts checks and prints each one that fails, with its place.
**
** The wanted numbers are written out in the tests and not taken from the
** header's names, so that a wrong number in the header is found too.
*/
#ifndef CHECK_H
#define CHECK_H

#include "given.h"
#include "stripeawn.h"

/* The limits, as the rules give them. */
#define H INT32_C(843314856)
#define T INT32_C(843314920)
#define ONE INT32_C(268435456)

/* The double next to pi, which C11 has no name for. */
#define PI 3.14159265358979323846

/* H units and e = 1 as doubles, and the doubles next to them and to 0. */
#define H_DOUBLE 0x1.921fb54p+1
#define ABOVE_H 0x1.921fb54000001p+1
#define BELOW_H 0x1.921fb53ffffffp+1
#define ABOVE_1 0x1.0000000000001p+0
#define BELOW_1 0x1.fffffffffffffp-1
#define ABOVE_0 0x1p-1074

/* The farthest value of an input that has no sign. */
#define FAR UINT32_MAX

/* Bits of a double: those of infinity, and the sign. */
#define INFINITE UINT64_C(0x7FF0000000000000)
#define SIGN UINT64_C(0x8000000000000000)

struct place {
    const char *file;
    int line;
};

#define HERE ((struct place){ __FILE__, __LINE__ })

/* Number of elements of an array. */
#define COUNT(array) (sizeof(array) / sizeof((array)[0]))

/* One check: counted, and printed with the format where it is not good. */
void check(struct place at, int good, const char *format, ...)
    __attribute__((format(printf, 3, 4)));

/* Prints how many checks ran and failed; 0 where all is well. */
int check_report(void);

/*
** One call each, with every number that it must return. Where M is above 0,
** the mirrored call at -M must return the mirror of these numbers. Whatever
** the judge says of a claim, settled_agrees is checked too.
*/
void sine_is(struct place at, uint32_t x, uint32_t depth, uint32_t code,
             int64_t lo, int64_t hi);
void given_end_is(struct place at, int upper, int32_t x, struct given g,
                  uint32_t depth, uint32_t code, uint32_t accepted);
void given_enclosure_is(struct place at, struct given g, uint32_t depth,
                        uint32_t code, int32_t lower, int32_t upper);
void given_proposal_is(struct place at, struct given g,
                       struct stripeawn_proposal wanted);
void given_verdict_is(struct place at, struct given g, double estimate,
                      uint32_t n, uint32_t depth, uint32_t code,
                      uint32_t verdict);
void given_settled_is(struct place at, struct given g, double estimate,
                      uint32_t n, uint32_t code, uint32_t verdict,
                      uint32_t depth);
void given_distance_is(struct place at, struct given g, double estimate,
                       uint32_t code, uint32_t least, uint32_t most);

/*
** What is said of a claim without a depth goes with the judge's answer v at
** this one: its verdict from the reported depth on, and below it Undecided.
*/
void settled_agrees(struct place at, struct given g, double estimate,
                    uint32_t n, uint32_t depth, struct stripeawn_verdict v);

/*
** The same for M and A on the grid. The entry for doubles must return these
** numbers too, for M and A as doubles.
*/
void lower_is(struct place at, int32_t x, int32_t m, uint32_t a,
              uint32_t depth, uint32_t code, uint32_t accepted);
void upper_is(struct place at, int32_t x, int32_t m, uint32_t a,
              uint32_t depth, uint32_t code, uint32_t accepted);
void enclosure_is(struct place at, int32_t m, uint32_t a, uint32_t depth,
                  uint32_t code, int32_t lower, int32_t upper);
void proposal_is(struct place at, int32_t m, uint32_t a,
                 struct stripeawn_proposal wanted);
void verdict_is(struct place at, int32_t m, uint32_t a, double estimate,
                uint32_t n, uint32_t depth, uint32_t code, uint32_t verdict);
void settled_is(struct place at, int32_t m, uint32_t a, double estimate,
                uint32_t n, uint32_t code, uint32_t verdict, uint32_t depth);
void distance_is(struct place at, int32_t m, uint32_t a, double estimate,
                 uint32_t code, uint32_t least, uint32_t most);

/* The double with these bits, and the bits of a double. */
double from_bits(uint64_t bits);
uint64_t to_bits(double value);

/* A whole number of units, in radians: exact. */
double units(int32_t count);

/* Writes a claim record of 20 bytes. */
void put_claim(uint8_t *record, int32_t m, uint32_t a, double estimate,
               uint32_t n, uint32_t depth, uint32_t reserved);

/* The groups of checks, one to a file. */
void test_header(void);
void test_sine(void);
void test_cosine(void);
void test_ends(void);
void test_spent(void);
void test_top(void);
void test_enclose(void);
void test_propose(void);
void test_judge(void);
void test_undecided(void);
void test_settle(void);
void test_settle_limits(void);
void test_distance(void);
void test_distance_laws(void);
void test_step(void);
void test_step_limits(void);
void test_step_judged(void);
void test_step_laws(void);
void test_figures(void);
void test_mirror(void);
void test_estimates(void);
void test_order(void);
void test_doubles_order(void);
void test_step_order(void);
void test_doubles(void);
void test_cells(void);
void test_roots(void);
void test_laws(void);
void test_flyby_header(void);
void test_flyby(void);
void test_flyby_enclose(void);
void test_flyby_judge(void);
void test_flyby_estimates(void);
void test_flyby_laws(void);
void test_flyby_order(void);
void test_batch(void);
void test_buffers(void);
void test_threads(void);

#endif
