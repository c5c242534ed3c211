/*
** bench.c: the time of every entry against the plain C version.
**
**    bench ROUNDS CLAIMS [NOTE]
**
** First both sides must give the same answer to every call. Then both run in
** this one process over the same inputs, in turns, and the fastest of ROUNDS
** rounds counts, so that the ratios mean something on a busy machine. NOTE,
** if given, is printed with the figures. The lines after these are of the
** library alone: what doubles cost, by the entries that take them against
** those of the grid; what it costs to be told the depth, by settle against
** the judge; what it costs to have a distance made of an enclosure; and at
** which depths settle decides, of CLAIMS claims of each kind.
**
** The library makes no more terms of a series once they are spent: after one
** pair at small angles, which are most of what an enclosure tests near M = 0.
** The plain C version has no such stop, so that the three rows with such
** inputs show what stopping gains. bench_step.c has cosine and steps,
** bench_flyby.c flybys.
*/
#include <stdio.h>
#include <stdlib.h>

#include "agree.h"
#include "bench_flyby.h"
#include "bench_step.h"
#include "both_sides.h"
#include "shares.h"
#include "timing.h"

/* Which doubles the passes over doubles take. */
static const struct doubles *given;

#define SINE_OF(P, X) {                                                     \
        struct stripeawn_bounds r = P##_sine(X, DEPTH);                     \
        sum += (uint64_t)r.lo * 3 + (uint64_t)r.hi; }
#define SINE(P) SINE_OF(P, angles[i])
#define SINE_SMALL(P) SINE_OF(P, small_angles[i])
#define LOWER(P)                                                            \
        sum += P##_lower_end(angles[i], anomalies[i], eccentricities[i],    \
                             DEPTH).accepted;
#define UPPER(P)                                                            \
        sum += P##_upper_end(angles[i], anomalies[i], eccentricities[i],    \
                             DEPTH).accepted;
#define ENCLOSE_OF(P, M, A) {                                               \
        struct stripeawn_enclosure r = P##_enclose(M, A, DEPTH);            \
        sum += (uint64_t)r.lower * 3 + (uint64_t)r.upper; }
#define ENCLOSE(P) ENCLOSE_OF(P, anomalies[i], eccentricities[i])
#define ENCLOSE_MIRRORED(P) ENCLOSE_OF(P, -anomalies[i], eccentricities[i])
#define ENCLOSE_PARABOLIC(P)                                                \
        ENCLOSE_OF(P, small_anomalies[i], great_eccentricities[i])
#define PROPOSE(P) {                                                        \
        struct stripeawn_proposal r =                                       \
            P##_propose(anomalies[i], eccentricities[i]);                   \
        sum += (uint64_t)r.angle + (uint64_t)r.e_sin +                      \
               (uint64_t)r.e_cos + r.j; }
#define JUDGE(P)                                                            \
        sum += P##_judge(anomalies[i], eccentricities[i], estimates[i],     \
                         TOLERANCE, DEPTH).verdict;
#define SETTLE(P) {                                                         \
        struct stripeawn_settled r =                                        \
            P##_settle(anomalies[i], eccentricities[i], estimates[i],       \
                       TOLERANCE);                                          \
        sum += (uint64_t)r.verdict * 3 + r.depth; }
#define DISTANCE(P) {                                                       \
        struct stripeawn_off r =                                            \
            P##_distance(anomalies[i], eccentricities[i], estimates[i]);    \
        sum += (uint64_t)r.least * 3 + r.most; }
#define LOWER_DOUBLE(P)                                                     \
        sum += P##_lower_end_double(given[i].x, given[i].m, given[i].e,     \
                                    DEPTH).accepted;
#define UPPER_DOUBLE(P)                                                     \
        sum += P##_upper_end_double(given[i].x, given[i].m, given[i].e,     \
                                    DEPTH).accepted;
#define ENCLOSE_DOUBLE(P) {                                                 \
        struct stripeawn_enclosure r =                                      \
            P##_enclose_double(given[i].m, given[i].e, DEPTH);              \
        sum += (uint64_t)r.lower * 3 + (uint64_t)r.upper; }
#define PROPOSE_DOUBLE(P) {                                                 \
        struct stripeawn_proposal r =                                       \
            P##_propose_double(given[i].m, given[i].e);                     \
        sum += (uint64_t)r.angle + (uint64_t)r.e_sin +                      \
               (uint64_t)r.e_cos + r.j; }
#define JUDGE_DOUBLE(P)                                                     \
        sum += P##_judge_double(given[i].m, given[i].e, given[i].estimate,  \
                                TOLERANCE, DEPTH).verdict;
#define SETTLE_DOUBLE(P) {                                                  \
        struct stripeawn_settled r =                                        \
            P##_settle_double(given[i].m, given[i].e, given[i].estimate,    \
                              TOLERANCE);                                   \
        sum += (uint64_t)r.verdict * 3 + r.depth; }
#define DISTANCE_DOUBLE(P) {                                                \
        struct stripeawn_off r =                                            \
            P##_distance_double(given[i].m, given[i].e, given[i].estimate); \
        sum += (uint64_t)r.least * 3 + r.most; }

BOTH_SIDES(sine, SINE)
BOTH_SIDES(sine_small, SINE_SMALL)
BOTH_SIDES(lower, LOWER)
BOTH_SIDES(upper, UPPER)
BOTH_SIDES(enclose, ENCLOSE)
BOTH_SIDES(enclose_mirrored, ENCLOSE_MIRRORED)
BOTH_SIDES(enclose_parabolic, ENCLOSE_PARABOLIC)
BOTH_SIDES(propose, PROPOSE)
BOTH_SIDES(judge, JUDGE)
BOTH_SIDES(settle, SETTLE)
BOTH_SIDES(distance, DISTANCE)
BOTH_SIDES(lower_double, LOWER_DOUBLE)
BOTH_SIDES(upper_double, UPPER_DOUBLE)
BOTH_SIDES(enclose_double, ENCLOSE_DOUBLE)
BOTH_SIDES(propose_double, PROPOSE_DOUBLE)
BOTH_SIDES(judge_double, JUDGE_DOUBLE)
BOTH_SIDES(settle_double, SETTLE_DOUBLE)
BOTH_SIDES(distance_double, DISTANCE_DOUBLE)

static uint64_t sum_of(const uint8_t *answers)
{
    uint64_t sum = 0;
    int i;

    for (i = 0; i < INPUTS; i++)
        sum += answers[i];
    return sum;
}

static uint64_t library_batch(void)
{
    static uint8_t answers[INPUTS];

    stripeawn_judge_claims(claims, sizeof claims, answers, INPUTS);
    return sum_of(answers);
}

static uint64_t plain_batch_pass(void)
{
    static uint8_t answers[INPUTS];

    plain_judge_claims(claims, sizeof claims, answers, INPUTS);
    return sum_of(answers);
}

static void measure_grid(long rounds)
{
    measure("sine", library_sine, plain_sine_pass, rounds);
    measure("sine, X < 2^20", library_sine_small, plain_sine_small_pass,
            rounds);
    measure_cosine(rounds);
    measure("lower_end", library_lower, plain_lower_pass, rounds);
    measure("upper_end", library_upper, plain_upper_pass, rounds);
    measure("enclose", library_enclose, plain_enclose_pass, rounds);
    measure("enclose, M < 0", library_enclose_mirrored,
            plain_enclose_mirrored_pass, rounds);
    measure("enclose, M near 0", library_enclose_parabolic,
            plain_enclose_parabolic_pass, rounds);
    measure("propose", library_propose, plain_propose_pass, rounds);
    measure("judge", library_judge, plain_judge_pass, rounds);
    measure("settle", library_settle, plain_settle_pass, rounds);
    measure("distance", library_distance, plain_distance_pass, rounds);
    measure_steps(rounds);
    measure_flybys(rounds);
    measure("judge_claims, a claim", library_batch, plain_batch_pass, rounds);
}

/* The entries that take doubles, each with its twin on the grid. */
static const struct {
    const char *name;
    pass *library, *plain, *twin;
} double_rows[] = {
    { "lower_end_double", library_lower_double, plain_lower_double_pass,
      library_lower },
    { "upper_end_double", library_upper_double, plain_upper_double_pass,
      library_upper },
    { "enclose_double", library_enclose_double, plain_enclose_double_pass,
      library_enclose },
    { "propose_double", library_propose_double, plain_propose_double_pass,
      library_propose },
    { "judge_double", library_judge_double, plain_judge_double_pass,
      library_judge },
    { "settle_double", library_settle_double, plain_settle_double_pass,
      library_settle },
    { "distance_double", library_distance_double, plain_distance_double_pass,
      library_distance },
};

enum { DOUBLE_ROWS = sizeof double_rows / sizeof double_rows[0] };

static void measure_doubles(long rounds)
{
    int i;

    given = off_grid;
    for (i = 0; i < DOUBLE_ROWS; i++)
        measure(double_rows[i].name, double_rows[i].library,
                double_rows[i].plain, rounds);
}

/* The same orbits given to both kinds of entries. */
static void measure_price(long rounds)
{
    int i;

    given = on_grid;
    for (i = 0; i < DOUBLE_ROWS; i++)
        measure(double_rows[i].name, double_rows[i].library,
                double_rows[i].twin, rounds);
}

/* What settle may take of the judge's time at depth 5, on the same claims. */
static const double settle_bar = 1.1;

static void measure_settle(long rounds)
{
    given = off_grid;
    measure_to_bar("settle", library_settle, library_judge, rounds,
                   settle_bar);
    measure_to_bar("settle_double", library_settle_double,
                   library_judge_double, rounds, settle_bar);
}

/* What distance may take of the enclosure's time at depth 5, same orbits. */
static const double distance_bar = 1.05;

static void measure_distance(long rounds)
{
    given = off_grid;
    measure_to_bar("distance", library_distance, library_enclose, rounds,
                   distance_bar);
    measure_to_bar("distance_double", library_distance_double,
                   library_enclose_double, rounds, distance_bar);
}

static void measure_all(long rounds)
{
    printf("nanoseconds a call at depth 5 (settle, distance, step and flyby "
           "take none), least of %ld rounds\n", rounds);
    print_heading("library", "plain C");
    measure_grid(rounds);
    measure_doubles(rounds);
    printf("the library alone, the same orbits as doubles and on the grid\n");
    print_heading("doubles", "grid");
    measure_price(rounds);
    printf("the library alone, settle and the judge at depth 5 on the same "
           "claims\n");
    print_heading("settle", "judge");
    measure_settle(rounds);
    printf("the library alone, distance and the enclosure at depth 5 of the "
           "same orbits\n");
    print_heading("distance", "enclose");
    measure_distance(rounds);
}

int main(int count, char **arguments)
{
    long rounds = count > 1 ? strtol(arguments[1], NULL, 10) : 0;
    long claims_drawn = count > 2 ? strtol(arguments[2], NULL, 10) : 0;

    if (rounds < 1 || claims_drawn < 1) {
        fprintf(stderr, "usage: bench ROUNDS CLAIMS [NOTE]\n");
        return 2;
    }
    make_inputs();
    if (!sides_agree())
        return 1;
    if (count > 3)
        printf("%s\n", arguments[3]);
    measure_all(rounds);
    print_shares(claims_drawn);
    return 0;
}
