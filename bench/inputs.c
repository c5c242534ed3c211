/*
** inputs.c: the same inputs in every run.
*/
#include <string.h>

#include "inputs.h"
#include "plain.h"

int32_t anomalies[INPUTS], angles[INPUTS];
uint32_t eccentricities[INPUTS];
double estimates[INPUTS];
uint8_t claims[STRIPEAWN_CLAIM_BYTES * INPUTS];
struct doubles on_grid[INPUTS], off_grid[INPUTS];
int32_t small_anomalies[INPUTS], small_angles[INPUTS];
uint32_t great_eccentricities[INPUTS];
struct start starts[INPUTS];
struct flyby flybys[INPUTS];

static uint64_t state = UINT64_C(88172645463325252);

/* A fixed sequence of numbers from 0 to the limit (Marsaglia's xorshift). */
static uint32_t draw(uint32_t limit)
{
    state ^= state << 13;
    state ^= state >> 7;
    state ^= state << 17;
    return (uint32_t)((state >> 32) % ((uint64_t)limit + 1));
}

void put_claim(uint8_t *record, int32_t m, uint32_t a, double estimate)
{
    uint16_t n = TOLERANCE;

    memcpy(record, &m, 4);
    memcpy(record + 4, &a, 4);
    memcpy(record + 8, &estimate, 8);
    memcpy(record + 16, &n, 2);
    record[18] = DEPTH;
    record[19] = 0;
}

/* An angle near a root above the lower end, and an estimate near that. */
static int32_t near_root(int32_t lower)
{
    return lower + (int32_t)draw(20);
}

static double near_angle(int32_t x)
{
    return (x + (int32_t)draw(200)) * STRIPEAWN_UNIT;
}

/* M and A of any orbit, and of a near-parabolic one near M = 0. */
static int32_t any_anomaly(void)
{
    return (int32_t)draw(STRIPEAWN_M_MAX - 1000);
}

static uint32_t any_eccentricity(void)
{
    return draw(STRIPEAWN_A_MAX);
}

static int32_t small_anomaly(void)
{
    return (int32_t)draw(15);
}

static uint32_t great_eccentricity(void)
{
    return STRIPEAWN_A_MAX - draw(4095);
}

static void make_grid_inputs(void)
{
    int i;

    for (i = 0; i < INPUTS; i++) {
        int32_t m = anomalies[i] = any_anomaly();
        uint32_t a = eccentricities[i] = any_eccentricity();

        angles[i] = near_root(plain_enclose(m, a, DEPTH).lower);
        estimates[i] = near_angle(angles[i]);
        put_claim(claims + STRIPEAWN_CLAIM_BYTES * i, m, a, estimates[i]);
    }
}

/* Part of a unit less, so that nothing above a limit comes of it; 0 stays. */
static double less_a_part(double units)
{
    double part = (1 + draw(1022)) / 1024.0;

    return units > 0.0 ? (units - part) * STRIPEAWN_UNIT : 0.0;
}

static void make_double_inputs(void)
{
    int i;

    for (i = 0; i < INPUTS; i++) {
        struct doubles on = { anomalies[i] * STRIPEAWN_UNIT,
                              eccentricities[i] * STRIPEAWN_UNIT,
                              estimates[i], angles[i] };
        struct doubles off;

        off.m = less_a_part(anomalies[i]);
        off.e = less_a_part(eccentricities[i]);
        off.x = near_root(plain_enclose_double(off.m, off.e, DEPTH).lower);
        off.estimate = near_angle(off.x);
        on_grid[i] = on;
        off_grid[i] = off;
    }
}

static void make_small_inputs(void)
{
    int i;

    for (i = 0; i < INPUTS; i++) {
        small_anomalies[i] = small_anomaly();
        great_eccentricities[i] = great_eccentricity();
        small_angles[i] = (int32_t)draw((1 << 20) - 1);
    }
}

/* Where a loop of steps begins, where it ends, or anywhere. */
static double any_estimate(int32_t m, uint32_t a)
{
    uint32_t place = draw(2);

    if (place == 0)
        return m * STRIPEAWN_UNIT;
    if (place == 1)
        return less_a_part(near_root(plain_enclose(m, a, DEPTH).lower));
    return less_a_part(draw(STRIPEAWN_X_MAX));
}

/* By a sequence of its own: claims drawn afterwards stay what they were. */
static void make_starts(void)
{
    uint64_t kept = state;
    int i;

    state = UINT64_C(6364136223846793005);
    for (i = 0; i < INPUTS; i++) {
        int32_t m = any_anomaly(), sign = draw(1) != 0 ? -1 : 1;
        uint32_t a = any_eccentricity();
        struct start s = { sign * m, a, STRIPEAWN_NEWTON + draw(1), 0.0 };

        s.estimate = sign * any_estimate(m, a);
        starts[i] = s;
    }
    state = kept;
}

/* Of most M and e there is an enclosure; where there is none, others. */
static struct flyby any_flyby(void)
{
    struct flyby f = { 0, 0, 0, 0.0 };
    struct stripeawn_enclosure r;

    do {
        f.m = draw(STRIPEAWN_FLYBY_M_MAX);
        f.b = STRIPEAWN_FLYBY_B_MIN +
              draw(STRIPEAWN_FLYBY_B_MAX - STRIPEAWN_FLYBY_B_MIN);
        r = plain_flyby_enclose(f.m, f.b);
    } while (r.code != 0);
    f.x = (uint32_t)near_root(r.lower);
    return f;
}

/* Not below 0 and not above 2 radians. */
static double flyby_estimate(uint32_t x)
{
    uint32_t place = draw(2);
    double units = x;

    if (place == 1)
        units += draw(400) - 200.0;
    if (place == 2)
        units = draw(STRIPEAWN_FLYBY_X_MAX);
    if (units < 0.0)
        units = 0.0;
    if (units > STRIPEAWN_FLYBY_X_MAX)
        units = STRIPEAWN_FLYBY_X_MAX;
    return draw(1) != 0 ? units * STRIPEAWN_UNIT : less_a_part(units);
}

/* By a sequence of its own too. */
static void make_flybys(void)
{
    uint64_t kept = state;
    int i;

    state = UINT64_C(2862933555777941757);
    for (i = 0; i < INPUTS; i++) {
        flybys[i] = any_flyby();
        flybys[i].estimate = flyby_estimate(flybys[i].x);
    }
    state = kept;
}

struct doubles draw_orbit(enum orbits kind)
{
    int parabolic = kind == NEAR_PARABOLIC, off = kind == ANY_OFF_GRID;
    int32_t m = parabolic ? small_anomaly() : any_anomaly();
    uint32_t a = parabolic ? great_eccentricity() : any_eccentricity();
    struct doubles orbit = { 0.0, 0.0, 0.0, 0 };
    struct stripeawn_enclosure r;

    orbit.m = off ? less_a_part(m) : m * STRIPEAWN_UNIT;
    orbit.e = off ? less_a_part(a) : a * STRIPEAWN_UNIT;
    r = plain_enclose_double(orbit.m, orbit.e, DEPTH);
    orbit.x = r.lower + (r.upper - r.lower) / 2;
    return orbit;
}

/* Parts of a unit too; kept within what an estimate may be. */
double draw_estimate(const struct doubles *orbit, uint32_t n)
{
    double units = orbit->x - 2.0 * n + draw(4096 * n) / 1024.0;

    if (units < 0.0)
        units = 0.0;
    if (units > STRIPEAWN_X_MAX)
        units = STRIPEAWN_X_MAX;
    return units * STRIPEAWN_UNIT;
}

double draw_any_estimate(void)
{
    return draw(STRIPEAWN_X_MAX) * STRIPEAWN_UNIT;
}

/* To add -0.0 changes nothing, where 0.0 would take a zero's sign away. */
double moved(double estimate, int move)
{
    static const double units[MOVES] = { -0.0, 0.5, -1000.25, 1000.25 };

    return estimate + units[move] * STRIPEAWN_UNIT;
}

/* What was added later is drawn later: the others are what they ever were. */
void make_inputs(void)
{
    make_grid_inputs();
    make_double_inputs();
    make_small_inputs();
    make_starts();
    make_flybys();
}
