/*
** stripeawn.h: certified answers to Kepler's equation, E - e sin E = M.
**
** M is the mean anomaly, E the eccentric anomaly, e the eccentricity, from
** the circle (e = 0) to the parabolic limit (e = 1). Whatever solver found
** an E, this library says what is certain about it. M and E are signed and
** have the same sign: both are below 0 before perigee and 0 at perigee.
**
** Entries. Whoever has M in radians and e as doubles calls the entries whose
** names end in _double. The grid entries, which have the same names without
** that ending, are for those whose numbers are on the grid: M is a whole
** number of units, and A stands for e.
**
** Units. An angle is a whole number of units of 2^-28 radian. One unit is
** 2.1344e-7 degrees, or 0.00076840 arcseconds. On the grid the eccentricity
** is A / 2^28 for a whole number A. What is given is taken as exact, on the
** grid or as doubles: every answer is about the equation with just these two
** numbers. Rounding another M or e to the grid moves the root, near the
** parabolic limit by thousands of units; the double entries spare that step.
**
** Cell. Of doubles, M in units is rounded down to M1 and up to M2, and 2^28 e
** down to A1 and up to A2: M1 <= M <= M2 for either sign, and no product is
** rounded before. An answer holds for every M from M1 to M2 and every e from
** A1 / 2^28 to A2 / 2^28, the doubles' own values among them. X is accepted
** as an end when
**
**                                M not below 0          M below 0
**     lower:   2^28 (X - M1)  <= min(A1 lo, A2 lo)   <= -max(A1 hi, A2 hi)
**     upper:   2^28 (X - M2)  >= max(A1 hi, A2 hi)   >= -min(A1 lo, A2 lo)
**
** with lo and hi as stripeawn_sine gives them at the size of X. What is on
** the grid is rounded to itself: there M1 = M2 = M and A1 = A2 = A, and
** doubles that are on the grid get the answers of the grid entries.
**
** Sides. Angles and estimates are given on M's side of 0. One opposes M where
** it is above 0 and M below 0, or below 0 and M is not; 0 opposes nothing,
** nor does either zero of a double. A double M is below 0 by its own sign,
** as -1e-300 is; either zero is not. The size of a number is that number
** without its sign.
**
** Ends. A lower end X is accepted when whole-number bounds of sine show that
** X - M <= e sin X, so that the root is not below X. An upper end X is
** accepted when they show that X - M >= e sin X, so that the root is not
** above X. Accepted ends meet, in exact fractions, even
**
**     X - M <= e S9(X)  (lower)    and    X - M >= e S10(X)  (upper)
**
** for every M and e of the cell, with S9 and S10 the Taylor sums of sine up
** to degree 19 and 21. An end that is not accepted says nothing: a greater
** depth may accept it.
**
** Mirror. A negative M is the problem of -M: what is given beside it is
** mirrored first, and what is answered is mirrored back. With a and b the
** ends that enclose the root of -M, those of M are -b and -a. X is tested as
** -X with -M, where lower and upper are exchanged and, as the sums are odd,
** S9 and S10 with them. So for M below 0 accepted ends meet
**
**     X - M <= e S10(X)  (lower)    and    X - M >= e S9(X)  (upper)
**
** and the two inequalities above as well, since S10(X) <= S9(X) for X <= 0.
**
** Depth. How many pairs of Taylor terms the bounds use, 1 to 5. Use depth 5
** unless you measure: a smaller one may be faster and says less. What one
** depth accepts every greater depth accepts. Where M and e are on the grid,
** depth 5 refuses an end only where its exact inequality, the one for M's
** sign, fails or has less than 32 e units to spare; off the grid nothing like
** it is promised, as an end has to hold for the whole cell. No accepted lower
** end lies above an accepted upper end of the same M and e, whatever the two
** depths.
**
** Figures. Where M, of either sign, and e = A / 2^28 below 1 are on the grid,
** depth 5 keeps to two figures:
**
**     e        A            greatest width    least n
**     0                0                 2          1
**     0.5      134217728                65         65
**     0.9      241591910               577        577
**     0.99     265751101              6337       6337
**     0.999    268167020             63937      63937
**
** (A is 2^28 e rounded down.) The ends of an enclosure are never farther
** apart than the greatest width. A right answer is confirmed: an estimate
** from its lower to its upper end is Confirmed with every n from the least n
** up. A wrong answer is refuted: an estimate that lies n + 1 + 32 e / (1 - e)
** units or more outside of them is Refuted. For every other A the figures are
** those of stripeawn_greatest_width and stripeawn_least_n. At e = 1 no figure
** exists: there the equation is flat at E = 0, and the problem is ill-posed.
** Off the grid none is promised, as an end has to hold for the whole cell.
**
** Flybys. A hyperbolic orbit has e >= 1 and the equation e sinh X - X = M.
** The entries named stripeawn_flyby_.. are for it: M in units, from 0 up, and
** B, which is 2^28 e. They have limits of their own, no depth and no mirror,
** and what is said above of cells, sides and depths is not about them. With S
** the Taylor sum of sinh up to degree 19 and t its last term, which is
** x^19 / 19! at x = X / 2^28, accepted ends meet, in exact fractions,
**
**     X + M >= e (S(X) + t)  (lower)    and    X + M <= e S(X)  (upper)
**
** so that, as S <= sinh <= S + t up to 2 radians, the root is not below a
** lower end and not above an upper end. No accepted lower end lies above an
** accepted upper end of the same M and e.
**
** Notes on every entry:
** 1) A result begins with a code. With a code other than 0 every other
**    number of the result is 0 and lent buffers are as before the call.
** 2) Any number may be passed; one outside its limit is answered by its
**    code. A NaN is outside every limit: as M, e or estimate it gets that
**    one's code and is never taken for 0. Where several codes apply, the
**    answer is the one that stands first in the list under Status, which is
**    in this fixed order.
** 3) No entry keeps state, so any number of threads may call at once. None
**    uses the heap or calls the operating system, and each ends after a
**    bounded number of steps on a bounded stack (64 KiB is ample).
** 4) The entries that take doubles want the processor's usual handling of
**    subnormal ones. A program linked with -ffast-math may have them read as
**    zeros; an entry then sees another M, e or estimate than the one meant.
**    The entries that make a step compute in doubles, and want the usual
**    rounding too, to nearest, which fesetround may have changed.
** 5) On the grid an unsigned M from 3451652440 (2^32 - H) up, which versions
**    before 0.3 refuse with code 1, reads as a negative M, in a record too.
**
** Notes on the double entries:
** 1) M goes up to H = 843314856 units, which is 3.14159265160560607910 rad:
**    STRIPEAWN_M_MAX * STRIPEAWN_UNIT, exact. M_PI as a double is
**    843314856.53 units and so gets code 1. At 180 degrees exactly E is 180
**    degrees, and no solver is needed; from H units to there E lies between M
**    and pi, less than one unit apart.
** 2) An M from 180 to 360 degrees belongs on the negative side. Subtract 360
**    while it is in degrees, which is exact in doubles there, and convert it
**    to radians afterwards; remainder(m, 360.0) brings any M to -180 to 180,
**    exactly. In general, take whole turns off before converting. To convert
**    first and subtract 2 pi afterwards is off: the double next to 2 pi is
**    not 2 pi, and a double of that size has too few digits after the point
**    for an M close to 0.
** 3) A double is taken as its exact value. An error that was made before, by
**    a conversion from degrees or of decimal digits, is inside the answer as
**    long as it does not leave the cell; where a double is on the grid, the
**    cell has no room for one.
** 4) Claim records and files of them have M and A on the grid.
*/
#ifndef STRIPEAWN_INCLUDED
#define STRIPEAWN_INCLUDED

#include <stddef.h>
#include <stdint.h>

#ifdef __cplusplus
extern "C" {
#endif

/* Version. */
#define STRIPEAWN_VERSION_MAJOR 0
#define STRIPEAWN_VERSION_MINOR 9
#define STRIPEAWN_VERSION_PATCH 0
#define STRIPEAWN_VERSION "0.9.0"

/* Limits: the greatest value taken. M goes down to -H, and X to -T. */
#define STRIPEAWN_M_MAX 843314856     /* H, the whole part of pi 2^28      */
#define STRIPEAWN_X_MAX 843314920     /* T = H + 64, a tested angle        */
#define STRIPEAWN_A_MAX 268435456u    /* 2^28, which is eccentricity one   */
#define STRIPEAWN_DEPTH_MAX 5u        /* the least depth is 1              */
#define STRIPEAWN_N_MAX 65535u        /* tolerance, in units               */

/* Limits of a flyby: the greatest value taken, and the least where not 0. */
#define STRIPEAWN_FLYBY_M_MAX 2147483647u /* 2^31 - 1 units                */
#define STRIPEAWN_FLYBY_X_MAX 536870912   /* 2^29 units, two radians       */
#define STRIPEAWN_FLYBY_B_MIN 268435456u  /* 2^28, which is eccentricity 1 */
#define STRIPEAWN_FLYBY_B_MAX 1073741824u /* 2^30, which is eccentricity 4 */

/* Sizes. */
#define STRIPEAWN_RADIAN 268435456    /* units in one radian, 2^28         */
#define STRIPEAWN_UNIT (1.0 / 268435456.0) /* radians in one unit, exact   */
#define STRIPEAWN_CLAIM_BYTES 20u     /* size of a claim record            */

/*
** Codes. Each is given exactly when its condition holds and no code before
** it in the entry's order applies. The order over all entries is 9, 1, 2, 3,
** 10, 4, 5, 6, 15, 21; in a batch, 7 and then 8 come before any record is
** read. Of a flyby 1, 2, 4 and 10 go by its own limits, as its Status says.
*/
#define STRIPEAWN_DONE 0u             /* done                              */
#define STRIPEAWN_BAD_M 1u            /* size of M above H units; as a     */
                                      /*   double, also NaN or infinite    */
#define STRIPEAWN_BAD_A 2u            /* A above 2^28; e NaN, infinite,    */
                                      /*   below 0 or above 1              */
#define STRIPEAWN_BAD_DEPTH 3u        /* depth not 1 to 5                  */
#define STRIPEAWN_BAD_ESTIMATE 4u     /* estimate NaN, infinite, opposing  */
                                      /*   M, or of size above T units     */
#define STRIPEAWN_BAD_N 5u            /* N above 65535                     */
#define STRIPEAWN_NO_UPPER_END 6u     /* enclosure: T is not accepted as   */
                                      /*   an upper end at this depth, or  */
                                      /*   -T as a lower one (M below 0)   */
#define STRIPEAWN_BAD_LENGTH 7u       /* claims length no multiple of 20   */
#define STRIPEAWN_SHORT_ANSWERS 8u    /* answers buffer shorter than the   */
                                      /*   number of claims                */
#define STRIPEAWN_BAD_RESERVED 9u     /* reserved byte of a claim not zero */
#define STRIPEAWN_BAD_X 10u           /* angle X opposing M, or of size    */
                                      /*   above T                         */
#define STRIPEAWN_NO_FLYBY_END 15u    /* enclosure of a flyby: 2^29 is not */
                                      /*   accepted as an upper end        */
#define STRIPEAWN_BAD_METHOD 21u      /* method neither 1 nor 2            */

/* Methods of a step, and the steps taken. */
#define STRIPEAWN_NEWTON 1u           /* Newton's step                     */
#define STRIPEAWN_HALLEY 2u           /* Halley's step                     */
#define STRIPEAWN_FLAT 3u             /* no step: nothing is handed over   */

/* Verdicts, on an estimate and a tolerance of N units. */
#define STRIPEAWN_CONFIRMED 16u       /* the root is within N units of it  */
#define STRIPEAWN_REFUTED 17u         /* the root is more than N units off */
#define STRIPEAWN_UNDECIDED 18u       /* this depth cannot tell            */

/*
** stripeawn_name: a code or a verdict in a few words, for messages.
**
** Given:
**    number   a code or a verdict
** Returned:
**    its name, or "unknown number" where it is neither; never NULL
** Notes:
** 1) Compare numbers and not names, which may be worded otherwise one day.
** 2) The number of a step is no code, and has no name here.
*/
static inline const char *stripeawn_name(uint32_t number)
{
    switch (number) {
    case STRIPEAWN_DONE: return "done";
    case STRIPEAWN_BAD_M: return "M out of range";
    case STRIPEAWN_BAD_A: return "A, B or e out of range";
    case STRIPEAWN_BAD_DEPTH: return "depth not 1 to 5";
    case STRIPEAWN_BAD_ESTIMATE: return "estimate out of range";
    case STRIPEAWN_BAD_N: return "N too large";
    case STRIPEAWN_NO_UPPER_END: return "no enclosure at this depth";
    case STRIPEAWN_BAD_LENGTH: return "claims length no multiple of 20";
    case STRIPEAWN_SHORT_ANSWERS: return "answers buffer too short";
    case STRIPEAWN_BAD_RESERVED: return "reserved byte not zero";
    case STRIPEAWN_BAD_X: return "angle X out of range";
    case STRIPEAWN_NO_FLYBY_END: return "no enclosure up to 2^29 units";
    case STRIPEAWN_BAD_METHOD: return "method neither 1 nor 2";
    case STRIPEAWN_CONFIRMED: return "Confirmed";
    case STRIPEAWN_REFUTED: return "Refuted";
    case STRIPEAWN_UNDECIDED: return "Undecided";
    default: return "unknown number";
    }
}

/* Results. */
struct stripeawn_bounds {
    uint32_t code;
    int64_t lo, hi;                   /* units; may be below zero          */
};

struct stripeawn_end {
    uint32_t code;
    uint32_t accepted;                /* 1 accepted, 0 not                 */
};

struct stripeawn_enclosure {
    uint32_t code;
    int32_t lower, upper;             /* the two ends, units               */
};

struct stripeawn_proposal {
    uint32_t code;
    int32_t angle;                    /* proposed E, units, -T to T        */
    int64_t e_sin, e_cos;             /* near e sin E and e cos E, units   */
    uint32_t j;                       /* certificate, 0 to 30              */
};

struct stripeawn_verdict {
    uint32_t code;
    uint32_t verdict;                 /* 16, 17 or 18                      */
};

struct stripeawn_settled {
    uint32_t code;
    uint32_t verdict;                 /* 16, 17 or 18                      */
    uint32_t depth;                   /* least that gives it, 1 to 5       */
};

struct stripeawn_off {
    uint32_t code;
    uint32_t least, most;             /* units from the root, 0 to T       */
};

struct stripeawn_stepped {
    uint32_t code;
    uint32_t step;                    /* 1 Newton, 2 Halley, 3 flat        */
    double estimate;                  /* the new one, radians; 0 if flat   */
};

struct stripeawn_judged_step {
    uint32_t code;
    uint32_t step;                    /* 1 Newton, 2 Halley, 3 flat        */
    double estimate;                  /* the new one, radians; 0 if flat   */
    uint32_t verdict;                 /* 16, 17 or 18; 0 if flat           */
};

struct stripeawn_batch {
    uint32_t code;
    uint64_t count;                   /* claims answered                   */
};

/*
** stripeawn_sine: whole-number bounds of the sine of an angle.
**
** Given:
**    x       angle, units, 0 to T
**    depth   1 to 5
** Returned:
**    lo      lower bound of 2^28 sin(x / 2^28)
**    hi      upper bound of it
** Status:
**    3 = depth not 1 to 5
**    10 = x above T
**    0 = done
** Notes:
** 1) lo is at most 2^28 S9(x) and hi at least 2^28 S10(x), at every depth.
**    With greater depth lo never falls and hi never rises. At depth 5 they
**    are at most 32 units apart.
** 2) Near T lo is below zero at every depth, and hi at depths 4 and 5.
** 3) Up to x = 14417715, 128808899, 341821575 and 614482590 the bounds of
**    depth 1, 2, 3 and 4 are those of every greater depth, and these take no
**    more time: depth 5 is as fast there.
*/
struct stripeawn_bounds stripeawn_sine(uint32_t x, uint32_t depth);

/*
** stripeawn_cosine: whole-number bounds of the cosine of an angle.
**
** Given:
**    x       angle, units, 0 to T
**    depth   1 to 5
** Returned:
**    lo      lower bound of 2^28 cos(x / 2^28)
**    hi      upper bound of it
** Status:
**    3 = depth not 1 to 5
**    10 = x above T
**    0 = done
** Notes:
** 1) lo is at most 2^28 C9(x) and hi at least 2^28 C10(x), at every depth,
**    with C9 and C10 the Taylor sums of cosine up to degree 18 and 20. With
**    greater depth lo never falls and hi never rises. At depth 5 they are at
**    most 26 units apart.
** 2) Both may be below zero, and beyond one radian in size: at T they are
**    -1056240623 and 33261948 at depth 1, -2^28 - 7 and -2^28 + 7 at depth 5.
*/
struct stripeawn_bounds stripeawn_cosine(uint32_t x, uint32_t depth);

/*
** stripeawn_lower_end_double: is the root certainly not below x?
** stripeawn_upper_end_double: is the root certainly not above x?
** stripeawn_lower_end, stripeawn_upper_end: the same on the grid.
**
** Given:
**    x       angle to test, units, 0 to T; where m is below 0, -T to 0
**    m       M, as a double in radians, of size H / 2^28 at most; on the
**            grid in units, -H to H
**    e       eccentricity as a double, 0 to 1; either zero counts as 0
**    a       on the grid in place of e: A, 0 to 2^28
**    depth   1 to 5
** Returned:
**    accepted   1 where the test holds, otherwise 0. For doubles it is the
**               test of their cell, which stands above; on the grid that is
**                        m not below 0           m below 0
**               lower:   2^28 (x - m) <= a lo    2^28 (x - m) <= -a hi
**               upper:   2^28 (x - m) >= a hi    2^28 (x - m) >= -a lo
**               (lo and hi as stripeawn_sine gives them at the size of x)
** Status:
**    1 = size of M above H units; as a double, also NaN or infinite
**    2 = e NaN, infinite, below 0 or above 1; on the grid A above 2^28
**    3 = depth not 1 to 5
**    10 = x opposing M, or of size above T
**    0 = done
** Notes:
** 1) As a lower end 0 is always accepted and T never; where m is below 0,
**    as an upper end 0 is always accepted and -T never.
** 2) Both ends may be accepted at one angle, which is then the root, or
**    neither. The accepted angles need not be one unbroken run.
*/
struct stripeawn_end stripeawn_lower_end_double(int32_t x, double m,
                                                double e, uint32_t depth);

struct stripeawn_end stripeawn_upper_end_double(int32_t x, double m,
                                                double e, uint32_t depth);

struct stripeawn_end stripeawn_lower_end(int32_t x, int32_t m, uint32_t a,
                                         uint32_t depth);

struct stripeawn_end stripeawn_upper_end(int32_t x, int32_t m, uint32_t a,
                                         uint32_t depth);

/*
** stripeawn_enclose_double: two angles with the root between them.
** stripeawn_enclose: the same on the grid.
**
** Given:
**    m       M, as a double in radians, of size H / 2^28 at most; on the
**            grid in units, -H to H
**    e       eccentricity as a double, 0 to 1; either zero counts as 0
**    a       on the grid in place of e: A, 0 to 2^28
**    depth   1 to 5
** Returned:
**    lower   an accepted lower end, where lower + 1 is not accepted or, with
**            m below 0, lower is 0
**    upper   an accepted upper end, where upper - 1 is not accepted or, with
**            m not below 0, upper is 0
** Status:
**    1 = size of M above H units; as a double, also NaN or infinite
**    2 = e NaN, infinite, below 0 or above 1; on the grid A above 2^28
**    3 = depth not 1 to 5
**    6 = T is not accepted as an upper end at this depth, or -T as a lower
**        one where m is below 0
**    0 = done
** Notes:
** 1) Depths 4 and 5 never answer 6, whatever M and e are.
** 2) Where two depths both answer 0, the enclosure of the greater depth lies
**    within the other.
** 3) Near the parabolic limit an enclosure is as wide as the problem makes
**    it: with e close to 1 and M close to 0, one unit more in M moves the
**    root by many thousands. The cell of an M off the grid is that one unit
**    wide: at M = 1e-5 degrees, 46.85 units, and e = 1 the ends are 2709311
**    and 2748072.
** 4) On the grid, stripeawn_greatest_width says how far apart the ends can be
**    at depth 5, for every e below 1.
*/
struct stripeawn_enclosure stripeawn_enclose_double(double m, double e,
                                                    uint32_t depth);

struct stripeawn_enclosure stripeawn_enclose(int32_t m, uint32_t a,
                                             uint32_t depth);

/*
** stripeawn_propose_double: a shift-and-add solution, with its certificate.
** stripeawn_propose: the same on the grid.
**
** Given:
**    m       M, as a double in radians, of size H / 2^28 at most; on the
**            grid in units, -H to H
**    e       eccentricity as a double, 0 to 1; either zero counts as 0
**    a       on the grid in place of e: A, 0 to 2^28
** Returned:
**    angle   the proposed E, units, 0 to T; where m is below 0, -T to 0
**    e_sin   near e sin E, units
**    e_cos   near e cos E, units
**    j       the root is within 2^j units of angle
** Status:
**    1 = size of M above H units; as a double, also NaN or infinite
**    2 = e NaN, infinite, below 0 or above 1; on the grid A above 2^28
**    0 = done
** Notes:
** 1) j is the smallest number from 0 to 30 for which angle - 2^j is an
**    accepted lower end and angle + 2^j an accepted upper end, both at depth
**    5. Where one of them is past the limits of angle, the limit stands for
**    it. Such a j always exists, whatever M and e are. Nothing more is
**    promised of how good angle is.
** 2) e_sin and e_cos are what fifty rotations with shifts 0, 0, 1, 1, up to
**    24, 24 give. No bound of their error is promised. Of doubles, the
**    rotations take the size of M in units and 2^28 e, both rounded down; j
**    is by the tests of their cell.
** 3) For m below 0 angle and e_sin are those of -m with their signs changed;
**    e_cos and j are those of -m.
*/
struct stripeawn_proposal stripeawn_propose_double(double m, double e);

struct stripeawn_proposal stripeawn_propose(int32_t m, uint32_t a);

/*
** stripeawn_judge_double: is an estimate within n units of the root?
** stripeawn_judge: the same on the grid.
**
** Given:
**    m          M, as a double in radians, of size H / 2^28 at most; on the
**               grid in units, -H to H
**    e          eccentricity as a double, 0 to 1; either zero counts as 0
**    a          on the grid in place of e: A, 0 to 2^28
**    estimate   angle in radians, 0 to T / 2^28; where m is below 0,
**               -T / 2^28 to 0; either zero counts as 0
**    n          tolerance, units, 0 to 65535
**    depth      1 to 5
** Returned:
**    verdict    16 Confirmed, 17 Refuted, 18 Undecided
** Status:
**    1 = size of M above H units; as a double, also NaN or infinite
**    2 = e NaN, infinite, below 0 or above 1; on the grid A above 2^28
**    3 = depth not 1 to 5
**    4 = estimate NaN, infinite, opposing M, or of size above T units
**    5 = n above 65535
**    0 = done
** Notes:
** 1) Confirmed promises that the root is at most n units from the estimate,
**    Refuted that it is more than n units away; both mean the exact values
**    of M, e and the estimate, on the grid or off it. Undecided promises
**    nothing.
** 2) No verdict speaks of the residual E - e sin E - M, which may be small
**    far from the root, nor of how well M and e describe an orbit.
** 3) A claim Confirmed or Refuted at one depth has the same verdict at every
**    greater depth. stripeawn_settle_double, or on the grid stripeawn_settle,
**    takes no depth and gives the verdict of depth 5 with the least depth
**    that suffices.
** 4) A wider tolerance may lose a verdict: M = 0, e = 1, estimate 0 is
**    Confirmed at n = 0 and Undecided at n = 1. The verdict at n = 0 is
**    still true, and so the root is within 1 unit too.
** 5) After Undecided ask stripeawn_distance_double, or on the grid
**    stripeawn_distance, which looks at the whole enclosure and takes no n:
**    the root is certainly more than n units off where its least is above n,
**    and at most n units off where its most is not above n. No answer of it
**    contradicts a verdict.
** 6) On the grid, stripeawn_least_n says with which n an estimate that lies
**    inside the enclosure is sure to be Confirmed at depth 5, and its notes
**    say which estimates are sure to be Refuted.
*/
struct stripeawn_verdict stripeawn_judge_double(double m, double e,
                                                double estimate, uint32_t n,
                                                uint32_t depth);

struct stripeawn_verdict stripeawn_judge(int32_t m, uint32_t a,
                                         double estimate, uint32_t n,
                                         uint32_t depth);

/*
** stripeawn_settle_double: the verdict, and the least depth that gives it.
** stripeawn_settle: the same on the grid.
**
** Given:
**    m          M, as a double in radians, of size H / 2^28 at most; on the
**               grid in units, -H to H
**    e          eccentricity as a double, 0 to 1; either zero counts as 0
**    a          on the grid in place of e: A, 0 to 2^28
**    estimate   angle in radians, 0 to T / 2^28; where m is below 0,
**               -T / 2^28 to 0; either zero counts as 0
**    n          tolerance, units, 0 to 65535
** Returned:
**    verdict    16 Confirmed, 17 Refuted, 18 Undecided
**    depth      the first of the depths 1, 2, 3, 4 and 5 at which the judge
**               confirms or refutes; 5 where none does
** Status:
**    1 = size of M above H units; as a double, also NaN or infinite
**    2 = e NaN, infinite, below 0 or above 1; on the grid A above 2^28
**    4 = estimate NaN, infinite, opposing M, or of size above T units
**    5 = n above 65535
**    0 = done
** Notes:
** 1) The verdict is the one that stripeawn_judge_double, or on the grid
**    stripeawn_judge, gives at depth 5, and what that one's notes say of it
**    holds here too. At every depth from the one returned on the judge gives
**    this verdict, and at every lesser one Undecided.
** 2) It takes the time of the judge at depth 5, which goes no deeper than it
**    must; so there is no need to try depths by hand.
** 3) A depth of 5 alone doesn't say that the claim is decided, as depth 5
**    may be the one that decides it: look at the verdict.
*/
struct stripeawn_settled stripeawn_settle_double(double m, double e,
                                                 double estimate, uint32_t n);

struct stripeawn_settled stripeawn_settle(int32_t m, uint32_t a,
                                          double estimate, uint32_t n);

/*
** stripeawn_distance_double: how far from the root an estimate certainly is.
** stripeawn_distance: the same on the grid.
**
** Given:
**    m          M, as a double in radians, of size H / 2^28 at most; on the
**               grid in units, -H to H
**    e          eccentricity as a double, 0 to 1; either zero counts as 0
**    a          on the grid in place of e: A, 0 to 2^28
**    estimate   angle in radians, 0 to T / 2^28; where m is below 0,
**               -T / 2^28 to 0; either zero counts as 0
** Returned:
**    least      the root is at least so many units from the estimate
**    most       the root is at most so many units from the estimate
** Status:
**    1 = size of M above H units; as a double, also NaN or infinite
**    2 = e NaN, infinite, below 0 or above 1; on the grid A above 2^28
**    4 = estimate NaN, infinite, opposing M, or of size above T units
**    0 = done
** Notes:
** 1) With lower and upper as stripeawn_enclose_double, or on the grid
**    stripeawn_enclose, gives them at depth 5, and f and c the estimate in
**    units, rounded down and up,
**        least = max(lower - c, f - upper, 0)
**        most  = max(c - lower, upper - f)
**    for M of either sign. Both mean the exact values of M, e and the
**    estimate, on the grid or off it, and least is never above most.
** 2) Where least is above 0 the estimate lies beyond an end, and is certainly
**    no root, however small its residual is; one that is not a whole number
**    of units is then off by more than least. Where least is 0 nothing speaks
**    against it; how good it is, most says.
** 3) No verdict is contradicted: where stripeawn_judge_double, or on the grid
**    stripeawn_judge, says Confirmed, least is not above its n, and where it
**    says Refuted, most is above its n, at any depth. A verdict may say a
**    little more: now and then most is above the n of a Confirmed claim, as
**    the accepted angles need not be one unbroken run. After Undecided the
**    two may still settle the matter, as at M = 0, e = 1, where the estimate
**    2^-9, whose residual is a third of a unit, is off by 524288 units, at
**    least and at most.
** 4) It takes the time of an enclosure at depth 5, many times that of the
**    judge: judge first, and ask for the distance where that is Undecided or
**    the figure itself is wanted.
*/
struct stripeawn_off stripeawn_distance_double(double m, double e,
                                               double estimate);

struct stripeawn_off stripeawn_distance(int32_t m, uint32_t a,
                                        double estimate);

/*
** stripeawn_step_judged: one step of Newton or Halley, judged.
** stripeawn_step: the step alone. Both are on the grid.
**
** Given:
**    m          M in units, -H to H
**    a          A, 0 to 2^28
**    estimate   angle in radians, 0 to T / 2^28; where m is below 0,
**               -T / 2^28 to 0; either zero counts as 0
**    method     1 Newton, 2 Halley
**    n          to judge: tolerance, units, 0 to 65535
**    depth      to judge: 1 to 5
** Returned:
**    step       1 Newton's or 2 Halley's step was taken; 3 flat: none was
**    estimate   the new estimate, radians, on m's side of 0; plus zero where
**               the step is flat
**    verdict    the judge's on the new estimate: 16 Confirmed, 17 Refuted,
**               18 Undecided; 0 where the step is flat
** Status:
**    1 = size of M above H units
**    2 = A above 2^28
**    3 = depth not 1 to 5 (judged steps only)
**    4 = estimate NaN, infinite, opposing M, or of size above T units
**    5 = n above 65535 (judged steps only)
**    21 = method neither 1 nor 2
**    0 = done
** Notes:
** 1) For M not below 0, with f the estimate E in units, rounded down,
**        s = lo of stripeawn_sine(f, 5) / 2^28      w = M / 2^28
**        k = lo of stripeawn_cosine(f, 5) / 2^28    e = A / 2^28
**    which are exact in doubles; then, every operation rounded once to a
**    double, in this order and none of them fused,
**        g = e s        F = (E - w) - g        D = 1 - e k
**        Newton:   E - F / D
**        Halley:   E - ((2 F) D) / (((2 D) D) - (F g))
** 2) The step is flat where its divisor, D or ((2 D) D) - (F g), is 0, or
**    where the new estimate would get code 4: where it is NaN, infinite,
**    below 0 or above T units. A flat step hands nothing over. A new
**    estimate that is a zero is handed over as plus zero.
** 3) For M below 0 it is the step of -M from -estimate, and the new estimate
**    has its sign changed; zero stays plus zero.
** 4) A step only proposes. Nothing is promised of how good the new estimate
**    is, nor that steps come nearer to the root: near the parabolic limit
**    they may go astray, stand still or be flat. What is certain about it the
**    judge says; so end a loop of steps on its verdict, and not on a small
**    residual or a small step. A handed estimate never gets code 4.
** 5) The verdict is stripeawn_judge's for the same m, a, n and depth and the
**    new estimate, and what the notes there say of it holds here too.
*/
struct stripeawn_judged_step stripeawn_step_judged(int32_t m, uint32_t a,
                                                   double estimate,
                                                   uint32_t method,
                                                   uint32_t n,
                                                   uint32_t depth);

struct stripeawn_stepped stripeawn_step(int32_t m, uint32_t a,
                                        double estimate, uint32_t method);

/*
** stripeawn_flyby_sinh: whole-number bounds of the hyperbolic sine.
**
** Given:
**    x       units, 0 to 2^29
** Returned:
**    lo      lower bound of 2^28 sinh(x / 2^28)
**    hi      upper bound of it
** Status:
**    10 = x above 2^29
**    0 = done
** Notes:
** 1) lo is at most 2^28 S(x) and hi at least 2^28 (S(x) + t), with S the
**    Taylor sum of sinh up to degree 19 and t its last term once more, for
**    all the terms that S leaves out. Both are 0 at x = 0; elsewhere lo is
**    below hi.
** 2) Neither is above 2^30, which is 4: at 2^29 they are 973577924 and
**    973577934.
*/
struct stripeawn_bounds stripeawn_flyby_sinh(uint32_t x);

/*
** stripeawn_flyby_lower_end: is a flyby's root certainly not below x?
** stripeawn_flyby_upper_end: is a flyby's root certainly not above x?
**
** Given:
**    x       to test, units, 0 to 2^29
**    m       M in units, 0 to 2^31 - 1
**    b       B, which is 2^28 e, 2^28 to 2^30
** Returned:
**    accepted   1 where the test holds, otherwise 0:
**               lower:   2^28 (x + m) >= b hi
**               upper:   2^28 (x + m) <= b lo
**               (lo and hi as stripeawn_flyby_sinh gives them)
** Status:
**    1 = m above 2^31 - 1
**    2 = b below 2^28 or above 2^30
**    10 = x above 2^29
**    0 = done
** Notes:
** 1) As a lower end 0 is always accepted; as an upper end it is accepted
**    where m is 0, and only there. Both ends are then accepted at 0, the
**    root; nowhere else are they at one x.
** 2) An x may be neither. The accepted ones are unbroken runs: every x below
**    an accepted lower end is one, and so is every x from an accepted upper
**    end up to 2^29.
*/
struct stripeawn_end stripeawn_flyby_lower_end(uint32_t x, uint32_t m,
                                               uint32_t b);

struct stripeawn_end stripeawn_flyby_upper_end(uint32_t x, uint32_t m,
                                               uint32_t b);

/*
** stripeawn_flyby_enclose: two numbers with a flyby's root between them.
**
** Given:
**    m       M in units, 0 to 2^31 - 1
**    b       B, which is 2^28 e, 2^28 to 2^30
** Returned:
**    lower   the greatest accepted lower end, units
**    upper   the least accepted upper end, units
** Status:
**    1 = m above 2^31 - 1
**    2 = b below 2^28 or above 2^30
**    15 = 2^29 is not accepted as an upper end
**    0 = done
** Notes:
** 1) Code 15 says that the root may lie beyond 2 radians, where the bounds
**    do not reach: M is then near e sinh 2 - 2 or above. For e = 1 this is
**    so from m = 436707013 up, for e = 2 from m = 1410284937 up; from
**    e = 2.75721 up (b = 740131758) no m gets it.
** 2) Near the parabolic limit an enclosure is as wide as the problem makes
**    it: with e close to 1 and M close to 0, one unit more in M moves the
**    root by many thousands.
*/
struct stripeawn_enclosure stripeawn_flyby_enclose(uint32_t m, uint32_t b);

/*
** stripeawn_flyby_judge: is an estimate within n units of a flyby's root?
**
** Given:
**    m          M in units, 0 to 2^31 - 1
**    b          B, which is 2^28 e, 2^28 to 2^30
**    estimate   in radians, 0 to 2; either zero counts as 0
**    n          tolerance, units, 0 to 65535
** Returned:
**    verdict    16 Confirmed, 17 Refuted, 18 Undecided
** Status:
**    1 = m above 2^31 - 1
**    2 = b below 2^28 or above 2^30
**    4 = estimate NaN, infinite, below 0 or above 2^29 units, which is 2
**    5 = n above 65535
**    0 = done
** Notes:
** 1) Confirmed promises that the root is at most n units from the estimate,
**    Refuted that it is more than n units away; both mean the exact values
**    of M, e and the estimate. Undecided promises nothing. No verdict speaks
**    of the residual e sinh X - X - M, which may be small far from the root.
** 2) What is Confirmed stays so with every greater n, and what is Refuted
**    with every lesser one. After Undecided ask stripeawn_flyby_enclose: an
**    estimate from its lower to its upper end is Confirmed with every n from
**    upper - lower up.
** 3) Where stripeawn_flyby_enclose answers 15, an estimate may still be
**    judged. The root may then be beyond every estimate that is taken.
*/
struct stripeawn_verdict stripeawn_flyby_judge(uint32_t m, uint32_t b,
                                               double estimate, uint32_t n);

/*
** stripeawn_greatest_width: how far apart the ends of an enclosure can be.
** stripeawn_least_n: the least tolerance sure to confirm a right answer.
**
** Given:
**    a   A, 0 to 2^28
** Returned:
**    the figure, units; 0 where none exists
** Notes:
** 1) Both are for M, of either sign, and A on the grid, and for depth 5. With
**    lower and upper as stripeawn_enclose gives them, and w = upper - lower,
**        (w - 2) (2^28 - A) < 64 A    wherever w is above 2
**    and the greatest width is the greatest w that this allows. It is 2 at
**    A = 0, where w is 0 in fact, and at most 65 where e is at most 1/2.
** 2) stripeawn_judge confirms every estimate from lower to upper with every n
**    up to 65535 for which
**        (n - 1) (2^28 - A) >= 64 A
**    and the least n is the least of them. With a lesser n it may still do
**    so.
** 3) The judge refutes every estimate which, rounded down to f and up to c,
**    has one of
**        (lower - (f + n + 1)) (2^28 - A) >= 32 A
**        ((c - n - 1) - upper) (2^28 - A) >= 32 A
** 4) No figure exists at A = 2^28, where e = 1, nor above, where A is out of
**    range. From A = 268173560 up no n that may be given is large enough, and
**    the least n is 0. From A = 1 up to there both figures are one number.
** 5) The greatest width may be above 2^32, and from A = 268435436 up it is
**    above T and says nothing.
** 6) An e off the grid has no figure of its own. Those of A = 2^28 e, rounded
**    down, are near what one would be, and nothing is promised of them.
*/
static inline uint64_t stripeawn_greatest_width(uint32_t a)
{
    if (a >= STRIPEAWN_A_MAX)
        return 0;
    if (a == 0)
        return 2;
    return 2 + ((uint64_t)a * 64 - 1) / (STRIPEAWN_A_MAX - a);
}

static inline uint32_t stripeawn_least_n(uint32_t a)
{
    uint64_t room, n;

    if (a >= STRIPEAWN_A_MAX)
        return 0;
    room = STRIPEAWN_A_MAX - a;
    n = 1 + ((uint64_t)a * 64 + (room - 1)) / room;
    return n <= STRIPEAWN_N_MAX ? (uint32_t)n : 0;
}

/*
** stripeawn_judge_claims: judges every record of a claims file.
**
** Given:
**    claims        claim records, one after the other (Note 1)
**    claims_len    their length in bytes
**    answers       buffer with room for one byte per claim
**    answers_len   its length in bytes
** Returned:
**    count         the number of claims
**    answers       per claim one byte: 16, 17 or 18 as stripeawn_judge
**                  gives them, or its record's code, the first that applies
**                  of 9, 1, 2, 3, 4
** Status:
**    7 = claims_len is no multiple of 20
**    8 = answers_len is less than the number of claims
**    0 = done
** Notes:
** 1) A record has 20 bytes; numbers have their lowest byte first, and M is in
**    two's complement:
**        0 M (4 bytes)    4 A (4)    8 estimate in radians, a double (8)
**       16 N (2)         18 depth   19 reserved, zero
** 2) A bad record is answered by its code byte. It refuses nothing else: the
**    code of the batch stays 0.
** 3) Bytes of answers from count on stay as they were; with code 7 or 8 all
**    of them do. Zero claims: count 0, nothing written.
** 4) Both pointers must be valid for their lengths, which are at most
**    PTRDIFF_MAX. With length 0 a pointer may be NULL, as that of an empty
**    std::vector is. They need no alignment.
** 5) The buffers must not overlap. During the call no other thread may write
**    claims, or read or write answers.
*/
struct stripeawn_batch stripeawn_judge_claims(const uint8_t *claims,
                                              size_t claims_len,
                                              uint8_t *answers,
                                              size_t answers_len);

#ifdef __cplusplus
}
#endif

#endif
