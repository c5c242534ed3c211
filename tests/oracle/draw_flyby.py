"""Random flybys: problems, angles and estimates of each entry's cases.

As in cases.py most are drawn so that a rule is about to turn: an M for which
an end test just holds or just fails, or for which the last angle just is or is
not an upper end, an estimate whose tolerance just reaches the root. A few have
an input outside its limit.
"""
import doubles
import draws
import wire
from draw_claims import rooted_claim, turning_claim
from draws import small
from flyby import bounds
from given import Flyby
from limits import FLYBY_B, FLYBY_M, FLYBY_X, ONE, TOLERANCE, UNIT

# The last estimate that is taken.
TOP = doubles.of_units(FLYBY_X)
# One input in so many is outside its limit.
ONCE_IN = 60

# ---- Problems --------------------------------------------------------------

SHAPES = (lambda rng: rng.randrange(ONE, FLYBY_B + 1),
          lambda rng: min(ONE + small(rng, 30), FLYBY_B),
          lambda rng: ONE + small(rng, 8),
          lambda rng: ONE,
          lambda rng: FLYBY_B - small(rng, 20))
MEANS = (lambda rng: rng.randrange(FLYBY_M + 1),
         lambda rng: small(rng, 31),
         lambda rng: small(rng, 31),
         lambda rng: FLYBY_M - small(rng, 20))
ANGLES = (lambda rng: rng.randrange(FLYBY_X + 1),
          lambda rng: min(small(rng, 30), FLYBY_X),
          lambda rng: FLYBY_X - small(rng, 20))


def shape(rng):
    return draws.one_of(rng, SHAPES)


def angle(rng):
    return draws.one_of(rng, ANGLES)


def solved(rng, angles, shapes):
    """X and a problem of which it is, or just is not, an end: the rule solved
    for M, then moved by a few units."""
    while True:
        x, b = angles(rng), shapes(rng)
        m = draws.turned(rng, b * rng.choice(bounds(x)) // UNIT - x)
        if 0 <= m <= FLYBY_M:
            return x, Flyby(m, b)


def turning(rng, _depth=None):
    """Anywhere. A flyby has no depth."""
    return solved(rng, angle, shape)


def bordering(rng):
    """About the M from which on there is no enclosure."""
    return solved(rng, lambda _: FLYBY_X, shape)[1]


def anywhere(rng):
    return Flyby(draws.one_of(rng, MEANS), shape(rng))


def parabolic(rng):
    """M near 0 and e near 1, where the root moves far with either."""
    return Flyby(small(rng, 14), ONE + small(rng, 16))


def flat(rng):
    """Near e = 1 with the root at some thousandth of a radian or more, where
    one unit of M is still many of the root, so that the ends are far apart."""
    return solved(rng, lambda rng: rng.randrange(2 ** 20, 2 ** 28),
                  lambda rng: ONE + small(rng, 16))[1]


ORBITS = (lambda rng: turning(rng)[1], anywhere, bordering, parabolic, flat)


def orbit(rng):
    return draws.one_of(rng, ORBITS)


# ---- Claims ----------------------------------------------------------------

def limit_claim(rng):
    """N reaches from the estimate to 0 or to the last angle, which the root is
    near, or ends beside it."""
    n = draws.tolerance(rng)
    if rng.randrange(2):
        given, limit = bordering(rng), FLYBY_X - n
    else:
        given, limit = Flyby(small(rng, 17), shape(rng)), n
    return given, limit + rng.randrange(-2, 3), n


def far_claim(rng):
    """The estimate has nothing to do with the root."""
    return orbit(rng), angle(rng), draws.tolerance(rng)


CLAIMS = (lambda rng: turning_claim(rng, turning, None),
          lambda rng: turning_claim(rng, turning, None),
          lambda rng: rooted_claim(rng, turning),
          limit_claim,
          far_claim)


def claim(rng):
    """A problem, the bits of an estimate and N."""
    given, units, n = draws.one_of(rng, CLAIMS)
    return given, draws.estimate(rng, units, FLYBY_X), n


# ---- Cases -----------------------------------------------------------------

def spoil(rng, value, limit, *others):
    return draws.spoil(rng, value, limit, *others, once_in=ONCE_IN)


def spoil_problem(rng, given):
    """Of B there are also those below its limit."""
    return Flyby(spoil(rng, given.m, FLYBY_M),
                 spoil(rng, given.b, FLYBY_B, ONE - 1, small(rng, 28), 0))


def spoil_estimate(rng, bits):
    """Now and then below 0, beyond the limit, a NaN, a minus zero, of every
    kind or any 64 bits."""
    if rng.randrange(ONCE_IN):
        return bits
    nan = doubles.INFINITY + 1 + small(rng, 51)
    return rng.choice((bits ^ doubles.SIGN, TOP + 1 + small(rng, 50),
                       nan, nan ^ doubles.SIGN, doubles.SIGN,
                       rng.choice(doubles.every_kind()),
                       rng.getrandbits(64)))


def sinh_case(rng):
    return wire.flyby_sinh(spoil(rng, angle(rng), FLYBY_X))


def end_case(rng):
    x, given = (turning(rng) if rng.randrange(4)
                else (angle(rng), orbit(rng)))
    side = rng.choice((wire.flyby_lower, wire.flyby_upper))
    return side(spoil(rng, x, FLYBY_X), spoil_problem(rng, given))


def enclosure_case(rng):
    return wire.flyby_enclose(spoil_problem(rng, orbit(rng)))


def verdict_case(rng):
    given, bits, n = claim(rng)
    return wire.flyby_judge(spoil_problem(rng, given),
                            spoil_estimate(rng, bits),
                            spoil(rng, n, TOLERANCE))
