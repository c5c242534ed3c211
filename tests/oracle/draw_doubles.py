"""Problems given as two doubles with M from 0 up.

M and e are drawn as a user would have them, from degrees and decimals with
few digits, and where rounding to the grid is about to turn: on a grid point,
one double beside it, anywhere between two; at each limit; down to the least
double. Doubles from 0 up are in the order of their bits.
"""
from math import ceil, floor, ldexp, pi

import doubles
import draw_grid
import draws
import roots
from draws import small
from given import Doubles
from limits import H, ONE, T, UNIT
from rules import bounds

# The greatest of each that is taken.
M_BITS, E_BITS = doubles.of_units(H), doubles.of_units(ONE)


def near(rng, units, limit):
    """Bits of a double on this grid point, one double beside it, or anywhere
    in the unit above it, as far as the limit."""
    point = doubles.of_units(units)
    kind = rng.randrange(4)
    if kind == 0:
        return point
    if kind == 1:
        return min(max(point + rng.choice((1, -1)), 0), limit)
    places = rng.randrange(1, 54 - units.bit_length())
    return min(doubles.of_units(units, rng.getrandbits(places), places), limit)


def few_digits(rng, most, power):
    """A decimal of few digits: a number below most, over a power of ten up
    to this one."""
    return rng.randrange(most) / 10 ** rng.randrange(power + 1)


def any_length(rng, limit):
    """Any bits up to the limit, so that every power of 2 is as frequent."""
    return rng.randrange(limit + 1)


def scaled(rng, powers):
    """Bits of a float below 1, over a random power of 2."""
    return doubles.of_float(ldexp(rng.random(), -rng.randrange(powers)))


def degrees(rng):
    """M as it comes from degrees: at most 180, times pi / 180 in doubles."""
    return min(doubles.of_float(few_digits(rng, 181, 6) * (pi / 180)), M_BITS)


def nearly_one(rng):
    """Nines: 0.9, 0.99 and on, or a decimal with some behind them."""
    size = 10 ** rng.randrange(1, 10)
    return doubles.of_float((size - rng.randrange(1, 10)) / size)


ANOMALIES = (lambda rng: doubles.of_float(rng.random() * (H / UNIT)),
             degrees,
             degrees,
             lambda rng: scaled(rng, 64),
             lambda rng: scaled(rng, 64),
             lambda rng: any_length(rng, M_BITS),
             lambda rng: small(rng, 52),
             lambda rng: M_BITS - small(rng, 40),
             lambda rng: near(rng, draw_grid.anomaly(rng), M_BITS))
ECCENTRICITIES = (lambda rng: doubles.of_float(rng.random()),
                  lambda rng: doubles.of_float(few_digits(rng, 10, 1)),
                  lambda rng: doubles.of_float(few_digits(rng, 10, 4)),
                  nearly_one,
                  lambda rng: doubles.of_float(1 - 2 ** -rng.randrange(54)),
                  lambda rng: E_BITS - small(rng, 6),
                  lambda rng: E_BITS,
                  lambda rng: scaled(rng, 64),
                  lambda rng: rng.choice((any_length(rng, E_BITS),
                                          small(rng, 52), 0, doubles.SIGN)),
                  lambda rng: near(rng, draw_grid.eccentricity(rng), E_BITS))


def eccentricity(rng):
    """At most 1."""
    bits = draws.one_of(rng, ECCENTRICITIES)
    return bits if bits == doubles.SIGN else min(bits, E_BITS)


def anomaly(rng):
    return draws.one_of(rng, ANOMALIES)


def anywhere(rng):
    return Doubles(anomaly(rng), eccentricity(rng))


def rooted(rng):
    """A problem anywhere, with an X at its root or beside it, mostly by few
    units."""
    given = anywhere(rng)
    x = floor(roots.guess(given.own()) * UNIT)
    x += rng.choice((1, -1)) * small(rng, 18)
    return min(max(x, 0), T), given


def turning(rng, d):
    """X and a problem of which it is, or just is not, an end at depth d: the
    rule of one corner solved for M, then moved. As often an M as a user would
    have it, with an X near its root."""
    if rng.randrange(2):
        return rooted(rng)
    while True:
        x, e = draws.angle(rng), eccentricity(rng)
        a = rng.choice((floor, ceil))(doubles.in_units(e))
        bound = rng.choice(bounds(x, d))
        m = draws.turned(rng, x - a * bound // UNIT)
        if 0 <= m <= H:
            return x, Doubles(near(rng, m, M_BITS), e)


def ragged(rng):
    """As on the grid, then moved off it."""
    m, a = draw_grid.ragged(rng)
    return Doubles(near(rng, m, M_BITS), near(rng, a, E_BITS))


def spoil(rng, given):
    return Doubles(draws.spoil_double(rng, given.m, M_BITS),
                   draws.spoil_double(rng, given.e, E_BITS))
