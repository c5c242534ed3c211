"""Eccentricities and orbits of the grid for the figures of R63 to R66.

The orbits have e up to 1 - 2^-20 and an M of either sign.
"""
import draw_grid
import draws
from draws import small
from given import Grid
from limits import ONE

# By powers of two: 2^28 - A is at least 2^8 for an orbit.
ORBIT_POWER = 8


def jump(k):
    """The last A with 64 A / (2^28 - A) at most k: beside it a figure has its
    next value."""
    return k * ONE // (64 + k)


def near_one(rng, power):
    """2^28 less a power of two, from this one up, or less somewhat more, so
    that every distance is as frequent."""
    power = rng.randrange(power, 28)
    return ONE - 2 ** power - rng.choice((0, rng.getrandbits(power)))


# The last way is where widths come nearest to what R63 allows.
ORBITAL = (lambda rng: rng.randrange(ONE - 2 ** ORBIT_POWER + 1),
           lambda rng: small(rng, 28),
           lambda rng: near_one(rng, ORBIT_POWER),
           lambda rng: rng.randrange(2 ** 24, 2 ** 25))
# Any number of 32 bits, mostly with figures.
ANY = (lambda rng: rng.randrange(ONE),
       lambda rng: small(rng, 28),
       lambda rng: near_one(rng, 0),
       lambda rng: jump(small(rng, 34)) + rng.randrange(-1, 3),
       lambda rng: rng.getrandbits(32))


def any_a(rng):
    return max(draws.one_of(rng, ANY), 0)


def orbit(rng):
    """M near 0 as often as anywhere: with e near 1 the ends are farthest
    apart there."""
    m = draw_grid.anomaly(rng)
    return Grid(rng.choice((m, -m)), draws.one_of(rng, ORBITAL))
