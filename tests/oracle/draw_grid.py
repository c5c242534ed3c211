"""Problems of the grid with M from 0 up, drawn in whole numbers."""
import draws
from draws import small
from given import Grid
from limits import H, ONE, UNIT
from rules import bounds

ECCENTRICITIES = (lambda rng: rng.randrange(ONE + 1),
                  lambda rng: ONE - small(rng, 27),
                  lambda rng: ONE - small(rng, 8),
                  lambda rng: small(rng, 28),
                  lambda rng: ONE)
ANOMALIES = (lambda rng: rng.randrange(H + 1),
             lambda rng: min(small(rng, 30), H),
             lambda rng: H - small(rng, 20))


def eccentricity(rng):
    return draws.one_of(rng, ECCENTRICITIES)


def anomaly(rng):
    return draws.one_of(rng, ANOMALIES)


def anywhere(rng):
    return Grid(anomaly(rng), eccentricity(rng))


def turning(rng, d):
    """X and a problem of which it is, or just is not, an end at depth d: the
    rule solved for M, then moved by a few units."""
    while True:
        x, a = draws.angle(rng), eccentricity(rng)
        bound = rng.choice(bounds(x, d))
        m = draws.turned(rng, x - a * bound // UNIT)
        if 0 <= m <= H:
            return x, Grid(m, a)


def ragged(rng):
    """Near e = 1 with the root at some tenth of a radian or more, where the
    accepted angles are often no unbroken run, so that a search with other
    middles ends elsewhere."""
    x, a = rng.randrange(2 ** 25, 2 ** 29), ONE - small(rng, 22)
    return Grid(x - a * bounds(x, 5)[0] // UNIT, a)


def spoil(rng, given):
    return Grid(draws.spoil_signed(rng, given.m, H),
                draws.spoil(rng, given.a, ONE))
