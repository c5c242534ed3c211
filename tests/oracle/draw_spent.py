"""Problems with a root at a small angle, or beside one above which it takes
one pair more to spend the terms or a depth more to have the best bound. M is
from 0 up, on the grid or a double. Cosine's angles of this kind are here too.
"""
import draw_doubles
import draw_grid
import draws
from draws import small
from given import Doubles, Grid
from limits import H, ONE, SPENT, T, UNIT
from rules import bounds

# By number of pairs: the least angles at which the next depth has a better
# bound.
FIRST_BETTER = (16_562_166, 139_161_675, 360_625_618, 640_968_178)
# Cosine's: the greatest angles at which so many pairs spend the terms, and the
# least at which the next depth has a better bound.
COSINE_SPENT = (4_641_734, 89_301_474, 281_537_481, 542_239_754)
COSINE_FIRST_BETTER = (5_520_023, 97_404_086, 298_521_115, 566_871_896)


def beside(rng, angles):
    """From next to one of these to some tenths of a radian away."""
    x = rng.choice(angles) + rng.choice((1, -1)) * small(rng, 26)
    return min(max(x, 0), T)


ANGLES = (lambda rng: small(rng, 20),
          lambda rng: rng.randrange(2 ** 20),
          lambda rng: rng.randrange(SPENT[0] + 2),
          lambda rng: beside(rng, SPENT),
          lambda rng: beside(rng, FIRST_BETTER))


COSINE_ANGLES = (lambda rng: rng.randrange(2 ** 15),
                 lambda rng: rng.randrange(COSINE_SPENT[0] + 2),
                 lambda rng: beside(rng, COSINE_SPENT),
                 lambda rng: beside(rng, COSINE_FIRST_BETTER))


def angle(rng):
    return draws.one_of(rng, ANGLES)


def cosine_angle(rng):
    return draws.one_of(rng, COSINE_ANGLES)


def in_either_way(rng, m, a):
    """On the grid or as doubles, which are on the grid or beside it."""
    way = rng.randrange(3)
    if way == 0:
        return Doubles(draw_doubles.near(rng, m, draw_doubles.M_BITS),
                       draw_doubles.near(rng, a, draw_doubles.E_BITS))
    given = Grid(m, a)
    return given.as_doubles() if way == 1 else given


def anywhere(rng):
    """M near 0 and e near 1: the root is small, or far from M."""
    return in_either_way(rng, small(rng, 14), ONE - small(rng, 16))


def turning(rng, d):
    """As of the grid, at these angles."""
    while True:
        x, a = angle(rng), draw_grid.eccentricity(rng)
        bound = rng.choice(bounds(x, d))
        m = draws.turned(rng, x - a * bound // UNIT)
        if 0 <= m <= H:
            return x, in_either_way(rng, m, a)


def ragged(rng):
    """As of the grid, at these angles."""
    x, a = angle(rng), ONE - small(rng, 22)
    return in_either_way(rng, x - a * bounds(x, 5)[0] // UNIT, a)


def spoil(rng, given):
    family = draw_grid if isinstance(given, Grid) else draw_doubles
    return family.spoil(rng, given)
