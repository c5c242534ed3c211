"""Edge cases of flybys, R81 to R89: each limit with its neighbours, every code
with every other, every kind of double, and where an end or a verdict is about
to turn.
"""
from itertools import product

import doubles
import wire
from draw_flyby import TOP
from flyby import bounds
from given import Flyby
from limits import FLYBY_B, FLYBY_M, FLYBY_X, H, ONE, T, TOLERANCE, UNIT

FAR = 2 ** 32 - 1
# From 16,384 up Q- is above 0. The last would be negative if they were read as
# signed.
ANGLES = (0, 1, 2, 16_383, 16_384, 16_385, 524_288, 756_157, ONE - 1, ONE,
          FLYBY_X - 1, FLYBY_X, FLYBY_X + 1, H, T, T + 1, 2 * FLYBY_X,
          FLYBY_M, FLYBY_M + 1, FAR - FLYBY_X, FAR)
MEANS = (0, 1, 2, 9, 10, ONE, H, H + 1, FLYBY_M - 1, FLYBY_M, FLYBY_M + 1,
         FAR)
# Between the fourth and the fifth lies the last B with which M can be too
# great for an enclosure.
SHAPES = (ONE, ONE + 1, 2 * ONE, 740_131_757, 740_131_758, FLYBY_B - 1,
          FLYBY_B)
REFUSED_SHAPES = (0, 1, ONE - 1, FLYBY_B + 1, FAR)
# 65,536 would be 0 if only two bytes of it were read.
TOLERANCES = (0, 1, 1_000, TOLERANCE, TOLERANCE + 1, FAR)


def on_limits(means=MEANS):
    return [Flyby(m, b) for m, b in product(means, SHAPES + REFUSED_SHAPES)]


def sinhs():
    """The angles with their neighbours."""
    near = {x + off for x in ANGLES for off in range(-3, 4)}
    return [wire.flyby_sinh(x) for x in sorted(near) if 0 <= x <= FAR]


def ends():
    return [side(x, given) for x, given in product(ANGLES, on_limits())
            for side in (wire.flyby_lower, wire.flyby_upper)]


def last_means():
    """About the last M that has an enclosure, and from there up."""
    for b in (*SHAPES, ONE + 2, ONE + 65_536, 3 * ONE // 2, 700_000_000):
        border = b * bounds(FLYBY_X)[0] // UNIT - FLYBY_X
        for off in (*range(-5, 25), 1_000, 100_000):
            if border + off <= FLYBY_M:
                yield Flyby(border + off, b)


def near_parabolic():
    """Roots far apart."""
    return [Flyby(m, ONE + off) for m, off in product(
        (*range(13), 100, 1_000, 100_000),
        (0, 1, 2, 3, 100, 65_536, 2 ** 24))]


def enclosures():
    every = (*on_limits(), *last_means(), *near_parabolic())
    return [wire.flyby_enclose(given) for given in every]


def estimates():
    """Every kind of double, and those about the last that is taken."""
    near = (doubles.of_units(FLYBY_X - 1), TOP - 1, TOP, TOP + 1, TOP + 2,
            doubles.of_units(FLYBY_X, 1, 1), doubles.of_units(FLYBY_X + 1),
            doubles.of_units(2 * FLYBY_X))
    return [*doubles.every_kind(), *(bits + sign for bits in near
                                     for sign in (0, doubles.SIGN))]


def verdicts():
    every = product(on_limits((0, 1, ONE, FLYBY_M, FLYBY_M + 1, FAR)),
                    estimates(), TOLERANCES)
    return [wire.flyby_judge(*claim) for claim in every]


def solved(x):
    """Problems of which X is, or just is not, an end, for some B."""
    for b, bound, off in product(SHAPES, bounds(x), (-1, 0, 1, 2)):
        m = b * bound // UNIT - x + off
        if 0 <= m <= FLYBY_M:
            yield Flyby(m, b)


def turns():
    """An angle at which a test turns, as either end; and in turn as each of
    the four angles that a verdict tests, on a unit and off it."""
    found = []
    for x in (1, 2, 16_384, 524_288, 756_157, 2 ** 24, ONE, 400_000_000,
              FLYBY_X - 70_000, FLYBY_X):
        for given in solved(x):
            found += [wire.flyby_lower(x, given), wire.flyby_upper(x, given)]
            for n, part in product((0, 3, TOLERANCE), ((0, 0), (1, 1))):
                units = (x + n, x - n, x - n - 1, x + n + 1)
                found += [wire.flyby_judge(
                    given, doubles.of_units(each, *part), n)
                    for each in units if 0 <= each <= FLYBY_X]
    return found


def limits():
    """N reaches from the estimate to 0 or to the last angle, and up to two
    units less far or past it, with the root by that limit."""
    few = [Flyby(m, b) for m, b in product((0, 1, 2, 3, 10, 43), SHAPES)]
    found = []
    for n, off, part in product((0, 1, 64, 1_000, TOLERANCE), range(-2, 3),
                                ((0, 0), (1, 1), (1, 20))):
        for units, every in ((n + off, few),
                             (FLYBY_X - n + off, [*solved(FLYBY_X)])):
            if 0 <= units <= FLYBY_X:
                bits = doubles.of_units(units, *part)
                found += [wire.flyby_judge(given, bits, n) for given in every]
    return found
