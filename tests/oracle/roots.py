"""The true root of an exact problem, between two angles by exact sums.

For x from 0 up a sum that ends in a subtracted term is at most sin x, and one
that ends in an added term at least that. With 0 <= e <= 1 the left side of
the equation rises with x, so that an angle is not above the root where x - M
<= e S_13(x), and not below it where x - M >= e S_14(x). These two sums are
closer together than R19's, and no bound of the library is in them. A negative
M is solved as its mirror.
"""
from math import floor, pi, sin
from typing import NamedTuple

import exact
from limits import UNIT

# Parts of a unit in which roots are counted, and how far apart at most the
# two angles are: a thousandth of a unit, about.
PARTS = 2 ** 20
NEAR = 2 ** 10
LOW_SUM, HIGH_SUM = 13, 14


class Root(NamedTuple):
    """Two angles in parts of a unit, with the root between them."""
    low: int
    high: int

    def lies_outside(self, low, high):
        """Whether it is certain that the root is not from low to high, which
        are in units."""
        return self.high < low * PARTS or self.low > high * PARTS

    def lies_within(self, low, high):
        """Whether it is certain that it is."""
        return low * PARTS <= self.low and self.high <= high * PARTS

    def distances(self, units):
        """How far from an angle in units the root is at the least and at the
        most, in parts of a unit."""
        x = units * PARTS
        return (max(self.low - x, x - self.high, 0),
                max(self.high - x, x - self.low))


def gap(x):
    """x - sin x in floats, where x is small by its series: a difference of
    the two would be all rounding."""
    if x > 1:
        return x - sin(x)
    term = total = x * x * x / 6
    for k in range(2, 9):
        term *= -x * x / (2 * k * (2 * k + 1))
        total += term
    return total


def guess(problem):
    """The root in radians by Newton's steps in floats, down from an angle
    above it. It says where to begin, and nothing more: the sums decide."""
    m, a, scale = problem
    m, e, rest = m / scale / UNIT, a / scale / UNIT, 1 - a / scale / UNIT
    x = min(m + e, pi)
    if rest > 0:
        x = min(x, m / rest)
    if e > 0.5:
        x = min(x, (10 * m / e) ** (1 / 3))
    for _ in range(60):
        slope = rest + 2 * e * sin(x / 2) ** 2
        if slope <= 0:
            break
        closer = x - (rest * x + e * gap(x) - m) / slope
        if not 0 <= closer < x:
            break
        x = closer
    return x


def nowhere(_problem):
    """No guess at all."""
    return 0


def is_low(x, problem):
    return exact.holds(exact.lower_spare(x, problem, LOW_SUM, PARTS))


def is_high(x, problem):
    return exact.holds(exact.upper_spare(x, problem, HIGH_SUM, PARTS))


def bracket_posed(problem, begin):
    """Of an M from 0 up: away from where it begins until both angles are
    right, then by halves until they are near."""
    low = floor(begin(problem) * UNIT * PARTS)
    high, step = low + 1, 1
    while not is_low(low, problem):
        low, step = max(low - step, 0), 2 * step
    step = 1
    while not is_high(high, problem):
        high, step = high + step, 2 * step
    while high - low > NEAR:
        middle = (low + high) // 2
        if is_low(middle, problem):
            low = middle
        elif is_high(middle, problem):
            high = middle
        else:
            raise ArithmeticError(f"the root of {problem} is not settled")
    return low, high


def bracket(given, begin=guess):
    """The root of what is given, by its own exact values."""
    m, a, scale = given.own()
    low, high = bracket_posed((abs(m), a, scale), begin)
    return Root(-high, -low) if given.negative else Root(low, high)
