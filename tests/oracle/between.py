"""Where a step has to end, between two numbers, whatever its roundings did.

Numbers are whole, in parts of 2^-160. Every operation leaves two that have
its exact result between them, and more room on either side than one rounding
to a double takes. So they say nothing of the last digits of a new estimate,
and for sure what is far off.
"""
from fractions import Fraction
from math import ceil, floor
from typing import NamedTuple

from limits import UNIT

PLACES = 160
WHOLE = 2 ** PLACES
# A rounding moves a number by 2^-53 of itself at most. This is twice that.
ROOM = 52


class Between(NamedTuple):
    low: int
    high: int

    def roomier(self):
        """One part is more than the least double."""
        return Between(self.low - (abs(self.low) >> ROOM) - 1,
                       self.high + (abs(self.high) >> ROOM) + 1)

    def minus(self, other):
        return Between(self.low - other.high,
                       self.high - other.low).roomier()

    def times(self, other):
        products = [a * b for a in self for b in other]
        return Between(min(products) >> PLACES,
                       -(-max(products) >> PLACES)).roomier()

    def over(self, other):
        """None where the divisor may be 0."""
        if other.low <= 0 <= other.high:
            return None
        quotients = [Fraction(a << PLACES, b) for a in self for b in other]
        return Between(floor(min(quotients)), ceil(max(quotients))).roomier()

    def units(self):
        return Fraction(self.low * UNIT, WHOLE), Fraction(self.high * UNIT,
                                                          WHOLE)


def exactly(units):
    """A fraction of units, in radians."""
    scaled = Fraction(units) * WHOLE / UNIT
    return Between(floor(scaled), ceil(scaled))


def new_estimate(method, units, sine, cosine, m, a):
    """R76: Newton's is 1 and Halley's 2. All are in units; None where the
    divisor may be 0."""
    x, s, k, mean, e = map(exactly, (units, sine, cosine, m, a))
    one, two = exactly(UNIT), exactly(2 * UNIT)
    g = e.times(s)
    left, slope = x.minus(mean).minus(g), one.minus(e.times(k))
    if method == 1:
        quotient = left.over(slope)
    else:
        quotient = two.times(left).times(slope).over(
            two.times(slope).times(slope).minus(left.times(g)))
    return None if quotient is None else x.minus(quotient).units()
