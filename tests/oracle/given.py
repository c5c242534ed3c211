"""What is given of M and e: whole units of the grid, or two doubles, R1, R60;
or M and B of a flyby, R81.

The rules round what is given by themselves (cells.py). Here are its mirror
and, for the facts, its exact values and the corners of its cell.
"""
from functools import lru_cache
from itertools import product
from math import ceil, floor
from typing import NamedTuple

import doubles


class Exact(NamedTuple):
    """One M and one A that nothing has rounded: m / scale and a / scale."""
    m: int
    a: int
    scale: int = 1


class Grid(NamedTuple):
    """M and A in whole units."""
    m: int
    a: int

    @property
    def negative(self):
        return self.m < 0

    @property
    def zero(self):
        return self.m == 0

    def mirror(self):
        return Grid(-self.m, self.a)

    def own(self):
        return Exact(self.m, self.a)

    def corners(self):
        return (self.own(),)

    def problems(self):
        """Every exact problem of which an answer has to be true."""
        return self.corners()

    def as_doubles(self):
        return Doubles(doubles.of_units(self.m), doubles.of_units(self.a))

    def __str__(self):
        return f"M={self.m} A={self.a}"


class Doubles(NamedTuple):
    """M in radians and e, each as the 64 bits of a double."""
    m: int
    e: int

    @property
    def negative(self):
        return doubles.is_negative(self.m)

    @property
    def zero(self):
        return doubles.is_zero(self.m)

    def mirror(self):
        return Doubles(self.m ^ doubles.SIGN, self.e)

    def own(self):
        return exact_problems(self.m, self.e)[0]

    def corners(self):
        return exact_problems(self.m, self.e)[1:]

    def problems(self):
        """Their own and each corner's, as for the grid."""
        return exact_problems(self.m, self.e)

    def __str__(self):
        m, e = map(doubles.to_float, self)
        return f"m={m!r} e={e!r} ({self.m:016x} {self.e:016x})"


class Flyby(NamedTuple):
    """M and B in whole units, neither of them signed."""
    m: int
    b: int

    @property
    def negative(self):
        return False

    def __str__(self):
        return f"M={self.m} B={self.b}"


@lru_cache(maxsize=20_000)
def exact_problems(m, e):
    """R60: the exact problem of two doubles, then the corners of their cell,
    which are fewer than four where one of the two is on the grid."""
    mean, shape = doubles.in_units(m), doubles.in_units(e)
    # Both denominators are powers of 2, so that the greater will do.
    scale = max(mean.denominator, shape.denominator)
    own = Exact(*(scale // number.denominator * number.numerator
                  for number in (mean, shape)), scale)
    sides = ({floor(number), ceil(number)} for number in (mean, shape))
    return (own, *(Exact(*corner) for corner in product(*sides)))
