"""The exact sums of sinh, R83, and the left side of a flyby's equation.

Every term of sinh is above 0 for x above 0, so that S_n(x), the sum up to term
n, is at most sinh x. From term n on each is at most half of the one before
where x^2 <= (n + 1) (2 n + 3), and those behind term n are together at most
that term, t_n: there sinh x is at most S_n(x) + t_n(x). For e >= 1 the left
side e sinh X - X - M rises with X, so that the root is not below an X where it
is at most 0, and not above one where it is at least 0. No bound of the library
and no rounding is in this.
"""
import exact
from limits import UNIT

# R83, with S_9 and t_9; and a longer sum that says where the true root is.
# Either is good up to more than three radians.
LAST, LONG = 9, 16


def sums(x, n, parts=1):
    """S_n and S_n + t_n in so many parts of a unit, in which X is too: two
    numerators and their denominator."""
    low, whole = exact.scaled_sum(x, n, parts, 1)
    return low, low + x ** (2 * n + 1), whole


def left_sides(x, given, n, parts=1):
    """e S_n(X) - X - M, and the same with S_n + t_n. Both are multiplied by
    one number above 0, so that it is their sign that counts."""
    low, high, whole = sums(x, n, parts)
    others = UNIT * whole * (x + given.m * parts)
    return given.b * low - others, given.b * high - others


def is_lower(x, given, n=LAST, parts=1):
    """R86: with the longer sum, that the root is not below X."""
    return left_sides(x, given, n, parts)[1] <= 0


def is_upper(x, given, n=LAST, parts=1):
    """R86: with the longer sum, that the root is not above X."""
    return left_sides(x, given, n, parts)[0] >= 0


def scaled(units, n):
    """Exact units less and plus N, and the parts of a unit that they are in.
    An X below 0 is as good as 0: no root is below."""
    parts = units.denominator
    low, high = (units.numerator + sign * n * parts for sign in (-1, 1))
    return low, high, parts


def root_within(units, n, given):
    """Whether it is certain that the root is at most N units away."""
    low, high, parts = scaled(units, n)
    return (is_lower(max(low, 0), given, LONG, parts)
            and is_upper(high, given, LONG, parts))


def root_outside(units, n, given):
    """Whether it is certain that it is farther away."""
    low, high, parts = scaled(units, n)
    return (left_sides(high, given, LONG, parts)[1] < 0
            or (low >= 0 and left_sides(low, given, LONG, parts)[0] > 0))


def sinh_between(x, lo, hi, n):
    """R83: whether lo is at most 2^28 S_n and hi at least 2^28 (S_n + t_n)."""
    low, high, whole = sums(x, n)
    return lo * whole <= low and high <= hi * whole
