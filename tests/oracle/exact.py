"""The exact Taylor sums of sine, and the inequalities that an end must meet.

R8, R14, R19, R20, of angles of either sign. Each term of sine has the other
sign than the one before; with sign 1 all have the same, and the sums are those
of sinh, R83. Inequalities are multiplied out, so that they compare whole
numbers of any size. An Exact of given.py has the M and the A of an inequality.
"""
from fractions import Fraction
from functools import lru_cache

from limits import UNIT


def sums_by_terms(x, last, sign=-1):
    """R8: 2^28 S_n(X) for n from 0 to the last, term by term."""
    point = Fraction(x, UNIT)
    term = total = point
    found = [UNIT * total]
    for k in range(1, last + 1):
        term = sign * term * point * point / (2 * k * (2 * k + 1))
        total += term
        found.append(UNIT * total)
    return found


@lru_cache(maxsize=20_000)
def scaled_sum(x, n, parts=1, sign=-1):
    """The same number as numerator and denominator, worked out from the last
    term inwards without shortening the fraction, which is much faster. X and
    the sum are in so many parts of a unit."""
    square, radian = sign * x * x, (UNIT * parts) ** 2
    numerator, denominator = 1, 1
    for k in range(n, 0, -1):
        whole = denominator * (2 * k * (2 * k + 1)) * radian
        numerator, denominator = whole + square * numerator, whole
    return x * numerator, denominator


def lower_spare(x, problem, n, parts=1):
    """What X - M <= e S_n(X) has to spare: a numerator, and the denominator,
    which is above zero. X is in so many parts of a unit, and so is that."""
    m, a, scale = problem
    numerator, denominator = scaled_sum(x, n, parts)
    whole = UNIT * denominator
    return a * numerator - whole * (x * scale - m * parts), whole * scale


def upper_spare(x, problem, n, parts=1):
    """What X - M >= e S_n(X) has to spare, likewise."""
    spare, denominator = lower_spare(x, problem, n, parts)
    return -spare, denominator


def own_sums(negative):
    """R19: the n of a lower and of an upper end's own inequality. The mirror
    exchanges the ends and so the sums."""
    return (10, 9) if negative else (9, 10)


def holds(spare):
    return spare[0] >= 0


def is_lower(x, given):
    """R19: X meets the inequality with S_9, for M of either sign, and its
    own, both of every exact problem of what is given."""
    sums = {9, own_sums(given.negative)[0]}
    return all(holds(lower_spare(x, problem, n))
               for problem in given.problems() for n in sums)


def is_upper(x, given):
    """R19: X meets the inequality with S_10, likewise, and its own."""
    sums = {10, own_sums(given.negative)[1]}
    return all(holds(upper_spare(x, problem, n))
               for problem in given.problems() for n in sums)


def less_than_32e(spare, a):
    """R20, with e = A / 2^28."""
    return UNIT * spare[0] < 32 * a * spare[1]


def may_refuse_lower(x, given):
    """R20: at one corner at least, X as a lower end fails its own inequality
    or has less than 32 e units to spare. A cell's test is its corners'."""
    n = own_sums(given.negative)[0]
    return any(less_than_32e(lower_spare(x, corner, n), corner.a)
               for corner in given.corners())


def may_refuse_upper(x, given):
    """The same of an upper end."""
    n = own_sums(given.negative)[1]
    return any(less_than_32e(upper_spare(x, corner, n), corner.a)
               for corner in given.corners())


def sine_between(x, lo, hi):
    """R14."""
    low, low_whole = scaled_sum(x, 9)
    high, high_whole = scaled_sum(x, 10)
    return lo * low_whole <= low and high <= hi * high_whole
