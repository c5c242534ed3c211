"""Cosine, R71 to R74: edge cases, and facts about the library's answers.

The facts hold the bounds against the exact sums of R72 and against the true
cosine, which longer sums have between them. The rule is not used for them,
but for telling where the terms are spent.
"""
from fractions import Fraction
from functools import lru_cache
from itertools import product

import cosine
import draw_spent
import draws
import exact
import roots
import spent
import wire
from draw_spent import COSINE_FIRST_BETTER, COSINE_SPENT
from limits import DEPTHS, UNIT

# These two sums are closer to cosine than R72's, one on either side of it.
LOW_SUM, HIGH_SUM = 15, 16
# R73
WIDTH = 26

# By number of pairs n: the greatest angles with l_2n = 0.
LAST_ZERO = (4_641_792, 89_319_757, 281_741_257, 542_921_355)
# From 16,384 up Q- is above 0, and from 23,171 up so is l_1.
SMALL = (0, 1, 2, 3, 16_383, 16_384, 16_385, 23_170, 23_171, 23_172)
ANGLES = (*SMALL, *(x + off for x in (*COSINE_SPENT, *LAST_ZERO,
                                      *COSINE_FIRST_BETTER)
                    for off in (-1, 0, 1)))


# ---- Edge cases ------------------------------------------------------------

def spent_edges():
    return [wire.cosine(x, d) for x, d in product(ANGLES, DEPTHS)]


# ---- Exact sums ------------------------------------------------------------

def sums_by_terms(x, last):
    """R71: 2^28 C_n(X) for n from 0 to the last, term by term."""
    square = Fraction(x * x, UNIT * UNIT)
    term = total = Fraction(1)
    found = [UNIT * total]
    for k in range(1, last + 1):
        term = term * square / ((2 * k - 1) * 2 * k)
        total += term if k % 2 == 0 else -term
        found.append(UNIT * total)
    return found


@lru_cache(maxsize=20_000)
def scaled_sum(x, n):
    """The same number as numerator and denominator, from the last term
    inwards, as in exact.py."""
    square, numerator, denominator = x * x, 1, 1
    for k in range(n, 0, -1):
        whole = denominator * ((2 * k - 1) * 2 * k) * UNIT * UNIT
        numerator, denominator = whole - square * numerator, whole
    return UNIT * numerator, denominator


def between_sums(x, lo, hi, low_sum, high_sum):
    """Whether lo is at most the one sum and hi at least the other."""
    low, low_whole = scaled_sum(x, low_sum)
    high, high_whole = scaled_sum(x, high_sum)
    return lo * low_whole <= low and high <= hi * high_whole


def greatest_square(low, high):
    """Of the numbers from low to high."""
    return max(low * low, high * high)


def least_square(low, high):
    return 0 if low <= 0 <= high else min(low * low, high * high)


# ---- Facts -----------------------------------------------------------------

def on_circle(x):
    """Whether the sums that have the true sine and the true cosine between
    them leave sin^2 + cos^2 = 1 possible."""
    sides = [[Fraction(*sum_of(x, n)) / UNIT for n in pair]
             for sum_of, pair in (
                 (exact.scaled_sum, (roots.LOW_SUM, roots.HIGH_SUM)),
                 (scaled_sum, (LOW_SUM, HIGH_SUM)))]
    return (sum(least_square(*side) for side in sides) <= 1
            <= sum(greatest_square(*side) for side in sides))


def sums(_ask, rng, count):
    """R71, R72: the fast sums are the sums by terms, every sum is even, odd
    ones never fall and even ones never rise; the longest are cosine's."""
    for _ in range(count):
        x = draws.angle(rng)
        found = sums_by_terms(x, HIGH_SUM)
        yield (None, found == sums_by_terms(-x, HIGH_SUM), f"C_n at -{x}")
        for n in (9, 10, LOW_SUM, HIGH_SUM):
            yield (None, Fraction(*scaled_sum(x, n)) == found[n],
                   f"C_{n} at X={x}")
        for n, (this, after) in enumerate(zip(found, found[2:])):
            yield (None, this <= after if n % 2 else this >= after,
                   f"C_{n} and C_{n + 2} at X={x}")
        yield None, on_circle(x), f"not on the circle at X={x}"


def cosines(ask, rng, count):
    """Bounds hold at every depth, of the sums and of the true cosine, grow
    better with depth, and are at most 26 apart at depth 5."""
    drawn = [draws.angle(rng) for _ in range(count)]
    replies = iter(ask([wire.cosine(x, d) for x in drawn for d in DEPTHS]))
    for x in drawn:
        found = [next(replies)[:3] for _ in DEPTHS]
        for d, (code, lo, hi) in zip(DEPTHS, found):
            case = f"bounds of cosine at X={x} depth={d}: {lo} {hi}"
            yield None, code == 0 and between_sums(x, lo, hi, 9, 10), case
            yield (None, between_sums(x, lo, hi, LOW_SUM, HIGH_SUM),
                   f"{case} are not the true cosine's")
        for (_, lo, hi), (_, next_lo, next_hi) in zip(found, found[1:]):
            yield (None, lo <= next_lo and next_hi <= hi,
                   f"deeper bounds of cosine at X={x}")
        yield (None, 0 <= found[-1][2] - found[-1][1] <= WIDTH,
               f"width of cosine at X={x}")


def spent_cosines(ask, rng, count):
    """R61: from the depth that spends the terms on both bounds are alike."""
    drawn = [draw_spent.cosine_angle(rng) for _ in range(count)]
    replies = iter(ask([wire.cosine(x, d) for x in drawn for d in DEPTHS]))
    for x in drawn:
        found = [next(replies) for _ in DEPTHS]
        for holds, sentence in spent.alike(x, found, cosine.spending_pairs):
            yield None, holds, f"cosine {sentence}"
