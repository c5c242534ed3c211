"""Cosine's rules, R71 and R74: sine's with another term 0 and other divisors.

As rules.py it has nothing in common with the library.
"""
from functools import lru_cache

from cells import angle_code, depth_code
from limits import UNIT
from rules import best, pairs_spent, terms

# R71: of terms 1 to 10
DIVISORS = [UNIT * (2 * k - 1) * 2 * k for k in range(1, 11)]


@lru_cache(maxsize=20_000)
def bounds(x, depth):
    """R71: CosLo and CosHi. Term 0 is one radian."""
    return best(*terms(UNIT, x, DIVISORS[:2 * depth]))


def spending_pairs(x):
    """R61, of cosine."""
    return pairs_spent(*terms(UNIT, x, DIVISORS))


def cosine(x, depth):
    """R74."""
    code = depth_code(depth) or angle_code(x)
    return (code, 0, 0) if code else (0, *bounds(x, depth))
