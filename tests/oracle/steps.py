"""A step in doubles, R75 to R79, with binary64's operations in whole numbers.

As rules.py it has nothing in common with the library, and no floating point:
a double is its 64 bits. The comment of a function begins with the number of
the rule that it follows.
"""
from functools import lru_cache

import binary64
import cosine
import rules
from binary64 import divide, multiply, subtract
from cells import (depth_code, estimate_code, estimate_units,
                   floor_and_ceiling, mirror_double, pose, tolerance_code)
from doubles import bits_of, is_negative, is_zero
from limits import DEPTHS, T

# R77
NEWTON, HALLEY, FLAT = 1, 2, 3
METHODS = (NEWTON, HALLEY)
NAMES = {NEWTON: "Newton", HALLEY: "Halley"}
# R6
CODES = (1, 2, 3, 4, 5, 21)


# ---- A problem as it is posed ----------------------------------------------

def over_radian(number):
    """R75: a whole number over 2^28, which doubles hold exactly: where one
    did not, this would raise ValueError."""
    return bits_of(number, 28)


def taken(m, a, estimate, f):
    """R75, R76: g, F and D."""
    s, k, mean, e = map(over_radian, (rules.bounds(f, DEPTHS[-1])[0],
                                      cosine.bounds(f, DEPTHS[-1])[0], m, a))
    g = multiply(e, s)
    return (g, subtract(subtract(estimate, mean), g),
            subtract(binary64.ONE, multiply(e, k)))


def newton(estimate, _g, left, slope):
    """R76: the divisor and the new estimate."""
    return slope, subtract(estimate, divide(left, slope))


def halley(estimate, g, left, slope):
    """R76."""
    divisor = subtract(multiply(multiply(binary64.TWO, slope), slope),
                       multiply(left, g))
    numerator = multiply(multiply(binary64.TWO, left), slope)
    return divisor, subtract(estimate, divide(numerator, divisor))


def is_flat(divisor, new):
    """R77: the new estimate would get code 4, or the divisor is a zero."""
    return is_zero(divisor) or floor_and_ceiling(new, T) is None


def handed(divisor, new, mirrored, method):
    """R77, R59: the number of the step, and the bits beside it."""
    if is_flat(divisor, new):
        return FLAT, 0
    return method, 0 if is_zero(new) else mirror_double(new, mirrored)


# ---- The entries -----------------------------------------------------------

def method_code(method):
    """R5, code 21."""
    return 0 if method in METHODS else 21


@lru_cache(maxsize=20_000)
def made(given, bits, method):
    """R76, R78: the code, and with code 0 the divisor and the new estimate of
    the problem as it is posed, and whether that is the mirror of the given.
    """
    code, mirrored, cell = pose(given)
    units = estimate_units(bits, mirrored)
    code = code or estimate_code(units) or method_code(method)
    if code:
        return code, None
    estimate = mirror_double(bits, mirrored)
    numbers = taken(cell.m_down, cell.a_down, estimate, units[0])
    step_of = newton if method == NEWTON else halley
    return 0, (*step_of(estimate, *numbers), mirrored)


def step(given, bits, method):
    """R78."""
    code, found = made(given, bits, method)
    return (code, 0, 0) if code else (0, *handed(*found, method))


def step_judged(given, bits, method, n, depth):
    """R79, R6: of the step's code, that of the depth and that of N the first
    in order. The step's own is the first of its codes."""
    code, number, new = step(given, bits, method)
    found = {code, depth_code(depth), tolerance_code(n)}
    code = next((each for each in CODES if each in found), 0)
    if code:
        return code, 0, 0, 0
    verdict = 0 if number == FLAT else rules.judge(given, new, n, depth)[1]
    return 0, number, new, verdict


# ---- For the counts --------------------------------------------------------

def way(given, bits, method):
    """In a few words how a step ends that has code 0."""
    _, (divisor, new, _) = made(given, bits, method)
    if is_zero(divisor):
        return "flat by its divisor"
    if is_flat(divisor, new):
        return "flat below 0" if is_negative(new) else "flat above T"
    name = NAMES[method]
    return f"{name} to zero" if is_zero(new) else name
