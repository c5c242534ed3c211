"""What is given, posed for the rules: its cell, its code and its mirror.

It has nothing in common with the library, and no floating point: a double is
read as its 64 bits. The comment of a function begins with the number of the
rule that it follows.
"""
from typing import NamedTuple

import doubles
from given import Grid
from limits import DEPTHS, H, ONE, T, TOLERANCE


class Cell(NamedTuple):
    """R1: M, or on the mirror -M, and A, each rounded down and up."""
    m_down: int
    m_up: int
    a_down: int
    a_up: int


class Posed(NamedTuple):
    """R4: the code 1, 2 or 0, whether the problem is the mirror of what was
    given, and with code 0 the cell."""
    code: int
    mirrored: bool
    cell: Cell


def up(numerator, divisor):
    """The quotient rounded up; // alone rounds down."""
    return -(-numerator // divisor)


# ---- The mirror ------------------------------------------------------------

def mirror(number, mirrored):
    """R59: a number given beside M, or one of an answer."""
    return -number if mirrored else number


def mirror_double(bits, mirrored):
    """R59: the sign is the highest bit."""
    return bits ^ 2 ** 63 if mirrored else bits


# ---- A double in units -----------------------------------------------------

def floor_and_ceiling(bits, limit):
    """R41, R60: f and c of a double from 0 up to a limit in units, which
    either zero is, or None where it is none."""
    negative, exponent = bits >> 63, bits >> 52 & 2047
    mantissa = bits & 2 ** 52 - 1
    if exponent == 2047 or (negative and (exponent or mantissa)):
        return None
    if exponent:
        mantissa += 2 ** 52
    power = max(exponent, 1) - 1075 + 28
    if power >= 0:
        f = c = mantissa * 2 ** power
    else:
        f, c = mantissa // 2 ** -power, up(mantissa, 2 ** -power)
    return None if c > limit else (f, c)


def estimate_units(bits, mirrored):
    """R41, R59: f and c of an estimate, or None where it is none for M."""
    return floor_and_ceiling(mirror_double(bits, mirrored), T)


# ---- Posing ----------------------------------------------------------------

def pose(given):
    """R4: of the grid or of doubles."""
    if isinstance(given, Grid):
        return pose_grid(given.m, given.a)
    return pose_doubles(given.m, given.e)


def pose_grid(m, a):
    """R5, R59: both roundings are the number itself."""
    size = abs(m)
    code = 1 if size > H else 2 if a > ONE else 0
    return Posed(code, m < 0, None if code else Cell(size, size, a, a))


def pose_doubles(m, e):
    """R60: a negative M is mirrored first, however small it is; e has no
    mirror."""
    mirrored = doubles.is_negative(m)
    mean = floor_and_ceiling(mirror_double(m, mirrored), H)
    shape = floor_and_ceiling(e, ONE)
    code = 1 if mean is None else 2 if shape is None else 0
    return Posed(code, mirrored, None if code else Cell(*mean, *shape))


# ---- Other codes -----------------------------------------------------------

def depth_code(depth):
    """R5, code 3."""
    return 0 if depth in DEPTHS else 3


def estimate_code(units):
    """R5, code 4: of f and c, or None."""
    return 4 if units is None else 0


def tolerance_code(n):
    """R5, code 5."""
    return 5 if n > TOLERANCE else 0


def angle_code(x):
    """R5, code 10. Below 0 is an X that opposes M."""
    return 0 if 0 <= x <= T else 10
