"""Doubles as their 64 bits, made from whole numbers and read as fractions."""
import struct
from fractions import Fraction

from limits import H, T, UNIT

SIGN = 2 ** 63
INFINITY = 0x7FF << 52
GREATEST = INFINITY - 1
LEAST_NORMAL = 1 << 52
# The double nearest to pi, which is above H units.
PI = 0x400921FB54442D18
NANS = (INFINITY + 1, INFINITY + 2 ** 51, INFINITY + 2 ** 51 + 12_345,
        INFINITY + 2 ** 52 - 1)


def bits_of(numerator, shift):
    """The bits of numerator / 2^shift, which must be a normal double or 0."""
    if numerator == 0:
        return 0
    if numerator < 0:
        return SIGN + bits_of(-numerator, shift)
    length = numerator.bit_length()
    if length > 53:
        raise ValueError("more than 53 bits")
    exponent = length - 1 - shift + 1023
    if not 0 < exponent < 2047:
        raise ValueError("not a normal double")
    return (exponent << 52) + (numerator << 53 - length) - 2 ** 52


def of_units(units, part=0, places=0):
    """The bits of units + part / 2^places units, in radians."""
    return bits_of((units << places) + part, 28 + places)


def of_float(value):
    """The bits of one of Python's own floats, which are doubles."""
    return struct.unpack("<Q", struct.pack("<d", value))[0]


def to_float(bits):
    return struct.unpack("<d", struct.pack("<Q", bits))[0]


def is_negative(bits):
    """Whether it is below 0: neither a minus zero nor a NaN is."""
    return SIGN < bits <= SIGN + INFINITY


def is_zero(bits):
    return bits in (0, SIGN)


def in_units(bits):
    """The number itself, in units; None for an infinity and for a NaN."""
    exponent, mantissa = bits >> 52 & 2047, bits % 2 ** 52
    if exponent == 2047:
        return None
    if exponent:
        mantissa += 2 ** 52
    power = max(exponent, 1) - 1075 + 28
    size = Fraction(mantissa << max(power, 0), 1 << max(-power, 0))
    return -size if bits & SIGN else size


def every_kind():
    """Zeros, subnormals, normals on and off the grid and beside the limits,
    infinities and NaNs, and each with the other sign too."""
    t_bits, one = of_units(T), of_units(UNIT)
    usual = [
        0, 1, 2, LEAST_NORMAL - 1, LEAST_NORMAL, LEAST_NORMAL + 1,
        of_units(0, 1, 20), of_units(0, 1, 1), of_units(1) - 1, of_units(1),
        of_units(1) + 1, of_units(1, 1, 1), of_units(2), of_units(2) + 1,
        of_units(524_288), of_units(524_288) - 1, of_units(65_535),
        of_units(65_536, 1, 3), one - 1, one, one + 1, of_units(H) - 1,
        of_units(H), of_units(H) + 1, of_units(T - 1),
        of_units(T - 1, 1, 1), t_bits - 1, t_bits, t_bits + 1,
        of_units(T + 1), of_units(2 ** 32), of_units(2 ** 32 + 7),
        bits_of(1, -100), GREATEST, INFINITY,
    ]
    return [bits + sign for bits in (*usual, *NANS) for sign in (0, SIGN)]
