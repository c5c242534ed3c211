"""The four operations of binary64 on 64 bits, each rounded once.

A double is read as a whole number times a power of two. The result of an
operation is worked out in whole numbers of any length, and rounded only then:
to nearest, at a tie to even. No float is used. Every NaN is the one NaN.
"""
from doubles import INFINITY, SIGN, is_zero

NAN = INFINITY + 2 ** 51
ONE = 1023 << 52
TWO = 1024 << 52

# The power of two of the least double, and the digits of a double.
LEAST_POWER = -1074
DIGITS = 53
# With so many places a quotient of two doubles has digits enough to round.
PLACES = 2 * DIGITS + 4


def is_nan(bits):
    return bits & ~SIGN > INFINITY


def is_infinite(bits):
    return bits & ~SIGN == INFINITY


def parts(bits):
    """The size of a finite double: a whole number, and the power of two that
    it is multiplied by."""
    exponent, size = bits >> 52 & 2047, bits & 2 ** 52 - 1
    if exponent:
        return size + 2 ** 52, exponent - 1 + LEAST_POWER
    return size, LEAST_POWER


def rounded(sign, size, power):
    """The double nearest to size times 2^power, at a tie the even one. Its
    digits end 53 places from the first, or with those of the least double.
    As the exponent stands above them, one that is carried over makes it
    greater; what is too great becomes an infinity."""
    if size == 0:
        return sign
    drop = max(size.bit_length() - DIGITS, LEAST_POWER - power)
    if drop > 0:
        half = 1 << drop - 1
        rest = size & 2 * half - 1
        size >>= drop
        if rest > half or (rest == half and size & 1):
            size += 1
    else:
        size <<= -drop
    return sign + min(size + (power + drop - LEAST_POWER << 52), INFINITY)


def add(x, y):
    """A sum that is exactly 0 is plus zero, unless both are minus zeros."""
    if x & INFINITY == INFINITY or y & INFINITY == INFINITY:
        return add_infinite(x, y)
    (a, p), (b, q) = parts(x), parts(y)
    if p > q:
        a, p = a << p - q, q
    else:
        b <<= q - p
    total = (-a if x & SIGN else a) + (-b if y & SIGN else b)
    if total == 0:
        return x & y & SIGN
    return rounded(SIGN if total < 0 else 0, abs(total), p)


def add_infinite(x, y):
    """One of them is an infinity or a NaN, at least."""
    if is_nan(x) or is_nan(y):
        return NAN
    if is_infinite(x) and is_infinite(y):
        return x if x == y else NAN
    return x if is_infinite(x) else y


def subtract(x, y):
    return add(x, y ^ SIGN)


def multiply(x, y):
    sign = (x ^ y) & SIGN
    if x & INFINITY == INFINITY or y & INFINITY == INFINITY:
        if is_nan(x) or is_nan(y) or is_zero(x) or is_zero(y):
            return NAN
        return sign + INFINITY
    (a, p), (b, q) = parts(x), parts(y)
    return rounded(sign, a * b, p + q)


def divide(x, y):
    """By a zero: an infinity, or of a zero a NaN."""
    sign = (x ^ y) & SIGN
    if x & INFINITY == INFINITY or y & INFINITY == INFINITY:
        if is_nan(x) or is_nan(y) or (is_infinite(x) and is_infinite(y)):
            return NAN
        return sign + INFINITY if is_infinite(x) else sign
    if is_zero(y):
        return NAN if is_zero(x) else sign + INFINITY
    (a, p), (b, q) = parts(x), parts(y)
    quotient, rest = divmod(a << PLACES, b)
    # One digit behind the others says whether the division left anything.
    return rounded(sign, 2 * quotient + (rest > 0), p - q - PLACES - 1)
