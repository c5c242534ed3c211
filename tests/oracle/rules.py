"""The rules of docs/RULES.md in exact whole numbers, in their order.

It has nothing in common with the library: no code, no table, no floating
point. How M and e become a cell is in cells.py. The comment of a function
begins with the number of the rule that it follows.
"""
from fractions import Fraction
from functools import lru_cache, partial
from itertools import accumulate
from math import floor
from operator import sub

from cells import (angle_code, depth_code, estimate_code, estimate_units,
                   mirror, pose, tolerance_code, up)
from limits import DEPTHS, T, UNIT

# R45
CONFIRMED, REFUTED, UNDECIDED = 16, 17, 18
WORDS = {CONFIRMED: "Confirmed", REFUTED: "Refuted", UNDECIDED: "Undecided"}


# ---- Sine in whole numbers -------------------------------------------------

# R11: of terms 1 to 10
DIVISORS = [UNIT * 2 * k * (2 * k + 1) for k in range(1, 11)]


def terms(first, x, divisors):
    """R10, R11: l_0 and on, and u_0 and on, of a series with this term 0 and
    a divisor for each further term."""
    q_minus, q_plus = x * x // UNIT, up(x * x, UNIT)
    lows, ups = [first], [first]
    for divisor in divisors:
        lows.append(lows[-1] * q_minus // divisor)
        ups.append(up(ups[-1] * q_plus, divisor))
    return lows, ups


def raw_low(lows, ups):
    """R12, at depth 1 and on: each has one more l, with an even number, and
    one more u taken from it, the next."""
    return accumulate(map(sub, lows[0::2], ups[1::2]))


def raw_high(lows, ups):
    """R12, likewise: from u_0 on each has one more u, with an even number, and
    one more l taken from it, the one before."""
    further = accumulate(map(sub, ups[2::2], lows[1::2]))
    return (ups[0] + total for total in further)


def best(lows, ups):
    """R13: the greatest raw low and the least raw high. At depth d there are
    terms 0 to 2d."""
    return max(raw_low(lows, ups)), min(raw_high(lows, ups))


def pairs_spent(lows, ups):
    """R61: after how many pairs the terms are spent. No rule here stops for
    it."""
    return next(n for n in DEPTHS if lows[2 * n] == 0 and ups[2 * n] <= 1)


@lru_cache(maxsize=20_000)
def bounds(x, depth):
    """R13: Lo and Hi."""
    return best(*terms(x, x, DIVISORS[:2 * depth]))


def spending_pairs(x):
    """R61, of sine."""
    return pairs_spent(*terms(x, x, DIVISORS))


def sine(x, depth):
    """R16."""
    code = depth_code(depth) or angle_code(x)
    return (code, 0, 0) if code else (0, *bounds(x, depth))


# ---- End tests -------------------------------------------------------------

def accepts_lower(x, cell, depth):
    """R17: by the lesser M and the lesser product."""
    low = bounds(x, depth)[0]
    return (UNIT * (x - cell.m_down)
            <= min(cell.a_down * low, cell.a_up * low))


def accepts_upper(x, cell, depth):
    """R18: by the greater M and the greater product."""
    high = bounds(x, depth)[1]
    return (UNIT * (x - cell.m_up)
            >= max(cell.a_down * high, cell.a_up * high))


def end_test(x, given, depth, upper):
    """R24, R59: the mirror exchanges the ends."""
    code, mirrored, cell = pose(given)
    x = mirror(x, mirrored)
    code = code or depth_code(depth) or angle_code(x)
    if code:
        return code, 0
    accepts = accepts_lower if upper == mirrored else accepts_upper
    return 0, int(accepts(x, cell, depth))


def lower_end(x, given, depth):
    """R24."""
    return end_test(x, given, depth, upper=False)


def upper_end(x, given, depth):
    """R24."""
    return end_test(x, given, depth, upper=True)


# ---- Enclosure -------------------------------------------------------------

def last(holds, p, q):
    """R25: a number p for which it holds, where it does not for the next: it
    holds for p as given, and not for q, and stays so."""
    while q - p > 1:
        middle = (p + q) // 2
        if holds(middle):
            p = middle
        else:
            q = middle
    return p


def last_lower(accepts, limit):
    """R26: p stays accepted, and q not."""
    return last(accepts, 0, limit)


def first_upper(accepts, limit):
    """R27: q stays accepted, and p not."""
    if accepts(0):
        return 0
    return 1 + last(lambda x: not accepts(x), 0, limit)


def search_lower(cell, depth):
    """R26."""
    return last_lower(partial(accepts_lower, cell=cell, depth=depth), T)


def search_upper(cell, depth):
    """R27."""
    return first_upper(partial(accepts_upper, cell=cell, depth=depth), T)


@lru_cache(maxsize=20_000)
def searches(cell, depth):
    """R26, R27: a and b, of a problem as it is posed."""
    return search_lower(cell, depth), search_upper(cell, depth)


def enclose(given, depth):
    """R28, R31, R59: code 6 comes last, and the mirror exchanges the ends."""
    code, mirrored, cell = pose(given)
    code = code or depth_code(depth)
    if not code and not accepts_upper(T, cell, depth):
        code = 6
    if code:
        return code, 0, 0
    found = searches(cell, depth)
    lower, upper = reversed(found) if mirrored else found
    return 0, mirror(lower, mirrored), mirror(upper, mirrored)


# ---- Proposal --------------------------------------------------------------

def atan_between(z, count):
    """R33: a fraction below and one above atan z, 0 < z < 1, by sums with an
    even and an odd number of terms."""
    below = sum(Fraction((-1) ** i, 2 * i + 1) * z ** (2 * i + 1)
                for i in range(2 * count))
    return below, below + z ** (4 * count + 1) / (4 * count + 1)


def arctangent_entry(k):
    """R33: the number on which both fractions agree."""
    parts = (2, 3) if k == 0 else (2 ** k,)
    pairs = [atan_between(Fraction(1, part), 10) for part in parts]
    below, above = (floor(UNIT * sum(side)) for side in zip(*pairs))
    if below != above:
        raise ArithmeticError(f"arctangent entry {k} is not settled")
    return below


def gain():
    """R34."""
    product = Fraction(UNIT)
    for k in range(25):
        product *= Fraction(4 ** k, 4 ** k + 1)
    return floor(product)


ARCTANGENT = [arctangent_entry(k) for k in range(25)]
GAIN = gain()


def rotations(m, a):
    """R35, R36: E, x and y after the last."""
    e, x, y = 0, a * GAIN // UNIT, 0
    for k in range(25):
        for _ in range(2):
            sign = 1 if e - y < m else -1
            x_part, y_part = x // 2 ** k, y // 2 ** k
            e += sign * ARCTANGENT[k]
            x, y = x - sign * y_part, y + sign * x_part
    return e, x, y


def certificate(e, cell):
    """R38, and R39 where none is found."""
    for j in range(31):
        if (accepts_lower(max(e - 2 ** j, 0), cell, 5)
                and accepts_upper(min(e + 2 ** j, T), cell, 5)):
            return j
    raise ArithmeticError(f"no certificate for {cell} E={e}")


def propose(given):
    """R35, R37, R40, R59: the rotations take M and A rounded down, and a
    cosine is the same on the mirror."""
    code, mirrored, cell = pose(given)
    if code:
        return code, 0, 0, 0, 0
    e, x, y = rotations(cell.m_down, cell.a_down)
    e = min(max(e, 0), T)
    return (0, mirror(e, mirrored), mirror(y, mirrored), x,
            certificate(e, cell))


# ---- Judging a double ------------------------------------------------------

def verdict_on(f, c, n, limit, lower, upper):
    """R42 to R45: by the two tests of ends, up to the limit of angles. To
    refute either end will do."""
    if lower(max(c - n, 0)) and upper(min(f + n, limit)):
        return CONFIRMED
    if ((f + n + 1 <= limit and lower(f + n + 1))
            or (c - n - 1 >= 0 and upper(c - n - 1))):
        return REFUTED
    return UNDECIDED


def judge(given, bits, n, depth):
    """R41, R45, R48, R59."""
    code, mirrored, cell = pose(given)
    units = estimate_units(bits, mirrored)
    code = (code or depth_code(depth) or estimate_code(units)
            or tolerance_code(n))
    if code:
        return code, 0
    tests = (partial(accepts, cell=cell, depth=depth)
             for accepts in (accepts_lower, accepts_upper))
    return 0, verdict_on(*units, n, T, *tests)


def settle(given, bits, n):
    """R62: the judge at each depth in turn, up to the first that decides. Of
    its codes only 3 is about the depth."""
    for depth in DEPTHS:
        code, verdict = judge(given, bits, n, depth)
        if code:
            return code, 0, 0
        if verdict != UNDECIDED:
            break
    return 0, verdict, depth


# ---- How far off -----------------------------------------------------------

def distance(given, bits):
    """R67, R68, R59: a distance has no sign."""
    code, mirrored, cell = pose(given)
    units = estimate_units(bits, mirrored)
    code = code or estimate_code(units)
    if code:
        return code, 0, 0
    (f, c), (a, b) = units, searches(cell, DEPTHS[-1])
    return 0, max(a - c, f - b, 0), max(c - a, b - f)
