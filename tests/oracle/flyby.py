"""The rules of a flyby, R81 to R89: an orbit with e from 1 up, which is B over
2^28, and the equation e sinh X - X = M.

As rules.py it has nothing in common with the library. The comment of a
function begins with the number of the rule that it follows.
"""
from functools import lru_cache, partial

from cells import estimate_code, floor_and_ceiling, tolerance_code
from limits import FLYBY_B, FLYBY_M, FLYBY_X, ONE, UNIT
from rules import DIVISORS, first_upper, last_lower, terms, verdict_on

# R82: the number of the last term
LAST = 9


# ---- Codes -----------------------------------------------------------------

def problem_code(given):
    """R81: codes 1 and 2."""
    if given.m > FLYBY_M:
        return 1
    return 0 if ONE <= given.b <= FLYBY_B else 2


def angle_code(x):
    """R81: code 10."""
    return 10 if x > FLYBY_X else 0


# ---- Sinh in whole numbers -------------------------------------------------

@lru_cache(maxsize=20_000)
def bounds(x):
    """R82: low and high. Every term is added, and the last one once more for
    all those that follow it."""
    lows, ups = terms(x, x, DIVISORS[:LAST])
    return sum(lows), sum(ups) + ups[-1]


def sinh(x):
    """R84."""
    code = angle_code(x)
    return (code, 0, 0) if code else (0, *bounds(x))


# ---- End tests -------------------------------------------------------------

def accepts_lower(x, given):
    """R85."""
    return UNIT * (x + given.m) >= given.b * bounds(x)[1]


def accepts_upper(x, given):
    """R85."""
    return UNIT * (x + given.m) <= given.b * bounds(x)[0]


def end_test(x, given, accepts):
    """R87."""
    code = problem_code(given) or angle_code(x)
    return (code, 0) if code else (0, int(accepts(x, given)))


def lower_end(x, given):
    """R87."""
    return end_test(x, given, accepts_lower)


def upper_end(x, given):
    """R87."""
    return end_test(x, given, accepts_upper)


# ---- Enclosure and judge ---------------------------------------------------

def tests(given):
    """Of this problem: the test of a lower end, and that of an upper one."""
    return (partial(accepts_lower, given=given),
            partial(accepts_upper, given=given))


def enclose(given):
    """R88: code 15 comes last."""
    code = problem_code(given)
    if not code and not accepts_upper(FLYBY_X, given):
        code = 15
    if code:
        return code, 0, 0
    lower, upper = tests(given)
    return 0, last_lower(lower, FLYBY_X), first_upper(upper, FLYBY_X)


def judge(given, bits, n):
    """R89."""
    units = floor_and_ceiling(bits, FLYBY_X)
    code = problem_code(given) or estimate_code(units) or tolerance_code(n)
    if code:
        return code, 0
    return 0, verdict_on(*units, n, FLYBY_X, *tests(given))
