"""Random steps: a problem of the grid, an estimate of either sign, a method.

Estimates are drawn where solvers begin, near the root, along the steps that
follow one another, at few units, down to the least double, at the last angle,
with all the digits that a double has, and so that the step just ends or just
does not end beyond 0 or the last angle. Python's floats say where to look for
those and nothing more.
"""
from math import floor

import cosine
import doubles
import draw_grid
import draws
import rules
import steps
import wire
from draws import small
from given import Grid
from limits import DEPTHS, H, ONE, T, TOLERANCE, UNIT

# The last estimate that is taken.
TOP = doubles.of_units(T)
# How many steps of one orbit are drawn; each is a case of both entries.
WALK = 5


# ---- Where a step begins ---------------------------------------------------

def all_digits(rng, units):
    """Bits of a double in the unit above these, with as many digits as it
    can have."""
    places = 53 - max(units.bit_length(), 1)
    return min(doubles.of_units(units, rng.getrandbits(places), places), TOP)


def beside(rng, units):
    """On a grid point or one double beside it, between two or anywhere."""
    point = doubles.of_units(units)
    return rng.choice((point, max(point - 1, 0), min(point + 1, TOP),
                       all_digits(rng, units), draws.estimate(rng, units)))


def parabolic(rng):
    """M near 0 and e near 1, where the slope D is small."""
    return Grid(small(rng, 14), ONE - small(rng, 16))


def near_root(rng):
    x, given = draw_grid.turning(rng, DEPTHS[-1])
    x += rng.choice((1, -1)) * small(rng, rng.choice((2, 10, 24)))
    return given, beside(rng, min(max(x, 0), T))


def at_mean(rng):
    """Where solvers begin: at M, at M + e, at M + e sin M or so, or at half a
    turn."""
    given = rng.choice((draw_grid.anywhere, parabolic))(rng)
    m, a = given
    units = rng.choice((m, m, m + a, m + a * rules.bounds(m, 1)[0] // UNIT, H))
    return given, doubles.of_units(min(max(units, 0), T))


def few_units(rng):
    """Where sine and cosine are known to few digits."""
    given = rng.choice((parabolic, parabolic, draw_grid.anywhere))(rng)
    return given, beside(rng, small(rng, rng.choice((3, 14, 22))))


def least(rng):
    """Any power of two as often as another, or below every normal double."""
    given = rng.choice((parabolic, draw_grid.anywhere,
                        lambda rng: Grid(0, draw_grid.eccentricity(rng))))(rng)
    return given, rng.choice((rng.randrange(TOP + 1), small(rng, 52),
                              small(rng, 3)))


def at_top(rng):
    return draw_grid.anywhere(rng), TOP - small(rng, rng.choice((3, 30)))


def anywhere(rng):
    return draw_grid.anywhere(rng), all_digits(rng, draws.angle(rng))


# ---- Where a step ends -----------------------------------------------------

def in_floats(method, mean, e, s, k):
    """The new estimate as a function of the old one, in floats."""
    g, slope = e * s, 1 - e * k

    def ends(x):
        left = x - mean - g
        if method == steps.NEWTON:
            return x - left / slope
        return x - 2 * left * slope / (2 * slope * slope - left * g)
    return ends


def mean_for(method, x, target, e, s, k):
    """An M in units with which the step from x ends near the target."""
    g, slope, off = e * s, 1 - e * k, x - target
    if method == steps.HALLEY:
        off *= 2 * slope / (2 * slope + off * g)
    return floor((x - g - off * slope) * UNIT)


def crossing(ends, low, high, target):
    """An estimate from low to high from which the step ends at the target,
    by secants, as it is nearly a straight line; None where there is none."""
    x, y = low, high
    first, second = ends(x) - target, ends(y) - target
    if not first * second < 0:
        return None
    for _ in range(4):
        if second == first:
            break
        nearer = y - second * (y - x) / (second - first)
        x, first = y, second
        y = min(max(nearer, low), high)
        second = ends(y) - target
    return y


def steep(rng):
    """Where a step may end: the target in radians, the whole units of an
    estimate and an A from which it gets there with some M. To end at 0 takes
    few units, where the bounds of sine are off by as much as it is."""
    if rng.randrange(2):
        return 0, small(rng, rng.choice((3, 10))), rng.choice(
            (rng.randrange(ONE), draw_grid.eccentricity(rng)))
    return T / UNIT, min(small(rng, 30), T), rng.choice(
        (ONE - small(rng, 24), draw_grid.eccentricity(rng)))


def landing(rng):
    """A step that ends at 0 or at the last angle, or some doubles beside it.
    Within the unit of an estimate s and k stay as they are."""
    while True:
        method, (target, f, a) = rng.choice(steps.METHODS), steep(rng)
        e, s, k = (number / UNIT for number in (
            a, rules.bounds(f, DEPTHS[-1])[0],
            cosine.bounds(f, DEPTHS[-1])[0]))
        low, high = f / UNIT, (f + 1) / UNIT
        try:
            m = mean_for(method, low, target, e, s, k) + rng.randrange(2)
            found = 0 <= m <= H and crossing(
                in_floats(method, m / UNIT, e, s, k), low, high, target)
        except ZeroDivisionError:
            continue
        if found:
            off = rng.choice((1, -1)) * small(rng, 4)
            bits = min(max(doubles.of_float(found) + off, 0), TOP)
            return Grid(m, a), bits, method


# ---- Cases -----------------------------------------------------------------

STARTS = (near_root, near_root, at_mean, few_units, least, at_top, anywhere)


def posed(rng):
    """A problem with M from 0 up, an estimate that is taken and a method."""
    if not rng.randrange(16):
        return landing(rng)
    while True:
        given, bits = draws.one_of(rng, STARTS)
        if 0 <= bits <= TOP:
            return given, bits, rng.choice(steps.METHODS)


def taken(rng):
    """The like of either sign; minus zero is as good as plus zero."""
    given, bits, method = posed(rng)
    if given.zero:
        return given, bits or rng.choice((0, doubles.SIGN)), method
    if rng.randrange(2):
        return given.mirror(), bits ^ doubles.SIGN, method
    return given, bits, method


def spoil_estimate(rng, bits):
    """Now and then one that opposes M, is beyond its limit or no number."""
    if rng.randrange(100):
        return bits
    return rng.choice((bits ^ doubles.SIGN, TOP + 1 + small(rng, 50),
                       rng.choice(doubles.every_kind()),
                       rng.getrandbits(64)))


def spoil_method(rng, method):
    if rng.randrange(100):
        return method
    return rng.choice((0, steps.FLAT, 257, draws.small(rng, 32), 2 ** 32 - 1))


def spoiled(rng, given, bits, method):
    """What both entries take, now and then with faults."""
    return (draw_grid.spoil(rng, given), spoil_estimate(rng, bits),
            spoil_method(rng, method))


def judged(rng, inputs):
    """With N and depth, of which now and then one is beyond its limit."""
    return wire.step_judged(
        *inputs, draws.spoil(rng, draws.tolerance(rng), TOLERANCE),
        draws.spoil_depth(rng, draws.depth(rng)))


def step_case(rng):
    return wire.step(*spoiled(rng, *taken(rng)))


def judged_case(rng):
    return judged(rng, spoiled(rng, *taken(rng)))


def walk(rng):
    """Steps that follow one another on one orbit, as the rule makes them: up
    to a flat one or one that stands still, and then from elsewhere."""
    given, bits, method = taken(rng)
    for _ in range(WALK):
        yield given, bits, method
        _, number, new = steps.step(given, bits, method)
        if number == steps.FLAT or new == bits:
            given, new, method = taken(rng)
        bits = new


def walk_cases(rng):
    """Each step alone and judged."""
    found = []
    for each in walk(rng):
        inputs = spoiled(rng, *each)
        found += [wire.step(*inputs), judged(rng, inputs)]
    return found
