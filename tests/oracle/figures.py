"""The figures of depth 5 on the grid, R63 to R66: their rule, edge cases, and
facts about the library's answers.

The rule finds a figure by halves from the inequality that it is of. The facts
hold the library's enclosures and verdicts against the same inequalities, and
what these rest on against the exact sums.
"""
from fractions import Fraction

import cases
import demands
import doubles
import draw_figures
import draw_grid
import draws
import exact
import wire
from cells import up
from draw_figures import jump
from limits import ONE, T, TOLERANCE
from rules import CONFIRMED, REFUTED, last

DEPTH = 5
# No A below 2^28 allows a width of that many units.
TOO_WIDE = 2 ** 35


# ---- The rule --------------------------------------------------------------

def allows(width, a):
    """R63."""
    return width <= 2 or (width - 2) * (ONE - a) < 64 * a


def suffices(n, a):
    """R64: with this N every estimate from end to end is confirmed."""
    return (n - 1) * (ONE - a) >= 64 * a


def least_gap(a):
    """R65: the least g with g (2^28 - A) >= 32 A."""
    return up(32 * a, ONE - a)


def greatest_width(a):
    """R66."""
    return 0 if a >= ONE else last(lambda w: allows(w, a), 2, TOO_WIDE)


def least_n(a):
    """R66."""
    if a >= ONE or not suffices(TOLERANCE, a):
        return 0
    return 1 + last(lambda n: not suffices(n, a), 0, TOLERANCE)


def figures(a):
    """R66: as the driver replies, with no code but 0."""
    return 0, greatest_width(a), least_n(a)


# ---- Edge cases ------------------------------------------------------------

def edges():
    """A at its limits, at those of 32 bits, where the least N is the last or
    the width is above T, and at each of the first steps of the figures, then
    at every power of two."""
    points = {0, 2 ** 27, ONE - 2 ** draw_figures.ORBIT_POWER, ONE,
              268_173_559, 268_435_435, 2 ** 31, 2 ** 32 - 2}
    points |= {jump(k) for k in (*range(1_000), *range(65_500, 65_600),
                                 *(2 ** power for power in range(35)))}
    return [wire.figures(a) for a in sorted(
        {max(point + off, 0) for point in points for off in (-1, 0, 1)})]


# ---- Facts -----------------------------------------------------------------

def enclosed(ask, rng, count):
    """Random orbits, each with the library's code, lower and upper end."""
    drawn = [draw_figures.orbit(rng) for _ in range(count)]
    replies = ask([wire.enclose(given, DEPTH) for given in drawn])
    return [(given, reply[:3]) for given, reply in zip(drawn, replies)]


def ratio(given, width):
    """(w - 2) (2^28 - A) / A, which R63 has below 64; 0 on the circle."""
    a = given.a
    return (width - 2) * (ONE - a) / a if a else 0


def widths(ask, rng, count):
    """R63. Beside each fact stands the width that was met."""
    for given, (code, lower, upper) in enclosed(ask, rng, count):
        width = upper - lower
        yield (given, code == 0 and 0 <= width and allows(width, given.a),
               f"enclosure {lower} {upper} with code {code}: width", width)


def judged(ask, claims, wanted):
    """Each claim, which is what is given, the ends, an estimate's bits and N,
    has the wanted verdict."""
    replies = ask([wire.judge(given, bits, n, DEPTH)
                   for given, _, bits, n in claims])
    for (given, ends, bits, n), reply in zip(claims, replies):
        yield (given, reply[:2] == (0, wanted),
               f"ends {ends}, estimate {bits:016x}, N={n}: {reply[:2]}, "
               f"wanted {wanted}")


def part(rng):
    """A part of a unit above 0: so many of 2^places."""
    places = rng.choice((1, 5, 22))
    whole = 2 ** places
    return rng.choice((1, whole - 1, rng.randrange(1, whole))), places


def inside(rng, lower, upper):
    """Bits of estimates from end to end: both of them, and one between where
    there is room."""
    found = [doubles.of_units(lower), doubles.of_units(upper)]
    if lower < upper:
        f = rng.choice((lower, upper - 1, rng.randrange(lower, upper)))
        found.append(doubles.of_units(f, *part(rng)))
    return found


def inside_estimates(ask, rng, count):
    """R64, each with the least N, and one with a greater N. Where no N is
    large enough there is nothing to judge."""
    claims = []
    for given, (_, *ends) in enclosed(ask, rng, count):
        least = least_n(given.a)
        if least:
            greater = min(least + 1 + draws.small(rng, 16), TOLERANCE)
            found = inside(rng, *ends)
            claims += [(given, ends, bits, least) for bits in found]
            claims.append((given, ends, rng.choice(found), greater))
    return judged(ask, claims, CONFIRMED)


def away(rng, given, room):
    """N, and how far from the nearer end an estimate is that R65 refutes with
    it; None where the limits have no room for one. Mostly one unit less would
    not do."""
    gap = least_gap(given.a)
    spare = room - 1 - gap
    if spare < 0:
        return None
    n = min(draws.tolerance(rng), spare)
    more = rng.choice((0, 0, 0, draws.small(rng, 30)))
    return n, n + 1 + gap + min(more, spare - n)


def far(rng, given, lower, upper):
    """An estimate's bits and N on each side of an enclosure: below it f is by
    so much less than the lower end, above it c by so much more than the upper
    one."""
    least, greatest = demands.span(given)
    for room, sign, end in ((lower - least, -1, lower),
                            (greatest - upper, 1, upper)):
        found = away(rng, given, room)
        if found:
            n, distance = found
            point = end + sign * distance
            bits = rng.choice((doubles.of_units(point), doubles.of_units(
                point - (sign > 0), *part(rng))))
            yield bits, n


def far_estimates(ask, rng, count):
    """R65."""
    claims = [(given, ends, bits, n)
              for given, (_, *ends) in enclosed(ask, rng, count)
              for bits, n in far(rng, given, *ends)]
    return judged(ask, claims, REFUTED)


# ---- What the figures rest on ----------------------------------------------

def left_side(x, given):
    """F(X) = X - M - e S_9(X)."""
    return Fraction(*exact.upper_spare(x, given.own(), 9))


def rises(_ask, rng, count):
    """From Y to X the left side rises by at least (1 - e) (X - Y)."""
    for _ in range(count):
        given = draw_figures.orbit(rng)
        y = min(rng.choice((1, -1)) * draws.angle(rng), T - 1)
        x = min(y + 1 + draws.small(rng, 31), T)
        rise = left_side(x, given) - left_side(y, given)
        yield (given, ONE * rise >= (ONE - given.a) * (x - y),
               f"the rise from {y} to {x} is {float(rise)}")


def refusals(ask, rng, count):
    """Where depth 5 refuses an end the left side is within 32 e of 0 on its
    side, or on the other one; where it accepts an end, it is on its side. All
    four answers occur."""
    drawn = [cases.turning_orbit(rng, draw_grid, DEPTH) for _ in range(count)]
    replies = iter(ask([side(x, given, DEPTH) for x, given in drawn
                        for side in (wire.lower, wire.upper)]))
    seen = set()
    for x, given in drawn:
        left = left_side(x, given)
        # Below the root the left side is below 0.
        for name, beyond in (("lower", left), ("upper", -left)):
            code, accepted = next(replies)[:2]
            seen.add((name, accepted))
            holds = (beyond <= 0 if accepted
                     else ONE * beyond > -32 * given.a)
            yield (given, code == 0 and holds,
                   f"{name} end X={x} with code {code}, accepted {accepted}: "
                   f"the left side is {float(left)}")
    yield None, len(seen) == 4, f"of four answers only {seen} occurred"
