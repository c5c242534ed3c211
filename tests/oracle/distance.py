"""How far off an estimate is, R67 to R70: edge cases, and facts about the
library's answers.

The facts hold an answer against the library's own enclosure and verdicts, and
against the exact sums and the true root. The rule is not used for them.
"""
from itertools import product
from math import ceil, floor
from typing import NamedTuple

import cases
import demands
import doubles
import exact
import roots
import rules
import wire
from cells import pose
from given import Grid
from limits import DEPTHS, H, ONE, TOLERANCE
from rules import CONFIRMED, REFUTED, UNDECIDED
from spent import both_ways

ENTRIES = ("distance", "distance_double")
DEPTH = DEPTHS[-1]

# Parts of a unit, each as a number over a power of two.
PARTS = ((0, 0), (1, 1), (1, 20), (2 ** 20 - 1, 20))


# ---- Edge cases ------------------------------------------------------------

def beside_end(end):
    """Bits of estimates up to two units beside an end and at it, on the grid
    and off it, down to one double beside it."""
    found = {doubles.of_units(end + off, *part)
             for off, part in product(range(-2, 3), PARTS)}
    point = doubles.of_units(end)
    return sorted(found | {max(point - 1, 0), point + 1})


def at_ends(every_given):
    """Problems with M from 0 up, then mirrored, with every estimate beside
    either end."""
    found = []
    for given in every_given:
        estimates = {bits for end in rules.searches(pose(given).cell, DEPTH)
                     for bits in beside_end(end)}
        for bits in sorted(estimates):
            found += [wire.distance(given, bits),
                      wire.distance(given.mirror(), bits ^ doubles.SIGN)]
    return found


def end_edges():
    """From the circle to the parabolic limit, M anywhere, on the grid and as
    doubles."""
    return at_ends(each for m, a in product(
        (0, 1, 2, 1_000, 2 ** 24, 2 ** 28, 700_000_000, H - 1, H),
        (0, 1, 1_570_330, ONE // 2, ONE - 65_536, ONE - 1, ONE))
        for each in both_ways(Grid(m, a)))


# ---- Facts -----------------------------------------------------------------

class Orbit(NamedTuple):
    """A problem with the library's enclosure of it, whether each end meets
    its exact inequalities, and the true root."""
    given: object
    lower: int
    upper: int
    is_lower: bool
    is_upper: bool
    root: roots.Root

    def ends(self):
        """Of the problem as it is posed."""
        return sorted((abs(self.lower), abs(self.upper)))


class Held(NamedTuple):
    """What an estimate's answer met: whether the bracket of the root proves
    both its numbers, one unit more in least would be untrue, one less in most
    would be, and least is above 0; and the settled verdict and depth that it
    was held against."""
    proved: bool
    least_tight: bool
    most_tight: bool
    outside: bool
    settled: tuple


def enclosed(ask, rng, count, family):
    """Random orbits with their enclosures."""
    drawn = [cases.orbit(rng, family) for _ in range(count)]
    for given, reply in zip(drawn, ask([wire.enclose(given, DEPTH)
                                        for given in drawn])):
        lower, upper = reply[1:3]
        yield Orbit(given, lower, upper, exact.is_lower(lower, given),
                    exact.is_upper(upper, given), roots.bracket(given))


def estimates(rng, orbit):
    """Each with its orbit, bits and units, which are None where it is none
    for this M."""
    for _ in range(cases.PER_ORBIT):
        bits = cases.estimate_by(rng, orbit.given, orbit.ends())
        yield orbit, bits, demands.in_span(orbit.given, bits)


def by_ends(units, orbit):
    """R68: least and most by the enclosure, all with their signs."""
    f, c = floor(units), ceil(units)
    return (max(orbit.lower - c, f - orbit.upper, 0),
            max(c - orbit.lower, orbit.upper - f))


def lies_beyond(units, orbit):
    """R69: the estimate's whole unit is outside an end that meets its exact
    inequalities."""
    return ((ceil(units) < orbit.lower and orbit.is_lower)
            or (orbit.upper < floor(units) and orbit.is_upper))


def tolerance(rng, units, orbit):
    """N at which a verdict is about to turn: an angle that is tested to
    confirm or to refute is an end of the enclosure, or one unit off."""
    f, c = floor(units), ceil(units)
    n = rng.choice((max(c - orbit.lower, orbit.upper - f),
                    max(orbit.lower - f, c - orbit.upper) - 1))
    return min(max(n + rng.choice((-1, 0, 0, 1)), 0), TOLERANCE)


def agrees(verdict, n, least, most):
    """R70. Undecided says nothing."""
    return {CONFIRMED: least <= n, REFUTED: most > n,
            UNDECIDED: True}.get(verdict, False)


def root_fact(orbit, bits, units, answer, settled):
    """R69: the root is never nearer than least nor farther than most. Where
    the bracket of the root does not prove it, it does not rule it out."""
    least, most = (number * roots.PARTS for number in answer)
    nearest, farthest = orbit.root.distances(units)
    held = Held(least <= nearest and farthest <= most,
                farthest < least + roots.PARTS, nearest > most - roots.PARTS,
                least > 0, settled)
    return (orbit.given, least <= farthest and nearest <= most,
            f"the root is elsewhere: {answer} of {units} units", orbit.root,
            bits, held)


def estimate_facts(orbit, bits, units, answer, n, settled, judged):
    """Of one estimate that is taken, with what a claim on it is settled with
    and its verdict at every depth."""
    given, verdicts = orbit.given, {settled[0], *judged}
    least, most = answer
    case = f"{answer} of {units} units"
    wanted = by_ends(units, orbit)
    yield (given, answer == wanted,
           f"{case}, by {orbit.lower} and {orbit.upper} {wanted}")
    yield given, 0 <= least <= most, f"{case} are not in order"
    yield (given, least == 0 or lies_beyond(units, orbit),
           f"{case}, not beyond a true end")
    yield (given, all(agrees(verdict, n, *answer) for verdict in verdicts),
           f"{case} against {verdicts} with N={n}")
    yield root_fact(orbit, bits, units, answer, settled)


def codes(drawn, replies):
    """Code 4 is for what is no estimate, and zeros stand beside it."""
    for (orbit, bits, units), reply in zip(drawn, replies):
        yield (orbit.given, reply[:3] == (4, 0, 0) if units is None
               else reply[0] == 0, f"{reply} for bits {bits:016x}")


def distances(ask, rng, count, family):
    """Some estimates of each orbit: least and most are the enclosure's, true
    of the root and against no verdict."""
    drawn = [estimate for orbit in enclosed(ask, rng, count, family)
             for estimate in estimates(rng, orbit)]
    replies = ask([wire.distance(orbit.given, bits)
                   for orbit, bits, _ in drawn])
    yield from codes(drawn, replies)
    taken = [(orbit, bits, units, reply[1:3], tolerance(rng, units, orbit))
             for (orbit, bits, units), reply in zip(drawn, replies)
             if units is not None]
    verdicts = iter(ask([call for orbit, bits, *_, n in taken for call in (
        wire.settle(orbit.given, bits, n),
        *(wire.judge(orbit.given, bits, n, d) for d in DEPTHS))]))
    for estimate in taken:
        settled = next(verdicts)[1:3]
        judged = [next(verdicts)[1] for _ in DEPTHS]
        yield from estimate_facts(*estimate, settled, judged)
