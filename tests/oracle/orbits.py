"""The stored orbits: who loses the root, M and e rounded or their cell.

    python3 orbits.py LIST DRIVER..

LIST has an orbit a line, M in degrees and e, as its heading says; DRIVER is
the command that runs driver.c linked with the library. Each orbit is given to
the library as it is, two doubles, and as a caller would round it, M and e to
the nearest whole units. The root that both should enclose is that of the
doubles' own equation, by exact sums. Its misses are counted and printed. The
exit status is 1 where the doubles miss it at all, where the rounded problem
never does, so that the list shows nothing, or where the list is not whole.
"""
import sys
from collections import Counter
from fractions import Fraction
from functools import partial
from math import floor, pi
from pathlib import Path
from typing import NamedTuple

import doubles
import roots
import wire
from given import Doubles, Grid
from rules import REFUTED, WORDS

ORBITS = 300
DEPTH = 5
TOLERANCE = 1_000
# The orbit whose verdicts are printed: M in degrees, and e.
SHOWN = (1e-5, 1.0)


class Orbit(NamedTuple):
    """An orbit as doubles and rounded, and the root of the doubles."""
    given: Doubles
    rounded: Grid
    root: roots.Root


def nearest(bits):
    """A double in whole units, from a half up rounded up."""
    return floor(doubles.in_units(bits) + Fraction(1, 2))


def orbit(degrees, e):
    """M in radians is degrees times (pi / 180), both steps in doubles."""
    given = Doubles(*map(doubles.of_float, (degrees * (pi / 180), e)))
    return Orbit(given, Grid(*map(nearest, given)),
                 roots.bracket(given, roots.nowhere))


def read(path):
    lines = Path(path).read_text(encoding="ascii").splitlines()
    return [orbit(*map(float, line.split())) for line in lines
            if not line.startswith("#")]


def beyond(root, low, high):
    """How far the root is outside at the least, in units; 0 where it is not,
    or may not be."""
    return max(low * roots.PARTS - root.high, root.low - high * roots.PARTS,
               0) / roots.PARTS


def enclosures(ask, every_given):
    """The ends for each, all of which must have code 0."""
    replies = ask([wire.enclose(given, DEPTH) for given in every_given])
    if any(code for code, *_ in replies):
        raise ValueError("an orbit of the list has no enclosure")
    return [(low, high) for _, low, high, *_ in replies]


def correct(root):
    """The bits of an estimate that is right to a thousandth of a unit."""
    return doubles.bits_of(root.low, 28 + roots.PARTS.bit_length() - 1)


def verdicts(ask, every_given, orbits):
    """On the correct estimate of each."""
    replies = ask([wire.judge(given, correct(each.root), TOLERANCE, DEPTH)
                   for given, each in zip(every_given, orbits)])
    if any(code for code, *_ in replies):
        raise ValueError("an orbit of the list is not judged")
    return [verdict for _, verdict, *_ in replies]


def measure(ask, name, every_given, orbits, misses):
    """How many roots are missed, and how many right answers refuted, where
    the orbits are given in one way."""
    pairs = [(each.root, ends) for each, ends in
             zip(orbits, enclosures(ask, every_given))]
    missed = sum(misses(*pair) for pair in pairs)
    worst = max(beyond(root, *ends) for root, ends in pairs)
    judged = Counter(verdicts(ask, every_given, orbits))
    shares = ", ".join(f"{judged[number]} {word}"
                       for number, word in WORDS.items())
    print(f"orbits: {name}: {missed} of {len(orbits)} roots missed, the worst "
          f"by {worst:,.1f} units; right answers at N = {TOLERANCE:,}: "
          f"{shares}")
    return missed, judged[REFUTED]


def check(ask, orbits):
    """A sentence for each thing that is wrong with the whole list. In doubt
    the rounded problem has the root, and the cell has it not."""
    if not len(orbits) == len({each.given for each in orbits}) == ORBITS:
        yield f"the list has not {ORBITS} different orbits"
    missed, _ = measure(ask, "M and e rounded",
                        [each.rounded for each in orbits], orbits,
                        lambda root, ends: root.lies_outside(*ends))
    if not missed:
        yield "the list shows nothing: the rounded problem misses no root"
    missed, refuted = measure(ask, "their cell",
                              [each.given for each in orbits], orbits,
                              lambda root, ends: not root.lies_within(*ends))
    if missed or refuted:
        yield "the cell has missed a root or refuted a right answer"


def check_shown(ask):
    """The verdicts on one orbit's right answer: refuted where M is rounded,
    and not by the cell."""
    shown = orbit(*SHOWN)
    rounded, cell = verdicts(ask, (shown.rounded, shown.given),
                             (shown, shown))
    print(f"orbits: M = {SHOWN[0]} degrees, e = {SHOWN[1]}, the right answer "
          f"at N = {TOLERANCE:,}: rounded {WORDS[rounded]}, cell "
          f"{WORDS[cell]}")
    if rounded != REFUTED or cell == REFUTED:
        yield "the shown orbit is not refuted by the rounded problem alone"


def main(arguments):
    if len(arguments) < 2:
        print(__doc__, file=sys.stderr)
        return 2
    ask = partial(wire.ask, arguments[1:])
    wrong = [*check(ask, read(arguments[0])), *check_shown(ask)]
    for sentence in wrong:
        print(f"orbits: WRONG: {sentence}")
    return 1 if wrong else 0


if __name__ == "__main__":
    sys.exit(main(sys.argv[1:]))
