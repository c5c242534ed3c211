"""Where sine's terms are spent, R61: edge cases, and facts about the library's
answers there.

The second program tells where they are spent and never stops for it. From the
depth that spends them on, the library has to answer alike at every depth.
"""
from itertools import product

import cases
import draw_spent
import draws
import wire
from draw_spent import FIRST_BETTER
from given import Grid
from limits import DEPTHS, H, ONE, SPENT, UNIT
from rules import bounds, spending_pairs

# By number of pairs n: the greatest angles with l_2n = 0.
LAST_ZERO = (14_418_413, 128_868_146, 342_147_060, 615_309_524)
# Up to 756,153 term 1 alone is 0 rounded down and at most 1 rounded up.
SMALL = (0, 1, 2, 756_153, 756_154, 2 ** 20 - 1, 2 ** 20)
ANGLES = (*SMALL, 16_562_933,
          *(x + off for x in (*SPENT, *LAST_ZERO, *FIRST_BETTER)
            for off in (-1, 0, 1)))


# ---- Edge cases ------------------------------------------------------------

def sine_edges():
    return [wire.sine(x, d) for x, d in product(ANGLES, DEPTHS)]


def close_problems(x, a):
    """Each M at which a bound's test of X turns, with the units beside it."""
    turns = {x - a * bound // UNIT for d in DEPTHS for bound in bounds(x, d)}
    every = {turn + off for turn in turns for off in (-1, 0, 1)}
    return [Grid(m, a) for m in sorted(every) if 0 <= m <= H]


def both_ways(given):
    """On the grid and as doubles."""
    return given, given.as_doubles()


def end_edges():
    """Of either sign, at every depth."""
    found = []
    for x, a in product(ANGLES, (ONE, ONE - 3)):
        for given, d in product(close_problems(x, a), DEPTHS):
            found += [side(at, each, d)
                      for at, problem in ((x, given), (-x, given.mirror()))
                      for each in both_ways(problem)
                      for side in (wire.lower, wire.upper)]
    return found


def enclosure_edges():
    """With a root beside each angle."""
    problems = [Grid(x - ONE * bounds(x, 5)[0] // UNIT, ONE) for x in ANGLES]
    return [wire.enclose(each, d) for given, d in product(problems, DEPTHS)
            for problem in (given, given.mirror())
            for each in both_ways(problem)]


# ---- Facts -----------------------------------------------------------------

def alike(x, found, spending=spending_pairs):
    """The answers at every depth from the one that spends the terms on."""
    pairs = spending(abs(x))
    first, *deeper = found[pairs - 1:]
    for d, answer in enumerate(deeper, pairs + 1):
        yield (first[0] == 0 and answer == first,
               f"X={x} has {first} at depth {pairs}, which spends the terms, "
               f"and {answer} at depth {d}")


def sines(ask, rng, count):
    """Both bounds are the same."""
    drawn = [draw_spent.angle(rng) for _ in range(count)]
    replies = iter(ask([wire.sine(x, d) for x in drawn for d in DEPTHS]))
    for x in drawn:
        for holds, sentence in alike(x, [next(replies) for _ in DEPTHS]):
            yield None, holds, f"sine {sentence}"


def ends(ask, rng, count):
    """Either end is accepted at all of these depths or at none. Each of the
    four answers occurs."""
    drawn = [cases.turning_orbit(rng, draw_spent, draws.depth(rng))
             for _ in range(count)]
    replies = iter(ask([side(x, given, d) for x, given in drawn
                        for side in (wire.lower, wire.upper)
                        for d in DEPTHS]))
    seen = set()
    for x, given in drawn:
        for side in ("lower", "upper"):
            found = [next(replies)[:2] for _ in DEPTHS]
            seen.add((side, found[-1]))
            for holds, sentence in alike(x, found):
                yield given, holds, f"{side} end {sentence}"
    yield None, len(seen) == 4, f"of four answers only {seen} occurred"
