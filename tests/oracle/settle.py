"""The judge that takes no depth, R62: edge cases, and facts about the
library's answers.

The facts hold an answer against the judge's own at every depth, and against
the exact sums and the true root. The rule is not used for them.
"""
from itertools import product
from math import ceil, floor

import cases
import demands
import doubles
import exact
import wire
from draw_spent import FIRST_BETTER
from given import Grid
from limits import DEPTHS, H, ONE, SPENT, T, TOLERANCE
from rules import CONFIRMED, REFUTED, UNDECIDED
from spent import both_ways, close_problems

# The two entries, and every verdict with every depth that they give beside it.
ENTRIES = ("settle", "settle_double")
ANSWERS = (*product((CONFIRMED, REFUTED), DEPTHS), (UNDECIDED, DEPTHS[-1]))


# ---- Edge cases ------------------------------------------------------------

def every_way(given, units, n, part=(0, 0)):
    """A claim of either sign, on the grid and as doubles."""
    bits = doubles.of_units(units, *part)
    return [wire.settle(each, signed, n)
            for problem, signed in ((given, bits),
                                    (given.mirror(), bits ^ doubles.SIGN))
            for each in both_ways(problem)]


def limit_edges():
    """N reaches from the estimate to 0 or T, and up to two units less far or
    past it; the estimate is on a unit or off it. M is at that limit, or about
    as far from it as the estimate."""
    found = []
    for n, off, part, a in product((0, 1, 64, 1_000, TOLERANCE),
                                   range(-2, 3), ((0, 0), (1, 1), (1, 20)),
                                   (0, 1, ONE // 2, ONE - 1, ONE)):
        for units, means in ((n + off, (0, 1, 2, n, n + 1)),
                             (T - n + off, (H, H - 1, H - n, H - 2 * n))):
            if 0 <= units <= T:
                found += [call for m in sorted(set(means))
                          for call in every_way(Grid(m, a), units, n, part)]
    return found


def turning_edges():
    """In turn each of the four angles that a verdict tests is one at which a
    bound's test turns, with M at that turn or one unit beside it."""
    found = []
    for x, n in product((*SPENT, *FIRST_BETTER, ONE, 3 * ONE, H - 100_000),
                        (3, TOLERANCE)):
        for given, units in product(close_problems(x, ONE),
                                    (x + n, x - n, x - n - 1, x + n + 1)):
            found += every_way(given, units, n)
    return found


# ---- Facts -----------------------------------------------------------------

def by_depth(found, verdict, depth):
    """The verdicts of the judge at every depth, beside the one settled."""
    yield (verdict, depth) in ANSWERS, "is no answer"
    for d, judged in zip(DEPTHS, found):
        yield (judged == (verdict if d >= depth else UNDECIDED),
               f"is not the judge's at depth {d}")


def may_be_undecided(given, units, n):
    """R20: one of the ends that would confirm has less than 32 e units to
    spare, and so has each end that would refute."""
    least, greatest = demands.span(given)
    f, c = floor(units), ceil(units)
    low, high = max(c - n, least), min(f + n, greatest)
    return ((exact.may_refuse_lower(low, given)
             or exact.may_refuse_upper(high, given))
            and (f + n + 1 > greatest
                 or exact.may_refuse_lower(f + n + 1, given))
            and (c - n - 1 < least
                 or exact.may_refuse_upper(c - n - 1, given)))


def settled_facts(given, units, n, found, answer):
    """Of one claim that is taken, with the verdict at every depth."""
    verdict, depth = answer
    case = f"{verdict} at depth {depth} on {units} units and N={n}"
    for holds, sentence in by_depth(found, verdict, depth):
        yield given, holds, f"{case} {sentence}: {found}"
    if verdict == UNDECIDED:
        yield (given, may_be_undecided(given, units, n),
               f"{case} has ends to spare")
    else:
        yield from demands.true_verdict(given, units, n, verdict, case)


def settled(ask, rng, count, family):
    """The verdict is the judge's from the depth returned on, and below that
    the judge is Undecided. Confirmed and Refuted are true, and Undecided may
    be. Code 4 is for what is no estimate. Every answer occurs."""
    drawn = [cases.any_claim(rng, family) for _ in range(count)]
    replies = iter(ask([call for claim in drawn for call in (
        wire.settle(*claim), *(wire.judge(*claim, d) for d in DEPTHS))]))
    seen = set()
    for given, bits, n in drawn:
        code, *answer = next(replies)[:3]
        codes, found = zip(*(next(replies)[:2] for _ in DEPTHS))
        units = demands.in_span(given, bits)
        yield (given, {code, *codes} == {4 if units is None else 0},
               f"codes {code} and {codes} for bits {bits}")
        if units is None:
            yield given, answer == [0, 0], f"{answer} beside code {code}"
        else:
            seen.add(tuple(answer))
            yield from settled_facts(given, units, n, found, answer)
    yield (None, seen == set(ANSWERS),
           f"of {len(ANSWERS)} answers only {seen} occurred")
