"""Facts about the library's flybys, R83 to R89, as demands.py has them.

What it answers is held against the exact sums and, by a longer one, against
the true root, and one answer against another. No rule is used for them.
"""
from fractions import Fraction
from math import ceil, floor

import doubles
import draw_flyby
import draws
import exact
import flyby_exact
import wire
from flyby_exact import LAST, LONG
from limits import FLYBY_X, UNIT
from rules import CONFIRMED, REFUTED, UNDECIDED

# What stands beside a fact that was held against the true root.
ROOT = f"by terms 0 to {LONG}"
# At the last angle lo is so far from hi at the most, and so far from sinh.
WIDTH = 10


# ---- Sinh ------------------------------------------------------------------

def tripled(x):
    """Whether the longer sums leave sinh 3x = 3 sinh x + 4 sinh^3 x possible,
    so that it is sinh that they have between them."""
    low, high, whole = flyby_exact.sums(x, LONG)
    low, high = (Fraction(side, whole * UNIT) for side in (low, high))
    triple_low, triple_high, whole = flyby_exact.sums(3 * x, LONG)
    scale = whole * UNIT
    return (triple_low <= (3 * high + 4 * high ** 3) * scale
            and (3 * low + 4 * low ** 3) * scale <= triple_high)


def sums(_ask, rng, count):
    """R83: the fast sums are the sums by terms, which never fall from S_9 on,
    and with their last terms once more never rise; they are sinh's."""
    for _ in range(count):
        x = draw_flyby.angle(rng)
        found = exact.sums_by_terms(x, LONG, 1)
        highs = [2 * this - before for before, this in zip(found, found[1:])]
        for n in (LAST, LONG):
            low, high, whole = flyby_exact.sums(x, n)
            yield (None, Fraction(low, whole) == found[n]
                   and Fraction(high, whole) == highs[n - 1],
                   f"S_{n} of sinh at X={x}")
        for n in range(LAST, LONG):
            yield (None, found[n] <= found[n + 1]
                   and highs[n] <= highs[n - 1], f"S_{n} and on at X={x}")
        yield None, tripled(x // 3), f"three times X={x // 3}"


def sinhs(ask, rng, count):
    """Bounds hold, of the sums and of the true sinh; they are 0 at 0 and
    elsewhere in order, and never above 4."""
    drawn = [draw_flyby.angle(rng) for _ in range(count)]
    replies = ask([wire.flyby_sinh(x) for x in drawn])
    for x, (code, lo, hi, *_) in zip(drawn, replies):
        case = f"bounds of sinh at X={x}: {lo} {hi}"
        yield (None, code == 0 and flyby_exact.sinh_between(x, lo, hi, LAST),
               case)
        yield (None, flyby_exact.sinh_between(x, lo, hi, LONG),
               f"{case} are not the true sinh's", ROOT)
        yield (None, x <= lo < hi <= 4 * UNIT if x else lo == hi == 0,
               f"{case} are out of order")


# ---- Ends ------------------------------------------------------------------

SIDES = (("lower", wire.flyby_lower, flyby_exact.is_lower),
         ("upper", wire.flyby_upper, flyby_exact.is_upper))


def both_ends(x, given):
    return [side(x, given) for _, side, _ in SIDES]


def true_end(x, given, name, is_end):
    """Of an end that is accepted."""
    yield given, is_end(x, given), f"{name} end X={x} is untrue"
    yield (given, is_end(x, given, LONG), f"{name} end X={x} past the root",
           ROOT)


def end_facts(x, given, found):
    """One angle as either end. Both it is only at 0, where that is the root;
    as a lower end 0 is always accepted, and as an upper one with M = 0."""
    for (name, _, is_end), (code, accepted) in zip(SIDES, found):
        yield given, code == 0, f"X={x} is not taken"
        if accepted:
            yield from true_end(x, given, name, is_end)
    known = [(0, 1), (0, int(given.m == 0))]
    yield (given, found == known if x == 0 else found != [(0, 1), (0, 1)],
           f"the ends at X={x} are {found}")


def ends(ask, rng, count):
    """Two angles of one problem, some units apart, and 0. As either bound
    rises by one at least with each unit, and e is not below 1, the accepted
    ends of one kind are an unbroken run."""
    drawn, calls = [], []
    for _ in range(count):
        x, given = draw_flyby.turning(rng)
        y = max(0, x - 1 - draws.small(rng, 12))
        drawn.append((x, y, given))
        calls += [call for at in (x, y, 0) for call in both_ends(at, given)]
    replies = iter(ask(calls))
    for x, y, given in drawn:
        found = [[next(replies)[:2] for _ in SIDES] for _ in range(3)]
        for at, each in zip((x, y, 0), found):
            yield from end_facts(at, given, each)
        (lower_x, upper_x), (lower_y, upper_y), _ = found
        yield (given, x == y or (lower_x, upper_y) != ((0, 1), (0, 1)),
               f"lower end {x} above upper end {y}")
        yield (given, lower_x <= lower_y and upper_y <= upper_x,
               f"an end at {x} or {y} is beyond one that is not accepted")


# ---- Enclosures ------------------------------------------------------------

def may_have_none(given):
    """Whether the last angle has less than 10 e units to spare as an upper
    end, so that there may be no enclosure."""
    spare = flyby_exact.left_sides(FLYBY_X, given, LONG)[0]
    whole = flyby_exact.sums(FLYBY_X, LONG)[2]
    return spare < WIDTH * given.b * whole


def no_enclosure(given, numbers):
    yield given, numbers == [0, 0], f"{numbers} beside code 15"
    yield given, may_have_none(given), "code 15 with an end to spare", ROOT


def true_enclosure(given, low, high, tests):
    """With the library's own answers at the ends and one unit further in."""
    case = f"enclosure {low} {high}"
    is_low, past_low, is_high, past_high = tests
    yield given, 0 <= low <= high <= FLYBY_X, f"{case} is out of order"
    for x, (name, _, is_end) in zip((low, high), SIDES):
        yield from true_end(x, given, f"{case}, {name}", is_end)
    yield given, is_low == is_high == (0, 1), f"ends not accepted, {case}"
    yield given, past_low == (0, 0), f"lower end not the last, {case}"
    yield (given, past_high == (0, 0) or high == 0,
           f"upper end not the last, {case}")


def inward(given, low, high):
    """Calls for the ends and for one unit further in, which is the end itself
    at 0; without an enclosure they are of no use."""
    return [wire.flyby_lower(low, given), wire.flyby_lower(low + 1, given),
            wire.flyby_upper(high, given),
            wire.flyby_upper(max(high - 1, 0), given)]


def enclosures(ask, rng, count):
    """The ends are true and the last ones, the root lies between, and code 15
    is given exactly where the last angle is not accepted. Both occur."""
    drawn = [draw_flyby.orbit(rng) for _ in range(count)]
    replies = [reply[:3] for reply in ask([wire.flyby_enclose(given)
                                           for given in drawn])]
    tops = ask([wire.flyby_upper(FLYBY_X, given) for given in drawn])
    tests = iter(ask([call for given, reply in zip(drawn, replies)
                      for call in inward(given, *reply[1:])]))
    seen = set()
    for given, (code, *numbers), top in zip(drawn, replies, tops):
        four = [next(tests)[:2] for _ in range(4)]
        seen.add(code)
        yield (given, (code, *top[:2]) in ((0, 0, 1), (15, 0, 0)),
               f"code {code}, and the last angle has {top}")
        yield from (true_enclosure(given, *numbers, four) if code == 0
                    else no_enclosure(given, numbers))
    yield None, seen == {0, 15}, f"of codes 0 and 15 only {seen} occurred"


# ---- Verdicts --------------------------------------------------------------

def in_range(bits):
    """An estimate in units, or None where it is none."""
    units = doubles.in_units(bits)
    return None if units is None or not 0 <= units <= FLYBY_X else units


def tested(given, units, n):
    """The two calls that would confirm, and those that would refute."""
    f, c = floor(units), ceil(units)
    confirming = [wire.flyby_lower(max(c - n, 0), given),
                  wire.flyby_upper(min(f + n, FLYBY_X), given)]
    refuting = [wire.flyby_lower(f + n + 1, given)] * (f + n < FLYBY_X)
    refuting += [wire.flyby_upper(c - n - 1, given)] * (c - n > 0)
    return confirming, refuting


def verdict_facts(given, units, n, verdict, ends_found):
    """The verdict is that of the library's own ends, and the true root is
    where it says."""
    case = f"verdict {verdict} on {units} units and N={n}"
    confirming, refuting = ([reply[:2] == (0, 1) for reply in each]
                            for each in ends_found)
    wanted = (CONFIRMED if all(confirming) else REFUTED if any(refuting)
              else UNDECIDED)
    yield given, verdict == wanted, f"{case}: its ends say {wanted}"
    yield (given, not (all(confirming) and any(refuting)),
           f"{case} would be both")
    if verdict == CONFIRMED:
        yield (given, flyby_exact.root_within(units, n, given),
               f"the root is elsewhere: {case}", ROOT)
    if verdict == REFUTED:
        yield (given, flyby_exact.root_outside(units, n, given),
               f"the root is elsewhere: {case}", ROOT)


def verdicts(ask, rng, count):
    """Confirmed and Refuted are true. Code 4 is for what is no estimate.
    Every verdict occurs."""
    drawn = [draw_flyby.claim(rng) for _ in range(count)]
    drawn = [(given, draw_flyby.spoil_estimate(rng, bits), n)
             for given, bits, n in drawn]
    judged = ask([wire.flyby_judge(*claim) for claim in drawn])
    taken = [(given, in_range(bits), n) for given, bits, n in drawn]
    calls = [tested(*claim) for claim in taken if claim[1] is not None]
    replies = iter(ask([call for both in calls for each in both
                        for call in each]))
    calls, seen = iter(calls), set()
    for claim, (given, units, n), (code, verdict, *_) in zip(drawn, taken,
                                                             judged):
        yield (given, (code, verdict) == (4, 0) if units is None
               else code == 0, f"code {code} for bits {claim[1]:016x}")
        if units is not None:
            seen.add(verdict)
            found = [[next(replies) for _ in each] for each in next(calls)]
            yield from verdict_facts(given, units, n, verdict, found)
    yield None, len(seen) == 3, f"of three verdicts only {seen} occurred"
