"""The demands on the library's own answers, in exact whole numbers.

Each function draws cases, asks the library and yields facts: what was given
of M and e (None where nothing was), whether the fact holds, and a sentence for
the case that it does not. A fact that was held against the true root has that
as a fourth part, and one of a distance more behind it; those of widths have
the width. No rule of sine, search or judge is used here, only the exact sums.
The family of a problem is as in cases.py.
"""
from fractions import Fraction
from math import ceil, floor

import cases
import doubles
import draws
import exact
import roots
import rules
import wire
from limits import DEPTHS, T


def span(given):
    """The least and the greatest angle that do not oppose M."""
    return (-T, 0) if given.negative else (0, T)


def sums(_ask, rng, count):
    """R8, R9: the fast sums are the sums by terms at angles of either sign,
    every sum is odd, and odd ones never fall and even ones never rise."""
    for _ in range(count):
        x = draws.angle(rng)
        found = exact.sums_by_terms(x, roots.HIGH_SUM)
        mirrored = exact.sums_by_terms(-x, roots.HIGH_SUM)
        for n, (total, other) in enumerate(zip(found, mirrored)):
            yield None, other == -total, f"S_{n} at -{x}"
        for n, parts in ((9, 1), (10, 1), (roots.LOW_SUM, roots.PARTS),
                         (roots.HIGH_SUM, roots.PARTS)):
            for at, total in ((x, found[n]), (-x, -found[n])):
                fast = Fraction(*exact.scaled_sum(at * parts, n, parts))
                yield None, fast == parts * total, f"S_{n} at X={at}"
        for n, (this, after) in enumerate(zip(found, found[2:])):
            yield (None, this <= after if n % 2 else this >= after,
                   f"S_{n} and S_{n + 2} at X={x}")


def brackets(_ask, rng, count, family):
    """Two searches for one root, from a guess and from 0, agree."""
    for _ in range(count):
        given = cases.orbit(rng, family)
        found = [roots.bracket(given, begin)
                 for begin in (roots.guess, roots.nowhere)]
        yield (given, max(root.low for root in found)
               <= min(root.high for root in found), f"roots {found}")


def sines(ask, rng, count):
    """Bounds hold at every depth, grow better with depth, and are at most 32
    apart at depth 5."""
    drawn = [draws.angle(rng) for _ in range(count)]
    replies = iter(ask([wire.sine(x, d) for x in drawn for d in DEPTHS]))
    for x in drawn:
        found = [next(replies)[:3] for _ in DEPTHS]
        for d, (code, lo, hi) in zip(DEPTHS, found):
            yield (None, code == 0 and exact.sine_between(x, lo, hi),
                   f"bounds of sine at X={x} depth={d}: {lo} {hi}")
        for (_, lo, hi), (_, next_lo, next_hi) in zip(found, found[1:]):
            yield (None, lo <= next_lo and next_hi <= hi,
                   f"deeper bounds at X={x}")
        yield None, found[-1][2] - found[-1][1] <= 32, f"width at X={x}"


def one_end(accepted, true, may_refuse):
    """Accepted ends meet their inequalities, acceptance stays with depth, and
    at depth 5 it fails only with less than 32 e units to spare."""
    for d, answer in zip(DEPTHS, accepted):
        yield not answer or true, f"accepted at {d}"
    yield accepted == sorted(accepted), "lost with depth"
    yield accepted[-1] or may_refuse, "refused at depth 5"


def both_ends(x, given, root, lower, upper):
    """One angle as either end, with what was accepted at every depth."""
    for name, accepted, true, may_refuse, beyond in (
            ("lower", lower, exact.is_lower(x, given),
             exact.may_refuse_lower(x, given), root.lies_outside(x, T)),
            ("upper", upper, exact.is_upper(x, given),
             exact.may_refuse_upper(x, given), root.lies_outside(-T, x))):
        for holds, sentence in one_end(accepted, true, may_refuse):
            yield given, holds, f"{name} end X={x} {sentence}"
        if any(accepted):
            yield given, not beyond, f"{name} end X={x} past the root", root


def ends(ask, rng, count, family):
    """Two angles of one problem, some units apart, tested at every depth."""
    drawn, calls = [], []
    for _ in range(count):
        x, given = cases.turning_orbit(rng, family, draws.depth(rng))
        y = max(span(given)[0], x - 1 - draws.small(rng, 12))
        drawn.append((x, y, given))
        calls += [side(at, given, d) for at in (x, y)
                  for side in (wire.lower, wire.upper) for d in DEPTHS]
    replies = iter(ask(calls))
    for x, y, given in drawn:
        found = [[next(replies)[:2] for _ in DEPTHS] for _ in range(4)]
        yield (given, all(code == 0 for end in found for code, _ in end),
               f"X={x} or {y} is not taken")
        lower_x, upper_x, lower_y, upper_y = (
            [bool(accepted) for _, accepted in end] for end in found)
        root = roots.bracket(given)
        yield from both_ends(x, given, root, lower_x, upper_x)
        yield from both_ends(y, given, root, lower_y, upper_y)
        yield (given, x == y or not (any(lower_x) and any(upper_y)),
               f"lower end {x} above upper end {y}")


def known_ends(ask, rng, count, family):
    """0 is accepted as the end that the root is never beyond, the angle
    farthest from it as no such end, and the unit beyond 0 is not taken."""
    drawn = [(cases.orbit(rng, family), draws.depth(rng))
             for _ in range(count)]
    calls = []
    for given, d in drawn:
        side, far, beyond = ((wire.upper, -T, 1) if given.negative
                             else (wire.lower, T, -1))
        calls += [side(x, given, d) for x in (0, far, beyond)]
    replies = iter(ask(calls))
    for given, d in drawn:
        found = [next(replies)[:2] for _ in range(3)]
        yield (given, found == [(0, 1), (0, 0), (10, 0)],
               f"known ends at depth {d}: {found}")


def inward(given, d, found):
    """Calls for the ends of an enclosure and for one unit further in, which
    is the end itself where that unit would oppose M."""
    low, high = found[1:3]
    least, greatest = span(given)
    return [wire.lower(low, given, d),
            wire.lower(min(low + 1, greatest), given, d),
            wire.upper(high, given, d),
            wire.upper(max(high - 1, least), given, d)]


def nested(given, found):
    """A deeper enclosure lies within, and no lower end is above an upper."""
    for d, (_, low, high) in found.items():
        for e, (_, deep_low, deep_high) in found.items():
            yield given, low <= deep_high, f"ends crossed, depths {d} and {e}"
            if d < e:
                yield (given, low <= deep_low and deep_high <= high,
                       f"depth {e} outside depth {d}")


def true_ends(given, found):
    """The ends meet their exact inequalities, and the root lies between."""
    root = roots.bracket(given)
    for low, high in {(low, high) for _, low, high in found.values()}:
        case = f"enclosure {low} {high}"
        yield (given, exact.is_lower(low, given)
               and exact.is_upper(high, given), f"{case} is untrue")
        yield (given, not root.lies_outside(low, high),
               f"{case} is without the root", root)


def tight(given, d, found, tests):
    """The four answers to the calls for an enclosure's ends."""
    _, low, high = found
    case = f"enclosure {low} {high} depth={d}"
    is_low, past_low, is_high, past_high = tests
    yield given, is_low == is_high == (0, 1), f"ends not accepted, {case}"
    yield (given, past_low == (0, 0) or (given.negative and low == 0),
           f"lower end not the last, {case}")
    yield (given, past_high == (0, 0) or (not given.negative and high == 0),
           f"upper end not the last, {case}")


def enclosures(ask, rng, count, family):
    """Returned ends are accepted and true, and one unit further in is not
    accepted."""
    drawn = [cases.orbit(rng, family) for _ in range(count)]
    replies = iter(ask([wire.enclose(given, d) for given in drawn
                        for d in DEPTHS]))
    found = []
    for given in drawn:
        each = {d: next(replies)[:3] for d in DEPTHS}
        yield given, each[4][0] == each[5][0] == 0, "no enclosure"
        found.append({d: reply for d, reply in each.items() if reply[0] == 0})
        yield from nested(given, found[-1])
        yield from true_ends(given, found[-1])
    tests = iter(ask([call for given, each in zip(drawn, found)
                      for d, ends_found in each.items()
                      for call in inward(given, d, ends_found)]))
    for given, each in zip(drawn, found):
        for d, ends_found in each.items():
            four = [next(tests)[:2] for _ in range(4)]
            yield from tight(given, d, ends_found, four)


def reach(given, e, width):
    """Two angles that far from E on either side, kept within the span."""
    least, greatest = span(given)
    return max(e - width, least), min(e + width, greatest)


def proposals(ask, rng, count, family):
    """The two ends of a certificate meet the exact inequalities, the root
    lies between, and half its width would not be accepted."""
    drawn = [cases.orbit(rng, family) for _ in range(count)]
    found = ask([wire.propose(given) for given in drawn])
    tests = []
    for given, (_, e, _, _, j) in zip(drawn, found):
        low, high = reach(given, e, 2 ** j // 2)
        tests += [wire.lower(low, given, 5), wire.upper(high, given, 5)]
    replies = iter(ask(tests))
    for given, (code, e, _, _, j) in zip(drawn, found):
        case = f"proposal {e} with j={j}"
        low, high = reach(given, e, 2 ** j)
        yield (given, code == 0 and span(given)[0] <= e <= span(given)[1]
               and exact.is_lower(low, given) and exact.is_upper(high, given),
               case)
        root = roots.bracket(given)
        yield (given, not root.lies_outside(low, high),
               f"{case} is without the root", root)
        halves = [next(replies)[:2] for _ in range(2)]
        yield given, j == 0 or (0, 0) in halves, f"smaller j, {case}"


def meant(given, f, c, n, verdict):
    """Whether the verdict is true of the exact inequalities."""
    least, greatest = span(given)
    if verdict == rules.CONFIRMED:
        return (exact.is_lower(max(c - n, least), given)
                and exact.is_upper(min(f + n, greatest), given))
    return ((f + n + 1 <= greatest and exact.is_lower(f + n + 1, given))
            or (c - n - 1 >= least and exact.is_upper(c - n - 1, given)))


def contradicts(root, units, n, verdict):
    """Whether the root is certainly elsewhere than the verdict says, of an
    estimate that is not rounded."""
    low, high = units - n, units + n
    if verdict == rules.CONFIRMED:
        return root.lies_outside(low, high)
    return root.lies_within(low, high)


def true_verdict(given, units, n, verdict, case):
    """Confirmed or Refuted, held against the exact inequalities and the true
    root."""
    yield (given, meant(given, floor(units), ceil(units), n, verdict),
           f"untrue: {case}")
    root = roots.bracket(given)
    yield (given, not contradicts(root, units, n, verdict),
           f"the root is elsewhere: {case}", root)


def claim_facts(claim, found, units):
    """Of one claim, with the verdict at every depth."""
    given, _, n = claim
    decided = [v for v in found if v != rules.UNDECIDED]
    case = f"verdicts {found} on {units} units and N={n}"
    yield given, found[len(found) - len(decided):] == decided, f"lost: {case}"
    yield given, len(set(decided)) <= 1, f"both: {case}"
    for v in set(decided):
        yield from true_verdict(given, units, n, v, case)


def in_span(given, bits):
    """An estimate in units, or None where it is none for this M."""
    units = doubles.in_units(bits)
    least, greatest = span(given)
    return None if units is None or not least <= units <= greatest else units


def verdicts(ask, rng, count, family):
    """Confirmed and Refuted are true and stay with depth; no claim is both.
    Code 4 is for what is no estimate. Every verdict occurs."""
    drawn = [cases.claim(rng, family)[:3] for _ in range(count)]
    replies = iter(ask([wire.judge(*claim, d) for claim in drawn
                        for d in DEPTHS]))
    seen = set()
    for claim in drawn:
        codes, found = zip(*(next(replies)[:2] for _ in DEPTHS))
        units = in_span(claim[0], claim[1])
        yield (claim[0], set(codes) == {4 if units is None else 0},
               f"codes {codes} for bits {claim[1]}")
        if units is not None:
            seen.update(found)
            yield from claim_facts(claim, list(found), units)
    yield None, len(seen) == 3, f"of three verdicts only {seen} occurred"
