"""Numbers stated of M and e as doubles, R60: calls with their answers.

Most have e = 0, where the root is M: it is between two grid points, and what
is certain of it can be said by heart.
"""
import doubles
import mirrors
import wire
from doubles import INFINITY, NANS, PI, SIGN, of_float, of_units
from draws import GREATEST
from given import Doubles
from limits import DEPTHS, H, ONE, T
from rules import CONFIRMED, REFUTED, UNDECIDED

LEAST = 1
HALF = of_units(0, 1, 1)
TINY = of_float(1e-300)
ABOVE_H = of_units(H) + 1
E_ONE = of_units(ONE)
ABOVE_ONE = E_ONE + 1

# M, e and the code that every entry gives, with whatever beside them: 1 comes
# before 2, and 2 before all others.
REFUSED = [
    *((m, e, 1) for m in (ABOVE_H, PI, of_units(H + 1), doubles.GREATEST,
                          INFINITY, *NANS)
      for e in (0, E_ONE, ABOVE_ONE, NANS[0])),
    *((m, e, 2) for m in (LEAST, HALF, of_units(H))
      for e in (ABOVE_ONE, SIGN + 1, SIGN + E_ONE, of_units(ONE + 1),
                INFINITY, SIGN + INFINITY, *NANS)),
]

# M, e and the ends of the enclosure at every depth. A minus zero is 0.
ENCLOSED = [
    *((m, e, 0, 1) for m in (LEAST, TINY, HALF, of_units(1) - 1)
      for e in (0, SIGN)),
    (of_units(1) + 1, 0, 1, 2), (of_units(2) - 1, 0, 1, 2),
    (of_units(H) - 1, 0, H - 1, H), (of_units(H), SIGN, H, H),
    # The lower end is that of M = 1, the upper end that of M = 2.
    (of_units(1, 1, 1), E_ONE, 756_153, 1_090_614),
    (of_units(2) - 1, E_ONE, 756_153, 1_090_614),
]

# M and whether X = 2^28 is a lower and an upper end at depth 5, where A is
# between 2^28 - 2 and 2^28 - 1. Of the M at which R57 has e = 1 turn, a lower
# end needs two more, as it goes by the lesser A, and an upper end none.
BETWEEN = [(42_554_805, 0, 1), (42_554_806, 0, 0), (42_554_811, 0, 0),
           (42_554_812, 0, 0), (42_554_813, 1, 0)]

# X with M = 2^-1074 or 1e-300 and e = 0, and whether it is a lower and an
# upper end: M is neither 0 nor 1.
ENDS = [(0, (0, 1), (0, 0)), (1, (0, 0), (0, 1)), (T, (0, 0), (0, 1)),
        (-1, (10, 0), (10, 0)), (T + 1, (10, 0), (10, 0)),
        (-GREATEST, (10, 0), (10, 0))]

# Estimate, N and depth with the same M and e, and the answer.
JUDGED = [
    (0, 0, 1, (0, UNDECIDED)), (0, 1, 1, (0, CONFIRMED)),
    (SIGN, 1, 5, (0, CONFIRMED)), (LEAST, 0, 5, (0, UNDECIDED)),
    (of_units(1), 0, 5, (0, UNDECIDED)), (of_units(1), 1, 5, (0, CONFIRMED)),
    (of_units(1) + 1, 0, 5, (0, REFUTED)), (of_units(2), 0, 5, (0, REFUTED)),
    (of_units(3), 1, 1, (0, REFUTED)), (SIGN + 1, 0, 5, (4, 0)),
    (SIGN + 1, 65_536, 0, (3, 0)), (SIGN + 1, 65_536, 5, (4, 0)),
    (0, 65_536, 5, (5, 0)),
]


def refused():
    """Beside a code stand zeros, and it comes before those of a depth, an
    angle, an estimate and a tolerance that are not taken either."""
    for m, e, code in REFUSED:
        given = Doubles(m, e)
        yield wire.propose(given), (code, 0, 0, 0, 0)
        yield wire.settle(given, NANS[0], 65_536), (code, 0, 0)
        yield wire.distance(given, NANS[0]), (code, 0, 0)
        for d in (0, 5):
            yield wire.enclose(given, d), (code, 0, 0)
            yield wire.judge(given, NANS[0], 65_536, d), (code, 0)
            for side in (wire.lower, wire.upper):
                yield side(T + 1, given, d), (code, 0)


def taken():
    for m, e, low, high in ENCLOSED:
        for d in DEPTHS:
            yield wire.enclose(Doubles(m, e), d), (0, low, high)
    for m, is_lower, is_upper in BETWEEN:
        given = Doubles(of_units(m), of_units(ONE - 2, 1, 1))
        yield wire.lower(ONE, given, 5), (0, is_lower)
        yield wire.upper(ONE, given, 5), (0, is_upper)
    for m in (LEAST, TINY):
        given = Doubles(m, 0)
        for x, is_lower, is_upper in ENDS:
            yield wire.lower(x, given, 5), is_lower
            yield wire.upper(x, given, 5), is_upper
        for bits, n, d, answer in JUDGED:
            yield wire.judge(given, bits, n, d), answer


def zeros():
    """Either zero is M = 0, which opposes what is below 0. The least e leaves
    its root at 0."""
    for m in (0, SIGN):
        for e in (0, SIGN, LEAST, E_ONE):
            given = Doubles(m, e)
            yield wire.enclose(given, 5), (0, 0, 0)
            yield wire.lower(-1, given, 5), (10, 0)
            yield wire.judge(given, SIGN, 0, 5), (0, CONFIRMED)
            yield wire.judge(given, SIGN + 1, 0, 5), (4, 0)
            yield wire.settle(given, SIGN, 0), (0, CONFIRMED, 1)
            yield wire.settle(given, SIGN + 1, 0), (4, 0, 0)
            yield wire.distance(given, SIGN), (0, 0, 0)
            yield wire.distance(given, SIGN + 1), (4, 0, 0)


def stated():
    """Every call with its answer, of an M above 0 its mirror's too."""
    above = [*refused(), *taken()]
    below = [(mirrors.mirror_call(call), mirrors.mirror_reply(call, answer))
             for call, answer in above]
    return above + below + [*zeros()]
