"""Stated numbers of the judge that takes no depth, R62: calls with their
answers. Each answer is there, Confirmed and Refuted at every depth.
"""
from itertools import product

import mirrors
import wire
from doubles import INFINITY, NANS, SIGN, of_float, of_units
from given import Doubles, Grid
from limits import H, ONE, T, TOLERANCE
from rules import CONFIRMED, REFUTED, UNDECIDED

# What is given, an estimate, and the answers as N grows from 0: the last N of
# each, the verdict and the depth.
ON_GRID = [
    # e = 1/2, with the estimate above the root by 10,206.8 units, by 30,477.8
    # and by 30,304.2, then below it by 29,695.8.
    (Grid(2 ** 24, ONE // 2), of_units(33_478_000), (
        (10_205, REFUTED, 1), (10_208, UNDECIDED, 5), (10_273, CONFIRMED, 2),
        (65_535, CONFIRMED, 1))),
    (Grid(2 ** 28, ONE // 2), of_units(402_335_000), (
        (30_181, REFUTED, 2), (30_474, REFUTED, 3), (30_479, UNDECIDED, 5),
        (30_483, CONFIRMED, 4), (44_815, CONFIRMED, 3),
        (65_535, CONFIRMED, 2))),
    (Grid(800_000_000, ONE // 2), of_units(814_450_000), (
        (29_175, REFUTED, 3), (30_300, REFUTED, 4), (30_301, REFUTED, 5),
        (30_305, UNDECIDED, 5), (30_343, CONFIRMED, 5),
        (55_738, CONFIRMED, 4), (65_535, CONFIRMED, 3))),
    (Grid(800_000_000, ONE // 2), of_units(814_390_000), (
        (4_260, REFUTED, 3), (29_655, REFUTED, 4), (29_693, REFUTED, 5),
        (29_697, UNDECIDED, 5), (29_698, CONFIRMED, 5),
        (30_823, CONFIRMED, 4), (65_535, CONFIRMED, 3))),
    # The circle, where the root is M and every depth is as good.
    (Grid(H, 0), of_units(T), ((63, REFUTED, 1), (65_535, CONFIRMED, 1))),
    # e = 1 at both ends of M's range; the first estimate is the last angle.
    (Grid(H, ONE), of_units(T), (
        (57, REFUTED, 4), (59, REFUTED, 5), (66, UNDECIDED, 5),
        (170, CONFIRMED, 5), (65_535, CONFIRMED, 4))),
    (Grid(1, ONE), of_units(700_000), (
        (56_152, REFUTED, 1), (65_535, UNDECIDED, 5))),
    (Grid(0, ONE), 0, ((0, CONFIRMED, 1), (65_535, UNDECIDED, 5))),
    # At N = 999 the unit below the reach is 0, which is the root.
    (Grid(0, ONE), of_units(1_000), (
        (998, UNDECIDED, 5), (999, REFUTED, 1), (65_535, UNDECIDED, 5))),
    (Grid(0, ONE), of_units(524_288), ((65_535, UNDECIDED, 5),)),
    (Grid(0, ONE), of_units(1_048_576), ((65_535, REFUTED, 1),)),
]

OFF_GRID = [
    # The least M and the circle: all that is known is a root from 0 to 1.
    (Doubles(1, 0), of_units(10), (
        (8, REFUTED, 1), (9, UNDECIDED, 5), (65_535, CONFIRMED, 1))),
    (Doubles(of_float(3.0), of_float(0.9)), of_float(3.0671), (
        (14_895, REFUTED, 3), (16_774, REFUTED, 4), (16_775, REFUTED, 5),
        (16_781, UNDECIDED, 5), (16_846, CONFIRMED, 5),
        (58_320, CONFIRMED, 4), (65_535, CONFIRMED, 3))),
    # The accepted angles are no unbroken run, and so one unit more in N may
    # need another depth again.
    (Doubles(of_float(0.3490658503988659), of_float(0.9)),
     of_float(1.181841), (
        (7, UNDECIDED, 5), (4_489, CONFIRMED, 3), (4_490, CONFIRMED, 2),
        (4_491, CONFIRMED, 3), (65_535, CONFIRMED, 2))),
]

# M, A, estimate and N that are taken; and those that are not, with the code.
TAKEN = (1, ONE, of_units(1), 0)
REFUSED = (((H + 1, 1), (-H - 1, 1)),
           ((ONE + 1, 2),),
           ((NANS[0], 4), (INFINITY, 4), (of_units(T) + 1, 4)),
           ((TOLERANCE + 1, 5), (2 ** 32 - 1, 5)))


def claims(rows):
    """Each answer at the first and at the last N that has it. One N more than
    the greatest is refused."""
    for given, bits, answers in rows:
        first = 0
        for last, *answer in answers:
            for n in sorted({first, last}):
                yield wire.settle(given, bits, n), (0, *answer)
            first = last + 1
        yield wire.settle(given, bits, first), (5, 0, 0)


def refused():
    """Whatever else is refused, the first of the four has its code, and zeros
    stand beside it. An estimate that opposes M is refused as any other."""
    for four in product(*([(good, 0), *bad]
                          for good, bad in zip(TAKEN, REFUSED))):
        (m, a, bits, n), codes = zip(*four)
        if any(codes):
            code = next(code for code in codes if code)
            yield wire.settle(Grid(m, a), bits, n), (code, 0, 0)
    for m, bits in ((0, SIGN + 1), (1, SIGN + 1), (-1, 1)):
        for n in (0, TOLERANCE + 1):
            yield wire.settle(Grid(m, ONE), bits, n), (4, 0, 0)


def both_signs(stated):
    """With the mirror of each that has one."""
    found = [*stated]
    return found + [(mirrors.mirror_call(call),
                     mirrors.mirror_reply(call, answer))
                    for call, answer in found
                    if mirrors.has_mirror(call.given)]


def on_grid():
    return both_signs([*claims(ON_GRID), *refused()])


def off_grid():
    return both_signs(claims(OFF_GRID))
