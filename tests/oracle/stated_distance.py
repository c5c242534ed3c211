"""Stated numbers of how far off an estimate is, R67 and R68: calls with their
answers.
"""
from itertools import product

import wire
from doubles import INFINITY, NANS, SIGN, of_float, of_units
from given import Doubles, Grid
from limits import H, ONE, T
from stated_doubles import E_ONE, HALF, LEAST, TINY
from stated_settle import REFUSED, TAKEN, both_signs

# The double one above is no estimate any more.
TOP = of_units(T)

# What is given, and estimates with least and most.
ON_GRID = [
    # The root is 0. The residual of 2^-9 is a third of a unit.
    (Grid(0, ONE), (
        (of_float(2.0 ** -9), 524_288, 524_288), (0, 0, 0), (SIGN, 0, 0),
        (LEAST, 0, 1), (TINY, 0, 1), (of_units(1) - 1, 0, 1),
        (of_units(1), 1, 1), (of_units(1) + 1, 1, 2),
        (TOP - 1, 843_314_919, 843_314_920),
        (TOP, 843_314_920, 843_314_920))),
    # The circle, where the root is M.
    (Grid(5, 0), (
        (0, 5, 5), (SIGN, 5, 5), (LEAST, 4, 5), (of_units(3, 1, 1), 1, 2),
        (of_units(4), 1, 1), (of_units(4) + 1, 0, 1),
        (of_units(4, 1, 1), 0, 1), (of_units(5) - 1, 0, 1),
        (of_units(5), 0, 0), (of_units(5) + 1, 0, 1),
        (of_units(5, 1, 1), 0, 1), (of_units(6) - 1, 0, 1),
        (of_units(6), 1, 1), (of_units(6, 1, 2), 1, 2))),
    (Grid(H, 0), (
        (0, 843_314_856, 843_314_856), (of_units(H), 0, 0), (TOP - 1, 63, 64),
        (TOP, 64, 64))),
    # e = 1, where the ends are 756,153 and 952,744, and the root is 756,154.2.
    (Grid(1, ONE), (
        (0, 756_153, 952_744), (SIGN, 756_153, 952_744),
        (LEAST, 756_152, 952_744), (of_units(700_000), 56_153, 252_744),
        (of_units(756_152), 1, 196_592), (of_units(756_153) - 1, 0, 196_592),
        (of_units(756_153), 0, 196_591), (of_units(854_448), 0, 98_296),
        (of_units(854_448, 1, 1), 0, 98_296),
        (of_units(854_449), 0, 98_296), (of_units(952_744), 0, 196_591),
        (of_units(952_744) + 1, 0, 196_592), (of_units(952_745), 1, 196_592),
        (of_units(952_745) + 1, 1, 196_593),
        (TOP, 842_362_176, 842_558_767))),
    # From 843,314,853 to 843,314,860.
    (Grid(H, ONE), (
        (0, 843_314_853, 843_314_860), (of_units(H), 0, 4), (TOP, 60, 67))),
    # From 259,103,838 to 259,103,840.
    (Grid(257_812_739, 1_570_330), (
        (of_units(259_103_836, 1, 1), 1, 4), (of_units(259_103_837), 1, 3),
        (of_units(259_103_837, 1, 1), 0, 3), (of_units(259_103_838), 0, 2),
        (of_units(259_103_839), 0, 1), (of_units(259_103_839, 1, 1), 0, 2),
        (of_units(259_103_840), 0, 2), (of_units(259_103_840, 1, 2), 0, 3),
        (of_units(259_103_841), 1, 3), (of_units(259_103_841, 1, 2), 1, 4))),
    # From 218,439,871 to 218,439,890. It is Confirmed with N = 11.
    (Grid(23_322_495, 268_435_404), (
        (of_units(218_439_883, 1, 1), 0, 13),)),
    # From 220,152,631 to 220,152,638; the first is Undecided at N = 0.
    (Grid(73_434_105, 200_644_510), (
        (of_units(220_152_628), 3, 10), (of_units(220_152_635), 0, 4))),
]

OFF_GRID = [
    # The least M and the circle: all that is known is a root from 0 to 1.
    (Doubles(LEAST, 0), (
        (0, 0, 1), (LEAST, 0, 1), (of_units(1), 0, 1),
        (of_units(1) + 1, 0, 2), (of_units(2), 1, 2), (of_units(10), 9, 10))),
    # Half a unit at e = 1, from 0 to 952,744. The first is near the root.
    (Doubles(HALF, E_ONE), (
        (of_float(0.0022360679), 0, 600_240), (0, 0, 952_744),
        (of_units(952_744), 0, 952_744), (of_units(952_744) + 1, 0, 952_745),
        (of_units(952_745), 1, 952_745))),
    # 1e-5 degrees, from 2,709,311 to 2,748,072.
    (Doubles(of_float(1.7453292519943297e-07), E_ONE), (
        (of_units(2_709_310), 1, 38_762),
        (of_units(2_748_073, 1, 1), 1, 38_763))),
    # From 823,301,606 to 823,301,612, where the root is 823,301,609.0.
    (Doubles(of_float(3.0), of_float(0.9)), (
        (of_float(3.0671), 16_775, 16_782),
        (of_units(823_301_609), 0, 3))),
]


def measured(rows):
    for given, answers in rows:
        for bits, *answer in answers:
            yield wire.distance(given, bits), (0, *answer)


def refused():
    """Whatever else is refused, the first of the three has its code, and
    zeros stand beside it. An estimate that opposes M is refused as any
    other."""
    for three in product(*([(good, 0), *bad] for good, bad in
                           zip(TAKEN[:3], REFUSED[:3]))):
        (m, a, bits), codes = zip(*three)
        if any(codes):
            code = next(code for code in codes if code)
            yield wire.distance(Grid(m, a), bits), (code, 0, 0)
    for m, bits in ((0, SIGN + 1), (1, SIGN + 1), (-1, 1), (1, SIGN + TOP),
                    (0, SIGN + INFINITY), (0, SIGN + NANS[0])):
        yield wire.distance(Grid(m, ONE), bits), (4, 0, 0)


def on_grid():
    return both_signs([*measured(ON_GRID), *refused()])


def off_grid():
    return both_signs(measured(OFF_GRID))
