"""Stated numbers of flybys, R81 to R89: calls with their answers.

Those of sinh and of ends, enclosures and verdicts were worked out by bc, which
has no code of this folder, from the text of the rules.
"""
from itertools import product

import wire
from doubles import GREATEST, INFINITY, NANS, SIGN, of_float, of_units
from given import Flyby
from limits import FLYBY_B, FLYBY_M, FLYBY_X, H, ONE, T, TOLERANCE
from rules import CONFIRMED, REFUTED, UNDECIDED

FAR = 2 ** 32 - 1
# The double one above is no estimate any more.
TOP = of_units(FLYBY_X)
# The last B for which any M has code 15.
LAST_B = 740_131_757

# X, lo and hi.
SINHS = [
    (0, 0, 0), (1, 1, 11), (2, 2, 12), (16_383, 16_383, 16_393),
    (16_384, 16_384, 16_394), (524_288, 524_288, 524_298),
    (756_153, 756_153, 756_163), (2 ** 24, 16_788_140, 16_788_150),
    (2 ** 27, 139_880_455, 139_880_465), (ONE - 1, 315_465_664, 315_465_675),
    (ONE, 315_465_666, 315_465_676), (ONE + 1, 315_465_668, 315_465_678),
    (FLYBY_X - 1, 973_577_920, 973_577_930),
    (FLYBY_X, 973_577_924, 973_577_934),
]

# X and B, the first M of which X is a lower end, and the last of which it is
# an upper end, be they above M's limit or not.
ENDS = [
    (0, ONE, 0, 0), (0, FLYBY_B, 0, 0), (1, ONE, 10, 0), (1, FLYBY_B, 43, 3),
    (524_288, ONE, 10, 0), (524_288, ONE + 1, 11, 0),
    (524_288, FLYBY_B, 1_572_904, 1_572_864),
    (ONE, ONE, 47_030_220, 47_030_210), (ONE, ONE + 1, 47_030_222, 47_030_211),
    (ONE, 2 * ONE, 362_495_896, 362_495_876),
    (ONE, FLYBY_B, 993_427_248, 993_427_208),
    (FLYBY_X, ONE, 436_707_022, 436_707_012),
    (FLYBY_X, 2 * ONE, 1_410_284_956, 1_410_284_936),
    (FLYBY_X, LAST_B, 2_147_483_673, 2_147_483_644),
    (FLYBY_X, LAST_B + 1, 2_147_483_676, 2_147_483_648),
    (FLYBY_X, FLYBY_B, 3_357_440_824, 3_357_440_784),
]

# M and B with the two ends. With M = 0 both are 0.
ENCLOSURES = [
    *((0, b, 0, 0) for b in (ONE, ONE + 1, 2 * ONE, FLYBY_B)),
    # By the parabolic limit one unit of M is many thousands of the root, and
    # up to nine units no lower end but 0 is certain.
    (1, ONE, 0, 756_157), (1, ONE + 1, 0, 756_157), (2, ONE, 0, 952_744),
    (9, ONE, 0, 1_572_864), (10, ONE, 756_153, 1_629_117),
    (11, ONE, 952_670, 1_681_703), (100, ONE + 1, 3_388_623, 3_509_773),
    (1, ONE + 65_536, 0, 4_096), (1, FLYBY_B, 0, 1), (3, FLYBY_B, 0, 1),
    (2 ** 24, ONE, 191_934_054, 191_934_091),
    (2 ** 24, FLYBY_B, 5_591_853, 5_591_867),
    (ONE, ONE, 464_156_279, 464_156_285),
    (ONE, 2 * ONE, 218_532_436, 218_532_448),
    (ONE, FLYBY_B, 87_408_029, 87_408_042),
    # The last M for each B that has no code 15.
    (436_707_012, ONE, FLYBY_X - 4, FLYBY_X),
    (1_410_284_936, 2 * ONE, FLYBY_X - 4, FLYBY_X),
    (FLYBY_M, LAST_B + 1, FLYBY_X - 4, FLYBY_X),
    (FLYBY_M, FLYBY_B, 432_299_576, 432_299_581),
]
NO_ENCLOSURES = [(436_707_013, ONE), (1_410_284_937, 2 * ONE),
                 (2_147_483_645, LAST_B), (FLYBY_M, LAST_B), (FLYBY_M, ONE)]

# M, B and an estimate, and the verdicts as N grows from 0: the last N of each.
CLAIMS = [
    # At M = 0 the root is 0: an estimate of 2^-9 is refuted however small its
    # residual, and 1,000 units are confirmed as soon as N reaches them.
    (0, ONE, of_float(2.0 ** -9), ((TOLERANCE, REFUTED),)),
    (0, ONE, of_units(1_000), ((999, REFUTED), (TOLERANCE, CONFIRMED))),
    (0, ONE, 0, ((TOLERANCE, CONFIRMED),)),
    (0, ONE, SIGN, ((TOLERANCE, CONFIRMED),)),
    (0, FLYBY_B, of_units(5, 1, 1), ((5, REFUTED), (TOLERANCE, CONFIRMED))),
    # The least double is above the root.
    (0, ONE + 1, 1, ((0, REFUTED), (TOLERANCE, CONFIRMED))),
    (1, FLYBY_B, 1, ((0, UNDECIDED), (TOLERANCE, CONFIRMED))),
    (1, FLYBY_B, of_units(2), (
        (0, REFUTED), (1, UNDECIDED), (TOLERANCE, CONFIRMED))),
    # Below and above the ends of the enclosure, on a unit and off it.
    (ONE, 2 * ONE, of_units(218_530_000), (
        (2_435, REFUTED), (2_447, UNDECIDED), (TOLERANCE, CONFIRMED))),
    (ONE, ONE, of_units(464_160_000, 1, 1), (
        (3_715, REFUTED), (3_721, UNDECIDED), (TOLERANCE, CONFIRMED))),
    (2 ** 24, FLYBY_B, of_units(5_588_000, 1, 1), (
        (3_852, REFUTED), (3_866, UNDECIDED), (TOLERANCE, CONFIRMED))),
    (FLYBY_M, FLYBY_B, of_units(432_300_000, 2 ** 20 - 1, 20), (
        (419, REFUTED), (424, UNDECIDED), (TOLERANCE, CONFIRMED))),
    # Between them.
    (ONE, FLYBY_B, of_units(87_408_035, 1, 2), (
        (6, UNDECIDED), (TOLERANCE, CONFIRMED))),
    (2 ** 24, ONE, of_units(191_934_080), (
        (25, UNDECIDED), (TOLERANCE, CONFIRMED))),
    # By the parabolic limit.
    (1, ONE, of_units(800_000), ((43_842, REFUTED), (TOLERANCE, UNDECIDED))),
    (10, ONE, of_units(1_600_000), ((TOLERANCE, UNDECIDED),)),
    (100, ONE + 1, of_units(3_450_000), (
        (61_376, UNDECIDED), (TOLERANCE, CONFIRMED))),
    # By the last angle, and where there is no enclosure.
    (1_410_284_936, 2 * ONE, of_units(FLYBY_X - 1_000), (
        (995, REFUTED), (999, UNDECIDED), (TOLERANCE, CONFIRMED))),
    (436_707_000, ONE, TOP, (
        (3, REFUTED), (7, UNDECIDED), (TOLERANCE, CONFIRMED))),
    (436_707_012, ONE, TOP, ((3, UNDECIDED), (TOLERANCE, CONFIRMED))),
    (436_707_013, ONE, TOP, ((TOLERANCE, UNDECIDED),)),
    (FLYBY_M, ONE, TOP, ((TOLERANCE, UNDECIDED),)),
    (FLYBY_M, ONE, of_float(1.5), ((TOLERANCE, REFUTED),)),
    (FLYBY_M, FLYBY_B, of_float(1.5), ((TOLERANCE, REFUTED),)),
]

# Each input good, and then not, with the code; in the order of the codes. Read
# as signed numbers the greatest M would be below 0.
INPUTS = {
    "m": ((1, 0), (FLYBY_M, 0), (FLYBY_M + 1, 1), (FAR, 1)),
    "b": ((ONE, 0), (FLYBY_B, 0), (ONE - 1, 2), (0, 2), (FLYBY_B + 1, 2),
          (FAR, 2)),
    "x": ((0, 0), (FLYBY_X + 1, 10), (T, 10), (FAR, 10)),
    "bits": ((TOP, 0), (TOP + 1, 4), (SIGN + 1, 4), (SIGN + TOP, 4),
             (INFINITY, 4), (SIGN + INFINITY, 4), (GREATEST, 4),
             (of_units(H), 4), *((nan + sign, 4) for nan in NANS
                                 for sign in (0, SIGN))),
    "n": ((0, 0), (TOLERANCE, 0), (TOLERANCE + 1, 5), (FAR, 5)),
}


def sinhs():
    yield from ((wire.flyby_sinh(x), (0, lo, hi)) for x, lo, hi in SINHS)
    yield from ((wire.flyby_sinh(x), (code, 0, 0))
                for x, code in INPUTS["x"] if code)


def ends():
    """Each with the M at which it turns, the M beside that, and M's limits."""
    for x, b, first, last in ENDS:
        for m in sorted({0, first - 1, first, last, last + 1, FLYBY_M}):
            if 0 <= m <= FLYBY_M:
                given = Flyby(m, b)
                yield wire.flyby_lower(x, given), (0, int(m >= first))
                yield wire.flyby_upper(x, given), (0, int(m <= last))


def enclosures():
    for m, b, low, high in ENCLOSURES:
        yield wire.flyby_enclose(Flyby(m, b)), (0, low, high)
    for m, b in NO_ENCLOSURES:
        yield wire.flyby_enclose(Flyby(m, b)), (15, 0, 0)


def claims():
    """Each verdict at the first and at the last N that has it."""
    for m, b, bits, verdicts in CLAIMS:
        first = 0
        for last, verdict in verdicts:
            for n in sorted({first, last}):
                yield wire.flyby_judge(Flyby(m, b), bits, n), (0, verdict)
            first = last + 1


def refusals(names, entry, zeros):
    """Whatever else is refused, the first has its code, and zeros stand beside
    it."""
    for inputs in product(*(INPUTS[name] for name in names)):
        values, codes = zip(*inputs)
        first = [code for code in codes if code]
        if first:
            yield entry(*values), (first[0], *zeros)


def refused():
    yield from refusals("mb", lambda m, b: wire.flyby_enclose(Flyby(m, b)),
                        (0, 0))
    for side in (wire.flyby_lower, wire.flyby_upper):
        yield from refusals("mbx", lambda m, b, x, side=side: side(
            x, Flyby(m, b)), (0,))
    yield from refusals(
        ("m", "b", "bits", "n"),
        lambda m, b, bits, n: wire.flyby_judge(Flyby(m, b), bits, n), (0,))


def stated():
    return [*sinhs(), *ends(), *enclosures(), *claims(), *refused()]
