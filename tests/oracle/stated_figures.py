"""Stated numbers of the figures, R63 to R66: calls with their answers."""
import wire
from doubles import of_units
from given import Grid
from limits import ONE
from rules import CONFIRMED, REFUTED, UNDECIDED
from stated_settle import both_signs

# A, the greatest width and the least N; 0 where none exists.
FIGURES = [
    # e is 0, 0.5, 0.9, 0.99 and 0.999, and A rounded down.
    (0, 2, 1), (134_217_728, 65, 65), (241_591_910, 577, 577),
    (265_751_101, 6_337, 6_337), (268_167_020, 63_937, 63_937),
    # From the circle on, and past one half.
    (1, 2, 2), (4_129_776, 2, 2), (4_129_777, 3, 3), (134_217_729, 66, 66),
    # The last A with a least N, and the first without.
    (268_173_559, 65_535, 65_535), (268_173_560, 65_536, 0),
    # The last width that is below T, and the first that is not.
    (268_435_435, 818_088_946, 0), (268_435_436, 858_993_397, 0),
    (ONE - 256, 67_108_801, 0), (ONE - 1, 17_179_869_121, 0),
    # The parabolic limit, and what is no A.
    (ONE, 0, 0), (ONE + 1, 0, 0), (2 ** 31, 0, 0), (2 ** 32 - 1, 0, 0),
]

# A, and how many units 32 e / (1 - e) is, rounded up.
GAPS = [(0, 0), (1, 1), (134_217_728, 32), (134_217_729, 33),
        (241_591_910, 288), (265_751_101, 3_168), (268_167_020, 31_968),
        (ONE - 256, 33_554_400), (ONE - 1, 8_589_934_560)]

# M and A with the two ends.
ENCLOSURES = [
    # Here (w - 2) (2^28 - A) / A is 14.3, of 64 that R63 allows.
    (808_404_641, 17_526_361, 810_539_270, 810_539_273),
    (257_812_739, 1_570_330, 259_103_838, 259_103_840),
    (73_434_105, 200_644_510, 220_152_631, 220_152_638),
]

# M, A and an estimate in units, with the verdict on it by N.
VERDICTS = [
    # A lower end for which the least N of R64, which is 2, is needed.
    (257_812_739, 1_570_330, 259_103_838,
     {0: UNDECIDED, 1: UNDECIDED, 2: CONFIRMED, 3: CONFIRMED}),
    # 3 units below a lower end. To be outside by N + 1 is not enough to be
    # refuted, as the accepted angles are no unbroken run.
    (73_434_105, 200_644_510, 220_152_628,
     {0: UNDECIDED, 1: REFUTED, 2: REFUTED, 3: UNDECIDED}),
]


def figures():
    return [(wire.figures(a), (0, width, n)) for a, width, n in FIGURES]


def on_grid():
    """At depth 5."""
    stated = [(wire.enclose(Grid(m, a), 5), (0, *ends))
              for m, a, *ends in ENCLOSURES]
    stated += [(wire.judge(Grid(m, a), of_units(units), n, 5), (0, verdict))
               for m, a, units, by_n in VERDICTS
               for n, verdict in by_n.items()]
    return both_signs(stated)
