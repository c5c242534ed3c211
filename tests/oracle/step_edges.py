"""Edge cases of a step, R75 to R79: every code with every other, estimates on
a unit and beside it, below every normal double, and where a step ends at a
zero, at the last angle or nowhere.
"""
from itertools import product

import doubles
import steps
import wire
from cosine_facts import ANGLES as COSINE_ANGLES
from draw_steps import TOP
from draws import GREATEST, LEAST
from given import Grid
from limits import H, ONE, SPENT, T, TOLERANCE

FAR = 2 ** 32 - 1
# 257 and 258 would be 1 and 2 if only a byte of them were read.
METHODS = (0, 1, 2, 3, 257, 258, FAR)


def both_signs(given, bits, others=()):
    """A step with each method, and its mirror's; each judged too with these
    N and depths."""
    found = []
    for problem, estimate in ((given, bits),
                              (given.mirror(), bits ^ doubles.SIGN)):
        for method in steps.METHODS:
            found.append(wire.step(problem, estimate, method))
            found += [wire.step_judged(problem, estimate, method, n, d)
                      for n, d in others]
    return found


def codes():
    """Each input good and bad, with the others good and bad."""
    taken = product(
        (0, 1, -1, H + 1, -H - 1, LEAST, GREATEST), (0, ONE, ONE + 1, FAR),
        (0, doubles.SIGN, doubles.of_units(1), doubles.of_units(-1), TOP + 1,
         doubles.INFINITY, doubles.NANS[0], doubles.SIGN + doubles.NANS[1]),
        METHODS)
    found = []
    for m, a, bits, method in taken:
        given = Grid(m, a)
        found.append(wire.step(given, bits, method))
        found += [wire.step_judged(given, bits, method, n, d)
                  for n, d in product((0, TOLERANCE, TOLERANCE + 1, FAR),
                                      (0, 1, 5, 6, 261))]
    return found


def on_units(units):
    """Bits of these units, of the doubles beside them, of a half more and of
    the last double before the next unit, as far as they are taken."""
    point = doubles.of_units(units)
    found = (point - 1, point, point + 1, doubles.of_units(units, 1, 1),
             doubles.of_units(units + 1) - 1)
    return sorted({bits for bits in found if 0 <= bits <= TOP})


def units():
    """Estimates on a unit and beside it, with M there too or at a limit, from
    the circle to the parabolic limit."""
    angles = (*COSINE_ANGLES, *SPENT, 524_288, 756_153, ONE, H, T - 1, T)
    found = []
    for x, a in product(angles, (0, 1, ONE // 2, ONE - 1, ONE)):
        for m, bits in product(sorted({0, 1, min(x, H), H}), on_units(x)):
            found += both_signs(Grid(m, a), bits)
    return found


def few_units():
    """Near the parabolic limit D is few units, and so are sine and F: Halley's
    divisor is 0 with D above it, or below 0. Steps are as long as the
    estimate, or end above T."""
    found = []
    for x, a, m in product(range(12), (ONE, ONE - 1, ONE - 2, ONE - 7),
                           (0, 1, 2, 3, 100)):
        for part in ((0, 0), (1, 40), (1, 1), (2 ** 40 - 1, 40)):
            found += both_signs(Grid(m, a), doubles.of_units(x, *part),
                                ((0, 5), (TOLERANCE, 1)))
    return found


def least_doubles():
    """Where a quotient is rounded to the least double or to none of it: for
    these e it is on the one side of a tie or on the other, or at one."""
    sizes = (*range(1, 8), 2 ** 51 - 1, 2 ** 51, doubles.LEAST_NORMAL - 1,
             doubles.LEAST_NORMAL, doubles.LEAST_NORMAL + 1,
             2 * doubles.LEAST_NORMAL + 1)
    shapes = (0, 1, ONE // 5, ONE // 3, ONE // 3 + 1, 2 * ONE // 5, ONE // 2,
              ONE // 2 + 1, 3 * ONE // 5, 3 * ONE // 4, ONE - 1, ONE)
    return [call for bits, a, m in product(sizes, shapes, (0, 1))
            for call in both_signs(Grid(m, a), bits, ((0, 1), (1, 5)))]


# M, A and bits of an estimate from which Newton or Halley ends at a zero or
# at the last angle, or some doubles beside it.
ENDS = [
    (1, 150_000_001, 0x3E3CA213D6D70141), (1, 172_004_015, 0x3E523E170F6C799F),
    (1, 198_245_227, 0x3E556A8E1491BABE), (1, 153_723_538, 0x3EB00BF087B37CD6),
    (320_699_840, 166_353_535, 0x3E9CD6B29348C507),
    (221_496_323, 197_930_993, 0x3E82AEF197BD908E),
    (57_587, 268_417_127, 0x3E4CD23A0ED7AFD1),
    (536_750_115, 113_580_933, 0x3FB5734E03AF3F51),
    (1_590_838, 268_059_414, 0x3F2E21E006DCC98E),
]


def ends():
    """Those and the nearest doubles."""
    return [call for m, a, bits in ENDS for off in range(-20, 21)
            for call in both_signs(Grid(m, a), bits + off,
                                   ((0, 1), (1, 5), (TOLERANCE, 5)))]
