"""Edge cases: each limit of either sign with its neighbours, every kind of
double, batches whole, damaged and truncated.

What is given is of the grid or doubles, and the cases beside it are alike.
Those where sine's terms are spent are in spent.py, in settle.py those where
a claim that is settled without a depth is about to turn, in distance.py those
of estimates beside the ends of an enclosure, in figures.py those of the
figures, in step_edges.py most of those of steps, and in flyby_edges.py those
of flybys.
"""
from functools import partial
from itertools import product

import cosine_facts
import distance
import doubles
import figures
import flyby_edges
import records
import settle
import spent
import step_edges
import steps
import wire
from draws import GREATEST, LEAST
from given import Doubles, Grid
from limits import H, ONE, T

FAR = 2 ** 32 - 1
SIGNS = (1, -1)


def either_sign(sizes):
    """Each with both its signs, and the two farthest numbers of 32 bits."""
    return sorted({sign * size for size in sizes for sign in SIGNS}
                  | {LEAST, GREATEST})


def on_grid():
    """M and A at their limits."""
    return [Grid(m, a) for m, a in product(
        either_sign((0, 1, H - 1, H, H + 1)),
        (0, 1, ONE - 1, ONE, ONE + 1, FAR))]


def beside(units):
    """The double on a grid point, and the two beside it."""
    point = doubles.of_units(units)
    return point - 1, point, point + 1


def off_grid():
    """M and e as doubles: zeros, the least, each limit and a grid point with
    the doubles beside it, between two grid points, what is no number or none
    that is taken; and with either sign."""
    sizes = (0, 1, doubles.LEAST_NORMAL, *beside(1), doubles.of_units(1, 1, 1),
             *beside(H), doubles.PI, doubles.INFINITY, doubles.NANS[1])
    shapes = (0, doubles.SIGN, 1, doubles.SIGN + 1, *beside(1),
              doubles.of_float(0.9), *beside(ONE), doubles.of_units(ONE + 1),
              doubles.INFINITY, doubles.INFINITY + doubles.SIGN,
              doubles.NANS[0])
    return [Doubles(m + sign, e) for m, sign, e in product(
        sizes, (0, doubles.SIGN), shapes)]


ANGLE_SIZES = (0, 1, 2, 524_288, ONE, H - 1, H, H + 1, T - 1, T, T + 1)
ANGLES = either_sign(ANGLE_SIZES)
# The angles of sine and cosine are not signed: read so, the last three would
# be negative.
SERIES_ANGLES = (*ANGLE_SIZES, GREATEST, GREATEST + 1, FAR - T, FAR)
# 257 and 261 would be depths 1 and 5 if only a byte of them were read.
DEPTHS = (0, 1, 2, 3, 4, 5, 6, 257, 261, FAR)
NEAR_DEPTHS = (0, 1, 2, 3, 4, 5, 6)
# 65,536 would be 0 if only two bytes of it were read.
TOLERANCES = (0, 1, 1_000, 65_535, 65_536, FAR)


def series(entry):
    """Of sine or cosine."""
    return [entry(x, d) for x, d in product(SERIES_ANGLES, DEPTHS)]


def ends(every_given, angles, depths):
    every = product(angles, every_given(), depths)
    return [side(*inputs) for inputs in every
            for side in (wire.lower, wire.upper)]


def enclosures(every_given, depths):
    return [wire.enclose(*inputs) for inputs in product(every_given(), depths)]


def proposals(every_given):
    return [wire.propose(given) for given in every_given()]


def claims(entry, every_given, *others):
    """Of the judge, of the one that takes no depth, of a distance or of a
    step."""
    every = product(every_given(), doubles.every_kind(), *others)
    return [entry(*inputs) for inputs in every]


def every_record():
    """A record of each kind, good and bad, with each pair of faults."""
    sizes = (0, 1, doubles.of_units(T) + 1)
    estimates = [size + sign for size in sizes for sign in (0, doubles.SIGN)]
    return [records.record(m, a, bits, 65_535, depth, reserved)
            for m, a, bits, depth, reserved in product(
                either_sign((0, H, H + 1)), (0, ONE, ONE + 1), estimates,
                (0, 1, 5, 6), (0, 1, 255))]


def batches():
    claims = every_record()
    whole, room = b"".join(claims), len(claims)
    paint = bytes(range(256)) * (room // 256 + 1)
    cases = [wire.Batch(whole, paint, length)
             for length in (0, 1, room - 1, room, room + 1, len(paint))]
    cases += [wire.Batch(whole[:cut], paint, len(paint))
              for cut in (*range(0, 45), len(whole) - 19, len(whole) - 1)]
    cases += [wire.Batch(whole[:cut], paint, length)
              for cut in (0, 1, 19, 20, 21, 39, 40, 41)
              for length in (0, 1, 2, 3)]
    cases += [wire.Batch(claim, b"\xAA\xBB\xCC", 1) for claim in claims]
    cases += [wire.Batch(b"", b"", 0),
              wire.Batch(whole * 3, paint * 4, 3 * room)]
    return cases


def near_parabolic_grid():
    """Eccentricity one and a little less, M small: roots far apart."""
    return [Grid(sign * m, a) for sign, m, a in product(
        SIGNS, (0, 1, 2, 3, 100, 1_000),
        (ONE, ONE - 1, ONE - 2, ONE - 100, ONE - 65_536))]


def near_parabolic_doubles():
    """The like off the grid, down to the least double."""
    one = doubles.of_units(ONE)
    sizes = (1, doubles.of_float(1e-30), doubles.of_units(0, 1, 1),
             doubles.of_units(1) - 1, doubles.of_units(1, 1, 1),
             doubles.of_units(2) + 1, doubles.of_units(46, 11, 4))
    return [Doubles(m + sign, e) for m, sign, e in product(
        sizes, (0, doubles.SIGN), (one, one - 1, one - 2 ** 24, one - 2 ** 40,
                                   doubles.of_float(0.9999)))]


def near_parabolic(every_given):
    """Every entry, about roots at e = 1 and M = 1 and 2."""
    depths = range(1, 6)
    cases = proposals(every_given) + enclosures(every_given, depths)
    for given in every_given():
        sign = -1 if given.negative else 1
        cases += [side(sign * x, given, depth)
                  for side in (wire.lower, wire.upper)
                  for x in (1, 2, 756_153, 756_154, 952_743, 952_744)
                  for depth in depths]
        near = [(given, doubles.of_units(sign * x), n)
                for x in (0, 1, 524_288, 756_153, 952_744)
                for n in (0, 1, 1_000, 65_535)]
        cases += [wire.judge(*claim, depth) for claim in near
                  for depth in depths]
        cases += [wire.settle(*claim) for claim in near]
        cases += [wire.distance(*claim) for claim in
                  sorted({(each, bits) for each, bits, _ in near})]
    return cases


def double_ends():
    """Estimates beside the ends of near-parabolic doubles."""
    return distance.at_ends(given for given in near_parabolic_doubles()
                            if not given.negative)


KINDS = {
    "sine": partial(series, wire.sine),
    "ends": partial(ends, on_grid, ANGLES, DEPTHS),
    "enclosures": partial(enclosures, on_grid, DEPTHS),
    "proposals": partial(proposals, on_grid),
    "verdicts": partial(claims, wire.judge, on_grid, TOLERANCES, NEAR_DEPTHS),
    "settled": partial(claims, wire.settle, on_grid, TOLERANCES),
    "settled at limits": settle.limit_edges,
    "settled at turns": settle.turning_edges,
    "distances": partial(claims, wire.distance, on_grid),
    "distances at ends": distance.end_edges,
    "figures": figures.edges,
    "batches": batches,
    "near parabolic": partial(near_parabolic, near_parabolic_grid),
    "double ends": partial(ends, off_grid, (-1, 0, 1, ONE, H, T, T + 1, -T),
                           (0, 1, 3, 5, 6)),
    "double enclosures": partial(enclosures, off_grid, NEAR_DEPTHS),
    "double proposals": partial(proposals, off_grid),
    "double verdicts": partial(claims, wire.judge, off_grid,
                               (0, 65_535, 65_536), (5,)),
    "double settled": partial(claims, wire.settle, off_grid,
                              (0, 65_535, 65_536)),
    "double distances": partial(claims, wire.distance, off_grid),
    "double distances at ends": double_ends,
    "double near parabolic": partial(near_parabolic, near_parabolic_doubles),
    "spent sine": spent.sine_edges,
    "spent ends": spent.end_edges,
    "spent enclosures": spent.enclosure_edges,
    "cosine": partial(series, wire.cosine),
    "spent cosine": cosine_facts.spent_edges,
    "steps": partial(claims, wire.step, on_grid, step_edges.METHODS),
    "judged steps": partial(claims, wire.step_judged, on_grid, steps.METHODS,
                            (1_000,), (1, 5)),
    "step codes": step_edges.codes,
    "steps on units": step_edges.units,
    "steps of few units": step_edges.few_units,
    "steps of least doubles": step_edges.least_doubles,
    "steps' ends": step_edges.ends,
    "flyby sinh": flyby_edges.sinhs,
    "flyby ends": flyby_edges.ends,
    "flyby enclosures": flyby_edges.enclosures,
    "flyby verdicts": flyby_edges.verdicts,
    "flybys at turns": flyby_edges.turns,
    "flybys at limits": flyby_edges.limits,
}
