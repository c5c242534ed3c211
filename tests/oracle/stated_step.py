"""Stated numbers of a step, R75 to R79: calls with their answers.

What is stated of an M above 0 is stated of -M too, as its mirror.
"""
from itertools import product

import wire
from doubles import INFINITY, NANS, SIGN, of_float, of_units
from given import Grid
from limits import DEPTHS, H, ONE, T, TOLERANCE
from rules import CONFIRMED, REFUTED, UNDECIDED
from stated_settle import both_signs
from steps import FLAT, HALLEY, NEWTON

# The double one above is no estimate any more.
TOP = of_units(T)
RADIAN = of_float(1.0)

# M, A and an estimate, then the bits that Newton hands over and those that
# Halley does; None where the step is flat.
STEPS = [
    # One radian and e = 1/2 from E = M, and on from where either ends.
    (ONE, ONE // 2, RADIAN, 0x3FF93937EAB2BC08, 0x3FF7E8C89567B9BA),
    (ONE, ONE // 2, 0x3FF93937EAB2BC08, 0x3FF800DA60E810F3,
     0x3FF7FACCB07EE6D3),
    (ONE, ONE // 2, 0x3FF7E8C89567B9BA, 0x3FF7FAB33834AB56,
     0x3FF7FAAE069CEEB8),
    # Newton's last digits are others where m and g are added first, where g is
    # taken from the estimate first, where D is made without rounding e k, or
    # where F is multiplied by 1 / D.
    (2 ** 24, 123_456_789, of_float(0.5), 0x3FC16CCE1DCDC220,
     0x3FBC21F2CC4C6E48),
    # So they are where m and g are added first, or where F or D is made
    # without rounding e s or e k.
    (ONE // 2, ONE - 1, RADIAN, 0x3FFBE293656DBEC2, 0x3FF71335C3770BBA),
    # Halley's are others where F, D or the divisor is made with a product
    # that was not rounded, whichever of the four.
    (1, ONE - 1, of_float(0.25), 0x3FC54FA113D53D44, 0x3FBFFBBD6109F4BE),
    # So they are with F rounded toward 0, with the divisor's inverse, or where
    # 2 F is divided before it is multiplied by D.
    (ONE, 200_000_001, of_float(2.75), 0x3FFE1CF3C9C399BE,
     0x3FFD04AD927C047E),
    # Close below a unit, which is rounded down; where depth 5 has better
    # bounds of both series; at the last angle.
    (ONE, ONE - 1, of_units(ONE, 2 ** 24 - 1, 24), 0x4006A4D6B42448D2,
     0x3FFAF282DFE5052A),
    (800_000_000, ONE - 1, of_float(3.0), 0x40087CE3BCB01322,
     0x40087C9EC1771E45),
    (H, ONE, TOP, 0x400921FB52C00007, 0x400921FB52C00007),
    # F is 0 and the step stands still: on the circle at the root, and by the
    # parabolic limit far from it.
    (ONE, 0, RADIAN, RADIAN, RADIAN),
    (1, ONE, of_units(524_288), of_units(524_288), of_units(524_288)),
    # On the circle one step gets there.
    (ONE, 0, of_float(2.0), RADIAN, RADIAN), (0, 0, TOP, 0, 0),
    (1, 0, 0, of_units(1), of_units(1)),
    (1, 0, SIGN, of_units(1), of_units(1)),
    # D is 0.
    (0, ONE, 0, None, None), (0, ONE, SIGN, None, None),
    (H, ONE, 0, None, None),
    # D is one unit. Newton ends below 0; Halley's divisor is 0, then below 0.
    (0, ONE, of_units(3), None, None),
    (0, ONE, of_units(4), None, 0x4000000002000000),
    # Newton ends above T.
    (ONE, ONE, of_float(0.25), None, 0x3FDFF577974338E2),
    # Either ends above 0, at 0 and below 0 from three doubles in turn.
    (1, 150_000_001, 0x3E3CA213D6D70140, 0x3AF0000000000000,
     0x3AF0000000000000),
    (1, 150_000_001, 0x3E3CA213D6D70141, 0, 0),
    (1, 150_000_001, 0x3E3CA213D6D70142, None, None),
    # Newton ends one double above T and then at T; so does Halley.
    (467_821_853, ONE // 2, 0x3FE00000016F36F1, None, 0x400182B68DE163E7),
    (467_821_853, ONE // 2, 0x3FE00000016F36F2, TOP, 0x400182B68DE163E7),
    (218_916_985, 200_000_000, 0x3F700000E7B35EBF, None, None),
    (218_916_985, 200_000_000, 0x3F700000E7B35EC0, None, TOP),
    # The least double, of which everything is a multiple here: F / D is 4/3
    # and 16/11, rounded to 1, and 2; (2 F) D is 3/2, rounded to 2, then 11/8,
    # rounded to 1, and 1.
    (0, ONE // 4, 1, 0, None), (0, 5 * ONE // 16, 1, 0, 0),
    (0, ONE // 2, 1, None, None),
]

# M, A, an estimate, N and a method, what is handed over, and the verdict on
# that at every depth.
JUDGED = [
    # The steps to the root of one radian and e = 1/2.
    (ONE, ONE // 2, RADIAN, 65, NEWTON, 0x3FF93937EAB2BC08, (REFUTED,) * 5),
    (ONE, ONE // 2, 0x3FF93937EAB2BC08, 65, NEWTON, 0x3FF800DA60E810F3,
     (UNDECIDED, *(REFUTED,) * 4)),
    (ONE, ONE // 2, 0x3FF800DA60E810F3, 65, NEWTON, 0x3FF7FAAEA60FE4D6,
     (UNDECIDED, UNDECIDED, REFUTED, REFUTED, REFUTED)),
    (ONE, ONE // 2, 0x3FF7FAAEA60FE4D6, 65, NEWTON, 0x3FF7FAAE07CCCE29,
     (UNDECIDED, UNDECIDED, CONFIRMED, CONFIRMED, CONFIRMED)),
    (ONE, ONE // 2, RADIAN, 65, HALLEY, 0x3FF7E8C89567B9BA,
     (UNDECIDED, *(REFUTED,) * 4)),
    (ONE, ONE // 2, 0x3FF7E8C89567B9BA, 65, HALLEY, 0x3FF7FAAE069CEEB8,
     (UNDECIDED, UNDECIDED, CONFIRMED, CONFIRMED, CONFIRMED)),
    # One that stands still, and is no root for all that.
    (1, ONE, of_units(524_288), 1_000, NEWTON, of_units(524_288),
     (REFUTED,) * 5),
    # On the circle what is handed over is the root, and the estimate is not.
    (ONE, 0, of_float(2.0), 0, NEWTON, RADIAN, (CONFIRMED,) * 5),
    (ONE, 0, of_float(2.0), 0, HALLEY, RADIAN, (CONFIRMED,) * 5),
    # Where the step is flat there is no verdict.
    (0, ONE, 0, 0, NEWTON, None, (0,) * 5),
    (0, ONE, of_units(3), 0, HALLEY, None, (0,) * 5),
    # A zero that is handed over is judged too.
    (1, 150_000_001, 0x3E3CA213D6D70141, 0, NEWTON, 0, (REFUTED,) * 5),
    (1, 150_000_001, 0x3E3CA213D6D70141, 4, HALLEY, 0, (CONFIRMED,) * 5),
]

# Each input good, and then not, with the code; in the order of the codes.
INPUTS = {
    "m": ((1, 0), (H + 1, 1), (-H - 1, 1)),
    "a": ((ONE, 0), (ONE + 1, 2)),
    "depth": ((5, 0), (0, 3), (6, 3)),
    "bits": ((of_units(524_288), 0), (NANS[0], 4), (SIGN + NANS[1], 4),
             (INFINITY, 4), (TOP + 1, 4)),
    "n": ((0, 0), (TOLERANCE + 1, 5)),
    "method": ((NEWTON, 0), (0, 21), (3, 21), (257, 21), (2 ** 32 - 1, 21)),
}


def handed(method, new):
    return (0, FLAT, 0) if new is None else (0, method, new)


def made():
    for m, a, bits, *both in STEPS:
        for method, new in zip((NEWTON, HALLEY), both):
            yield wire.step(Grid(m, a), bits, method), handed(method, new)


def judged():
    for m, a, bits, n, method, new, verdicts in JUDGED:
        for d, verdict in zip(DEPTHS, verdicts):
            yield (wire.step_judged(Grid(m, a), bits, method, n, d),
                   (*handed(method, new), verdict))


def refused():
    """Whatever else is refused, the first has its code, and zeros stand
    beside it. An estimate that opposes M is refused as any other."""
    for six in product(*INPUTS.values()):
        (m, a, depth, bits, n, method), codes = zip(*six)
        given, first = Grid(m, a), [code for code in codes if code]
        if first:
            yield (wire.step_judged(given, bits, method, n, depth),
                   (first[0], 0, 0, 0))
    for four in product(*(INPUTS[name] for name in ("m", "a", "bits",
                                                    "method"))):
        (m, a, bits, method), codes = zip(*four)
        first = [code for code in codes if code]
        if first:
            yield wire.step(Grid(m, a), bits, method), (first[0], 0, 0)
    for m, bits in ((0, SIGN + 1), (1, SIGN + 1), (-1, 1), (1, SIGN + TOP)):
        yield wire.step(Grid(m, ONE), bits, NEWTON), (4, 0, 0)
        yield wire.step(Grid(m, ONE), bits, 0), (4, 0, 0)
        yield (wire.step_judged(Grid(m, ONE), bits, 0, TOLERANCE + 1, 5),
               (4, 0, 0, 0))


def stated():
    return both_signs([*made(), *judged(), *refused()])
