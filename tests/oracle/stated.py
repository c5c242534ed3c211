"""The numbers of R57, and some beside them: calls with their stated answers.

They hold both programs: the rules of this folder and the library. What is
stated of an M above 0 is stated of -M too, as its mirror; and what is stated
of the grid also of the same numbers as doubles, but for steps, which have no
entry of doubles. Flybys have neither.
"""
import doubles
import stated_cosine
import stated_distance
import stated_doubles
import stated_figures
import stated_flyby
import stated_settle
import stated_spent
import stated_step
import wire
from draws import GREATEST, LEAST
from edges import SIGNS
from given import Grid
from limits import H, ONE, T
from rules import CONFIRMED, REFUTED, UNDECIDED

SINES = [
    *((0, d, 0, 0) for d in (1, 2, 3, 4, 5)),
    (1, 1, 0, 2),
    (524_288, 1, 524_287, 524_289), (524_288, 5, 524_287, 524_289),
    (ONE, 1, 223_696_213, 225_933_177), (ONE, 2, 225_879_913, 225_880_656),
    (ONE, 3, 225_880_645, 225_880_651), (ONE, 5, 225_880_645, 225_880_651),
    (T, 5, -69, -57),
]

# At A = 2^28 and X = 2^28: depth, M and whether each end is accepted.
LOWER_ENDS = [(5, 42_554_811, 1), (5, 42_554_810, 0),
              (1, 44_739_243, 1), (1, 44_739_242, 0)]
UPPER_ENDS = [(5, 42_554_805, 1), (5, 42_554_806, 0),
              (1, 42_502_279, 1), (1, 42_502_280, 0)]

# X and M with A = 0 at depth 5, with the answers to lower and upper end. X = 0
# opposes no M.
PLAIN_ENDS = [(0, 0, (0, 1), (0, 1)), (0, 1, (0, 1), (0, 0)),
              (0, -1, (0, 0), (0, 1)), (1, 1, (0, 1), (0, 1)),
              (-1, -1, (0, 1), (0, 1)), (T, 0, (0, 0), (0, 1)),
              (T, H, (0, 0), (0, 1)), (-T, -H, (0, 1), (0, 0))]
# X and M where X is refused, as it opposes M or is too far.
REFUSED_ENDS = [(T + 1, 0), (T + 1, H), (-T - 1, -H), (-1, 0), (-1, 1),
                (1, -1), (-T, 0), (T, -1), (LEAST, 0), (LEAST, -1),
                (GREATEST, 0), (GREATEST, -1)]

# The batch of R57.
BATCH = wire.Batch(
    bytes(18) + b"\x01\x00"
    + bytes.fromhex("00000000 00000010 000000000000603F E803 05 00"),
    b"\xEE\xEE\xEE", 3)
# M is -1, -1, -H, -H - 1, -2^31 with e = 0, and -1 with e = 1. The estimates
# are -1, 1, -H, 0, 0 and -756,152 units.
NEGATIVE_BATCH = wire.Batch(
    bytes.fromhex("FFFFFFFF 00000000 00000000000030BE 0000 01 00"
                  "FFFFFFFF 00000000 000000000000303E 0000 01 00"
                  "5809BCCD 00000000 00000054FB2109C0 0000 01 00"
                  "5709BCCD 00000000 0000000000000000 0000 01 00"
                  "00000080 00000000 0000000000000000 0000 01 00"
                  "FFFFFFFF 00000010 00000000701367BF 0000 05 00"),
    b"\xEE" * 7, 6)


def ends():
    """At X = -2^28 the ends of -M are exchanged."""
    stated = []
    for sign in SIGNS:
        lower, upper = (wire.lower, wire.upper)[::sign]
        for side, rows in ((lower, LOWER_ENDS), (upper, UPPER_ENDS)):
            stated += [(side(sign * ONE, Grid(sign * m, ONE), d), (0, yes))
                       for d, m, yes in rows]
    for x, m, is_lower, is_upper in PLAIN_ENDS:
        stated += [(wire.lower(x, Grid(m, 0), 5), is_lower),
                   (wire.upper(x, Grid(m, 0), 5), is_upper)]
    stated += [(side(x, Grid(m, 0), 5), (10, 0)) for x, m in REFUSED_ENDS
               for side in (wire.lower, wire.upper)]
    return stated


def enclosures():
    """On the circle both ends are M."""
    sizes = (1, 12_345, ONE, H - 1, H)
    stated = [(wire.enclose(Grid(m, 0), d), (0, m, m))
              for m in (0, *sizes, *(-size for size in sizes))
              for d in (1, 2, 3, 4, 5)]
    stated += [(wire.enclose(Grid(sign * H, ONE), 1), (6, 0, 0))
               for sign in SIGNS]
    stated += [(wire.enclose(Grid(m, 0), 1), (1, 0, 0))
               for m in (H + 1, -H - 1, GREATEST, LEAST)]
    stated += [(wire.enclose(Grid(m, ONE + 1), 1), (2, 0, 0))
               for m in (0, -H)]
    stated += [(wire.enclose(Grid(0, ONE), 5), (0, 0, 0)),
               (wire.enclose(Grid(1, ONE), 5), (0, 756_153, 952_744)),
               (wire.enclose(Grid(-1, ONE), 5), (0, -952_744, -756_153))]
    return stated


def circles():
    """The least double lies above 0, and with A = 0 the root is M: within one
    unit of it are 0 and 1, within none is no whole number."""
    top = doubles.of_units(T)
    rows = [(1, 1, 0, 1, (0, REFUTED)), (1, 1, 1, 1, (0, CONFIRMED)),
            (2, 1, 1, 1, (0, REFUTED)), (H, top, 64, 5, (0, CONFIRMED)),
            (H, top + 1, 64, 5, (4, 0))]
    return [(wire.judge(Grid(sign * m, 0), bits + minus, n, d), answer)
            for m, bits, n, d, answer in rows
            for sign, minus in zip(SIGNS, (0, doubles.SIGN))]


def verdicts():
    """M = 0 takes estimates from 0 up, and either zero is 0 for every M. A
    guess of 2^-9 at M = 0, e = 1 is no good for all its residual, and 2^-8 is
    refuted."""
    flattered, far_off = doubles.of_units(524_288), doubles.of_units(1_048_576)
    minus = doubles.SIGN
    rows = [(0, 0, 1, 0, 1, (0, REFUTED)), (0, 0, 1, 1, 1, (0, CONFIRMED)),
            (0, ONE, flattered, 1_000, 5, (0, UNDECIDED)),
            (0, ONE, far_off, 1_000, 5, (0, REFUTED)),
            (0, ONE, minus + 1, 0, 5, (4, 0)), (1, 0, minus + 1, 0, 5, (4, 0)),
            (-1, 0, 1, 0, 5, (4, 0))]
    for zero in (0, minus):
        rows += [(0, ONE, zero, 0, 5, (0, CONFIRMED)),
                 (0, ONE, zero, 1, 5, (0, UNDECIDED))]
        rows += [(m, 0, zero, n, 1, (0, verdict)) for m in (1, -1)
                 for n, verdict in ((1, CONFIRMED), (0, REFUTED))]
    return [(wire.judge(Grid(m, a), *claim), answer)
            for m, a, *claim, answer in rows]


def as_doubles(grid):
    """The same statements of doubles on the grid."""
    return [(call._replace(given=call.given.as_doubles()), answer)
            for call, answer in grid]


def stated():
    """Every call with its answer."""
    sines = [(wire.sine(x, d), (0, lo, hi)) for x, d, lo, hi in SINES]
    sines += [(wire.sine(x, 5), (10, 0, 0)) for x in (T + 1, 2 ** 32 - 1)]
    batches = [(BATCH, (0, 2, b"\x10\x12\xEE", BATCH.claims)),
               (NEGATIVE_BATCH, (0, 6, b"\x10\x04\x10\x01\x01\x11\xEE",
                                 NEGATIVE_BATCH.claims))]
    grid = (ends() + enclosures() + circles() + verdicts()
            + stated_settle.on_grid() + stated_figures.on_grid()
            + stated_distance.on_grid())
    return (sines + stated_spent.sines() + stated_figures.figures() + batches
            + grid + as_doubles(grid) + stated_doubles.stated()
            + stated_settle.off_grid() + stated_distance.off_grid()
            + stated_cosine.cosines() + stated_step.stated()
            + stated_flyby.stated())
