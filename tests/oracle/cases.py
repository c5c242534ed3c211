"""Random cases of every entry, drawn from a seeded generator.

Most are drawn so that a rule is about to turn: an M for which an end test
just holds or just fails, an estimate whose tolerance just reaches the root.
They are drawn for M from 0 up, and half of them are then mirrored. A few have
an input outside its limit, or one whose sign opposes that of M. Problems are
drawn by draw_grid, draw_doubles or draw_spent: that is the family of a case.
Distances are drawn some to an orbit, whose enclosure serves them all. Steps
are drawn by draw_steps and flybys by draw_flyby, which have problems of their
own.
"""
from functools import partial

import doubles
import draw_doubles
import draw_figures
import draw_flyby
import draw_grid
import draw_spent
import draw_steps
import draws
import records
import rules
import wire
from cells import pose
from draw_claims import rooted_claim, turning_claim
from draws import small
from limits import DEPTHS, H, T, TOLERANCE

# How many estimates of one orbit are drawn.
PER_ORBIT = 10


def is_mirrored(rng, given):
    """Whether to mirror a problem that was drawn: 0 has no mirror."""
    return not given.zero and rng.randrange(2) == 1


def opposes(rng):
    """Whether what is given beside M has the other sign: now and then."""
    return not rng.randrange(50)


def turning_orbit(rng, family, d):
    """X and a problem of either sign, of which X is or just is not an end."""
    x, given = family.turning(rng, d)
    return (-x, given.mirror()) if is_mirrored(rng, given) else (x, given)


def orbit(rng, family):
    """A problem anywhere, with a root near a random angle, or ragged."""
    way = rng.randrange(3)
    if way == 0:
        return turning_orbit(rng, family, draws.depth(rng))[1]
    given = family.anywhere(rng) if way == 1 else family.ragged(rng)
    return given.mirror() if is_mirrored(rng, given) else given


def series_case(rng, entry, angle=draws.angle):
    """Of sine or cosine."""
    return entry(draws.spoil(rng, angle(rng), T),
                 draws.spoil_depth(rng, draws.depth(rng)))


def end_case(rng, family):
    d = draws.depth(rng)
    x, given = turning_orbit(rng, family, d)
    x = -x if opposes(rng) else x
    side = rng.choice((wire.lower, wire.upper))
    return side(draws.spoil_signed(rng, x, T), family.spoil(rng, given),
                draws.spoil_depth(rng, d))


def enclosure_case(rng, family):
    return wire.enclose(family.spoil(rng, orbit(rng, family)),
                        draws.spoil_depth(rng, draws.depth(rng)))


def proposal_case(rng, family):
    return wire.propose(family.spoil(rng, orbit(rng, family)))


def limit_claim(rng, family):
    """The like of draw_claims with N reaching from the estimate to 0 or T,
    whichever M is nearer to, or ending beside it."""
    given, n = family.anywhere(rng), draws.tolerance(rng)
    m, _, scale = given.own()
    limit = n if 2 * m < H * scale else T - n
    return given, limit + rng.randrange(-2, 3), n


def signed(rng, given, units):
    """A problem and an estimate of either sign, which now and then is not
    M's."""
    bits = draws.estimate(rng, units)
    if is_mirrored(rng, given):
        given, bits = given.mirror(), bits ^ doubles.SIGN
    return given, bits ^ doubles.SIGN if opposes(rng) else bits


def claim(rng, family):
    """A problem, estimate, N and depth."""
    d = draws.depth(rng)
    given, units, n = turning_claim(rng, family.turning, d)
    return *signed(rng, given, units), n, d


def verdict_case(rng, family):
    given, bits, n, d = claim(rng, family)
    n = draws.spoil(rng, n, TOLERANCE)
    return wire.judge(family.spoil(rng, given), bits, n,
                      draws.spoil_depth(rng, d))


def any_claim(rng, family):
    """A problem, estimate and N, drawn in any of the three ways."""
    way = rng.randrange(5)
    if way == 0:
        given, units, n = limit_claim(rng, family)
    elif way < 3:
        given, units, n = rooted_claim(rng, family.turning)
    else:
        given, units, n = turning_claim(rng, family.turning, draws.depth(rng))
    return *signed(rng, given, units), n


def settle_case(rng, family):
    given, bits, n = any_claim(rng, family)
    return wire.settle(family.spoil(rng, given), bits,
                       draws.spoil(rng, n, TOLERANCE))


def distance_case(rng, family):
    """An estimate as of a claim."""
    given, bits, _ = any_claim(rng, family)
    return wire.distance(family.spoil(rng, given), bits)


def units_by(rng, a, b):
    """Units at one of two ends or beside it, mostly by few; between the two;
    at a limit or anywhere."""
    way = rng.randrange(8)
    if way == 0:
        return rng.choice((0, 1, T - 1, T))
    if way == 1:
        return draws.angle(rng)
    if way == 2:
        return rng.randrange(a, b + 1)
    off = small(rng, rng.choice((1, 2, 3, 17)))
    return rng.choice((a, b)) + rng.choice((1, -1)) * off


def estimate_by(rng, given, ends):
    """Bits of an estimate by the ends of the problem as it is posed, which
    now and then has not M's sign."""
    bits = draws.estimate(rng, units_by(rng, *ends))
    return bits ^ doubles.SIGN if given.negative != opposes(rng) else bits


def distance_cases(rng, family):
    """Of one orbit."""
    given = orbit(rng, family)
    ends = rules.searches(pose(given).cell, DEPTHS[-1])
    return [wire.distance(family.spoil(rng, given),
                          estimate_by(rng, given, ends))
            for _ in range(PER_ORBIT)]


def figures_case(rng):
    return wire.figures(draw_figures.any_a(rng))


def record(rng):
    """A claim record, now and then with a fault or with a damaged byte."""
    given, bits, n, d = claim(rng, draw_grid)
    whole = bytearray(records.record(*draw_grid.spoil(rng, given), bits, n, d))
    fault = rng.randrange(40)
    if fault == 0:
        whole[19] = rng.randrange(256)
    elif fault == 1:
        whole[18] = rng.randrange(256)
    elif fault == 2:
        whole[rng.randrange(20)] ^= 1 << rng.randrange(8)
    return bytes(whole)


def batch_case(rng):
    """A file of claims: mostly whole, else truncated, and with an answers
    buffer that is mostly long enough."""
    count = small(rng, 6)
    claims = b"".join(record(rng) for _ in range(count))
    if not rng.randrange(6):
        claims = claims[:rng.randrange(len(claims) + 1)]
    length = max(0, count + rng.choice((0, 0, 1, small(rng, 6), -1)))
    answers = rng.randbytes(length + rng.randrange(8))
    return wire.Batch(claims, answers, length)


def of_both(case):
    """The case of the grid, and that of doubles."""
    return partial(case, family=draw_grid), partial(case, family=draw_doubles)


GRID_END, DOUBLE_END = of_both(end_case)
GRID_VERDICT, DOUBLE_VERDICT = of_both(verdict_case)
GRID_SETTLE, DOUBLE_SETTLE = of_both(settle_case)
GRID_DISTANCE, DOUBLE_DISTANCE = of_both(distance_case)
GRID_DISTANCES, DOUBLE_DISTANCES = of_both(distance_cases)
GRID_ENCLOSURE, DOUBLE_ENCLOSURE = of_both(enclosure_case)
GRID_PROPOSAL, DOUBLE_PROPOSAL = of_both(proposal_case)

# What draws each kind, how many a run compares, how many make one piece of
# work.
KINDS = {
    "sine": (partial(series_case, entry=wire.sine), 80_000, 10_000),
    "ends": (GRID_END, 200_000, 10_000),
    "verdicts": (GRID_VERDICT, 200_000, 10_000),
    "settled": (GRID_SETTLE, 60_000, 10_000),
    "figures": (figures_case, 40_000, 10_000),
    "batches": (batch_case, 8_000, 500),
    "enclosures": (GRID_ENCLOSURE, 20_000, 1_000),
    "proposals": (GRID_PROPOSAL, 20_000, 1_000),
    "double ends": (DOUBLE_END, 50_000, 10_000),
    "double verdicts": (DOUBLE_VERDICT, 50_000, 10_000),
    "double settled": (DOUBLE_SETTLE, 60_000, 10_000),
    "double enclosures": (DOUBLE_ENCLOSURE, 8_000, 1_000),
    "double proposals": (DOUBLE_PROPOSAL, 8_000, 1_000),
    "spent sine": (partial(series_case, entry=wire.sine,
                           angle=draw_spent.angle), 20_000, 10_000),
    "spent ends": (partial(end_case, family=draw_spent), 20_000, 10_000),
    "spent enclosures": (partial(enclosure_case, family=draw_spent), 1_000,
                         500),
    "spent settled": (partial(settle_case, family=draw_spent), 10_000, 5_000),
    "distances": (GRID_DISTANCES, 40_000, 5_000),
    "double distances": (DOUBLE_DISTANCES, 40_000, 5_000),
    "spent distances": (partial(distance_cases, family=draw_spent), 10_000,
                        5_000),
    "cosine": (partial(series_case, entry=wire.cosine), 60_000, 10_000),
    "spent cosine": (partial(series_case, entry=wire.cosine,
                             angle=draw_spent.cosine_angle), 20_000, 10_000),
    "steps": (draw_steps.step_case, 130_000, 10_000),
    "step walks": (draw_steps.walk_cases, 180_000, 10_000),
    "flyby sinh": (draw_flyby.sinh_case, 30_000, 10_000),
    "flyby ends": (draw_flyby.end_case, 80_000, 10_000),
    "flyby enclosures": (draw_flyby.enclosure_case, 30_000, 2_000),
    "flyby verdicts": (draw_flyby.verdict_case, 120_000, 10_000),
}
# The kinds that are drawn by orbits, and how many cases each of these has.
BY_ORBIT = {"distances": PER_ORBIT, "double distances": PER_ORBIT,
            "spent distances": PER_ORBIT, "step walks": 2 * draw_steps.WALK}


def drawn(rng, kind, count):
    """So many cases of a kind."""
    draw = KINDS[kind][0]
    if kind in BY_ORBIT:
        return [call for _ in range(count // BY_ORBIT[kind])
                for call in draw(rng)]
    return [draw(rng) for _ in range(count)]
