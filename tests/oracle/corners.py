"""The entries that take doubles, held against those of the grid, R60.

Doubles on the grid have the grid's own answers, and a cell's end is accepted
where the grid's entry accepts it at every corner. No rule is used here, only
the library's own answers.
"""
from math import ceil, floor

import cases
import doubles
import draw_doubles
import draw_grid
import draws
import wire
from given import Doubles, Grid
from rules import CONFIRMED, UNDECIDED

# As in mirrors.py.
ROUND = ((cases.GRID_END, 7), (cases.GRID_VERDICT, 7),
         (cases.GRID_ENCLOSURE, 3), (cases.GRID_PROPOSAL, 2))
SETTLED_ROUND = ((cases.GRID_SETTLE, 1),)
DISTANCE_ROUND = ((cases.GRID_DISTANCE, 1),)


def grid_points(ask, rng, count, kinds):
    """Calls of the grid, and the same numbers as doubles."""
    each = [kind for kind, often in kinds for _ in range(often)]
    drawn = [each[number % len(each)](rng) for number in range(count)]
    same = [call._replace(given=call.given.as_doubles()) for call in drawn]
    for call, reply, got in zip(same, ask(drawn), ask(same)):
        yield (call.given, got == reply,
               f"{call} has {got}, and the grid's entry {reply}")


def grid_corners(given):
    """The corners as problems of the grid; none where one of them has lost
    the sign of M, as 0 has no mirror."""
    found = [Grid(corner.m, corner.a) for corner in given.corners()]
    lost = given.negative and any(corner.zero for corner in found)
    return [] if lost else found


def ends(ask, rng, count):
    """Both ends at one angle, of a cell and of its corners: the least of the
    corners' answers is the cell's."""
    drawn, calls = [], []
    for _ in range(count):
        d = draws.depth(rng)
        x, given = cases.turning_orbit(rng, draw_doubles, d)
        corners = grid_corners(given)
        if not corners:
            continue
        problems = [given, *corners]
        drawn.append((x, d, problems))
        calls += [side(x, each, d) for each in problems
                  for side in (wire.lower, wire.upper)]
    replies = iter(ask(calls))
    for x, d, problems in drawn:
        found = [(next(replies)[:2], next(replies)[:2]) for _ in problems]
        for side, cell, *corners in zip(("lower", "upper"), *found):
            yield (problems[0], cell == min(corners),
                   f"{side} end X={x} depth={d}: {cell}, corners {corners}")


def on_grid_e(rng):
    """An M on the grid or beside it, with e on the grid."""
    m, a = draw_grid.turning(rng, draws.depth(rng))[1]
    given = Doubles(draw_doubles.near(rng, m, draw_doubles.M_BITS),
                    doubles.of_units(a))
    return given.mirror() if cases.is_mirrored(rng, given) else given


def enclosures(ask, rng, count):
    """With e on the grid, the lower end is that of M rounded down, and the
    upper end that of M rounded up."""
    drawn, calls = [], []
    for _ in range(count):
        given, d = on_grid_e(rng), draws.depth(rng)
        m, a = map(doubles.in_units, given)
        drawn.append((given, d))
        calls += [wire.enclose(each, d) for each in (
            given, Grid(floor(m), int(a)), Grid(ceil(m), int(a)))]
    replies = iter(ask(calls))
    for given, d in drawn:
        found, below, above = (next(replies)[:3] for _ in range(3))
        code = below[0] or above[0]
        wanted = (code, 0, 0) if code else (0, below[1], above[2])
        yield (given, found == wanted,
               f"enclosure {found} at depth {d}, the grid's are {below} of M "
               f"rounded down and {above} of M rounded up")


def agrees(cell, corners):
    """Whether a cell's settled claim is what its corners' make it. A cell is
    Confirmed where every corner is, and Refuted where all are on one side, by
    the last depth that one of them needs."""
    verdicts = {corner[:2] for corner in corners}
    if cell[:2] == (0, UNDECIDED):
        return verdicts != {(0, CONFIRMED)}
    return verdicts == {cell[:2]} and max(corners) == cell


def settled(ask, rng, count):
    """One claim about a cell and about its corners."""
    drawn, calls = [], []
    for _ in range(count):
        given, bits, n = cases.any_claim(rng, draw_doubles)
        corners = grid_corners(given)
        if corners:
            problems = [given, *corners]
            drawn.append((problems, bits, n))
            calls += [wire.settle(each, bits, n) for each in problems]
    replies = iter(ask(calls))
    for problems, bits, n in drawn:
        cell, *corners = (next(replies)[:3] for _ in problems)
        yield (problems[0], agrees(cell, corners),
               f"bits {bits:016x} N={n}: {cell}, corners {corners}")
