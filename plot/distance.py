"""The picture of R67: how far off an estimate with a small residual is."""
import math
from dataclasses import dataclass
from itertools import groupby

from picture import (BLUE, BOTTOM, INK, LEFT, ONE, ORANGE, PALE_INK, RIGHT,
                     SMALL, TOP, Picture, Scale, Upward, written)

TICKS = ("0.01", "0.1", "1", "10", "100", "1,000")
ACROSS = Scale(0.01, 1000, LEFT, RIGHT)
UP = Upward(7)
# M, A and the estimate of the guess 2^-9 radian at the parabolic limit.
GUESS = 0, ONE, 2 ** 19
# By M and A the colour and the name of each orbit, where the name starts, and
# the slope of the curve that it runs beside.
ORBITS = {
    (0, ONE): (ORANGE, "e = 1, M = 0", 1.5, 1.6e6, 1 / 3),
    (5, ONE): (INK, "e = 1, M = 5 units", 0.0125, 2e4, 0),
    (0, 268408612): (ORANGE, "e = 0.9999, M = 0", 0.06, 200, 1),
    (0, 265751101): (ORANGE, "e = 0.99, M = 0", 3, 100, 1),
    (ONE, ONE // 2): (BLUE, "e = 0.5, M = 1 radian", 25, 7.5, 1)}


@dataclass(frozen=True)
class Row:
    """What plot/distance.c prints of one estimate."""
    m: int
    a: int
    estimate: float
    residual: float
    least: int
    most: int

    @property
    def orbit(self):
        return self.m, self.a

    @property
    def x(self):
        return ACROSS.place(self.residual)

    @property
    def words(self):
        return (f"e = {self.a / ONE:.7f}, M = {self.m:,}, estimate "
                f"{self.estimate:,.1f}: residual {self.residual:g}, off by "
                f"{self.least:,} to {self.most:,}")


def row_of(line):
    m, a, estimate, residual, least, most = line.split()
    return Row(int(m), int(a), float(estimate), float(residual), int(least),
               int(most))


def by_orbit(rows):
    """The rows of each orbit, which stand together."""
    found = [list(some) for _, some in groupby(rows, lambda row: row.orbit)]
    if [some[0].orbit for some in found] != list(ORBITS):
        raise SystemExit("the orbits are others than those that have names")
    return found


def find_guess(rows):
    for row in rows:
        if (*row.orbit, row.estimate) == GUESS:
            return row
    raise SystemExit("the guess 2^-9 radian is not among the estimates")


def description(rows):
    at_one = [min(some, key=lambda row: abs(math.log(row.residual)))
              for some in by_orbit(rows)]
    return (f"Each of {len(at_one)} orbits has a row of circles, one for "
            f"each estimate, with its residual to the right and the least "
            f"distance upward; a band reaches from them to the greatest. "
            f"Nearest to a residual of one unit are: "
            f"{'; '.join(row.words for row in at_one)}. A ring is around the "
            f"guess 2^-9 radian: {find_guess(rows).words}. A distance of 0 "
            f"is drawn at the foot.")


def add_grid(picture):
    for tick in TICKS:
        picture.column(ACROSS.place(float(tick.replace(",", ""))), tick)
    picture.rows(UP)


def along(residual, units, slope):
    """Where a text starts that runs beside a curve of that slope."""
    x, y = ACROSS.place(residual), UP.place(units)
    decade_up = UP.place(1) - UP.place(10)
    decade_across = ACROSS.place(10) - ACROSS.place(1)
    turn = -math.degrees(math.atan2(slope * decade_up, decade_across))
    return {"x": x, "y": y, "transform":
            f"rotate({written(turn)} {written(x)} {written(y)})"}


def add_marks(picture):
    """Where solvers stop, and where a residual would be the distance."""
    x = ACROSS.place(1)
    picture.mark(x, TOP, x, BOTTOM)
    picture.note(x - 9, TOP + 18, ("below one unit: the example stops",),
                 text_anchor="end")
    picture.mark(x, UP.place(1), RIGHT, UP.place(1000))
    picture.label(**along(1.5, 6, 1), words="distance = residual",
                  size=SMALL, fill=PALE_INK)


def add_orbit(picture, rows):
    colour = ORBITS[rows[0].orbit][0]
    picture.band([(row.x, UP.place(row.least)) for row in rows],
                 [(row.x, UP.place(row.most)) for row in rows], colour)
    for row in rows:
        picture.point(row.x, UP.place(row.least), colour, row.words)


def add_names(picture):
    for colour, name, *start in ORBITS.values():
        picture.label(**along(*start), words=name, fill=colour,
                      font_weight="bold")
    picture.note(ACROSS.place(0.0125), UP.place(8500),
                 ("somewhere in this band",))


def add_guess(picture, row):
    y = UP.place(row.least)
    picture.add("circle", cx=row.x, cy=y, r=7.0, fill="none", stroke=INK,
                stroke_width=2)
    picture.label(row.x + 50, y - 16,
                  f"the guess 2^-9 radian: off by {row.least:,}", SMALL,
                  text_anchor="end")


def distance(lines):
    """The picture from the lines of plot/distance.c."""
    rows = [row_of(line) for line in lines]
    picture = Picture("How far off an estimate with a small residual is",
                      description(rows))
    add_grid(picture)
    add_marks(picture)
    for some in by_orbit(rows):
        add_orbit(picture, some)
    add_names(picture)
    add_guess(picture, find_guess(rows))
    picture.headings("stripeawn_distance: at least (circles) and at most "
                     "(top of a band); a unit is 2^-28 radian",
                     "residual |E - e sin E - M|, units",
                     "distance from the root, units")
    return picture
