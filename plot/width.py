"""The picture of R63: how wide enclosures get, and what is promised."""
from dataclasses import dataclass

from picture import (BLUE, BOTTOM, LEFT, ONE, ORANGE, RIGHT, Picture, Scale,
                     Upward)

TICKS = ("0", "0.5", "0.9", "0.99", "0.999", "0.9999", "0.99999", "0.999999")
ACROSS = Scale(1, 2 ** 20, LEFT, RIGHT)
UP = Upward(8)


def across(e):
    return ACROSS.place(1 / (1 - e))


@dataclass(frozen=True)
class Row:
    """What plot/width.c prints of one e. The least N is 0 where none is."""
    a: int
    met: int
    promised: int
    least_n: int

    @property
    def x(self):
        return across(self.a / ONE)

    @property
    def words(self):
        return (f"e = {self.a / ONE:.7f}, A = {self.a}: greatest met "
                f"{self.met:,}, promised {self.promised:,}")


def check_least_n(rows, greatest_n):
    """The picture says of the least N that it is the promised width."""
    for row in rows:
        wanted = row.promised if row.promised <= greatest_n else 0
        if row.a and row.least_n != wanted:
            raise SystemExit(f"{row.words}, but the least N is {row.least_n}")


def description(rows, orbits):
    nearest = max(rows, key=lambda row: row.met / row.promised)
    return (f"A line is the promised width, and each of {len(rows)} circles "
            f"the greatest met over {orbits:,} orbits. The first has "
            f"{rows[0].words}. The last has {rows[-1].words}. No circle is "
            f"above the line, and the nearest to it has {nearest.words}. A "
            f"width of 0 is drawn at the foot.")


def add_grid(picture):
    for tick in TICKS:
        picture.column(across(float(tick)), tick)
    picture.rows(UP)


def add_greatest_n(picture, greatest_n):
    y = UP.place(greatest_n)
    picture.mark(LEFT, y, RIGHT, y)
    picture.note(LEFT + 12, y - 9, (
        "The promised width is also the least tolerance N",
        "promised to confirm every right answer (e above 0).",
        f"The greatest N that may be given is {greatest_n:,}."))


def add_series(picture, rows, orbits):
    picture.curve([(row.x, UP.place(row.promised)) for row in rows], BLUE)
    for row in rows:
        picture.point(row.x, UP.place(row.met), ORANGE, row.words)
    picture.label(across(0.99998), UP.place(4.5e6), "promised: never above",
                  fill=BLUE, text_anchor="end", font_weight="bold")
    picture.label(across(0.9993), UP.place(260),
                  f"greatest met over {orbits:,} orbits each", fill=ORANGE,
                  font_weight="bold")
    picture.note(LEFT + 12, BOTTOM - 10,
                 ("At e = 0 both ends are M: width 0.",))


def width(lines):
    """The picture from the lines of plot/width.c."""
    (orbits, greatest_n), *numbers = (map(int, line.split())
                                      for line in lines)
    rows = [Row(*four) for four in numbers]
    check_least_n(rows, greatest_n)
    picture = Picture("How wide an enclosure gets, and what is promised",
                      description(rows, orbits))
    add_grid(picture)
    add_greatest_n(picture, greatest_n)
    add_series(picture, rows, orbits)
    picture.headings("stripeawn_enclose at depth 5, M of both signs; a unit "
                     "is 2^-28 radian",
                     "eccentricity e, on a logarithmic scale of 1 / (1 - e)",
                     "upper - lower, units")
    return picture
