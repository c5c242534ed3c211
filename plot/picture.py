"""What every picture has: its frame, its scales, and the SVG that holds it."""
import math
from dataclasses import dataclass, field
from html import escape

WIDTH, HEIGHT = 760, 480
# The edges of the part that the scales span.
LEFT, RIGHT, TOP, BOTTOM = 106, 724, 76, 408
# The last of these may be wider than the others: texts leave room for it.
FONT = "Helvetica, Arial, sans-serif"
SMALL, NORMAL, LARGE = 12, 14, 19
INK, PALE_INK, GRID, PAPER = "#222222", "#595959", "#e2e2e2", "#ffffff"
# The colour-blind tell these two apart, and both are dark enough for text.
BLUE, ORANGE = "#0072b2", "#c04f00"
# A logarithmic scale has no place for 0, which gets the foot, below a gap.
GAP = 28
ONE = 2 ** 28  # the A of eccentricity one


def written(value):
    """An attribute's value. A coordinate has one digit after the point, and
    is rounded twice: what lies halfway between two of them in theory, and a
    little beside that in doubles, goes the same way everywhere."""
    if isinstance(value, float):
        return f"{round(value, 6):.1f}"
    return escape(str(value))


def element(tag, content="", /, **attributes):
    """An underscore in an attribute's name stands for a hyphen."""
    words = "".join(f' {name.replace("_", "-")}="{written(value)}"'
                    for name, value in attributes.items())
    return f"<{tag}{words}>{content}</{tag}>"


def points(places):
    return " ".join(f"{written(x)},{written(y)}" for x, y in places)


@dataclass(frozen=True)
class Scale:
    """Places values by their logarithms, from the least to the greatest."""
    least: float
    greatest: float
    place_of_least: float
    place_of_greatest: float

    def place(self, value):
        part = (math.log(value / self.least) /
                math.log(self.greatest / self.least))
        return (self.place_of_least +
                part * (self.place_of_greatest - self.place_of_least))


@dataclass(frozen=True)
class Upward:
    """Places 0 at the foot, and above the gap 1 to a power of ten."""
    decades: int

    def place(self, value):
        if not value:
            return float(BOTTOM)
        return Scale(1, 10 ** self.decades, BOTTOM - GAP, TOP).place(value)


@dataclass
class Picture:
    """The title; what the picture shows, for those who can't see it; and its
    elements, of which the later ones lie above the earlier."""
    title: str
    description: str
    elements: list = field(default_factory=list)

    def add(self, tag, content="", /, **attributes):
        self.elements.append(element(tag, content, **attributes))

    def text(self, x, y, words, size=NORMAL, fill=INK, **attributes):
        self.add("text", escape(words), x=x, y=y, font_size=size, fill=fill,
                 **attributes)

    def label(self, x, y, words, size=NORMAL, fill=INK, **attributes):
        """A text among lines, on a rim of paper that none runs through."""
        self.text(x, y, words, size, PAPER, stroke=PAPER, stroke_width=4,
                  stroke_linejoin="round", **attributes)
        self.text(x, y, words, size, fill, **attributes)

    def line(self, x1, y1, x2, y2, stroke, **attributes):
        self.add("line", x1=x1, y1=y1, x2=x2, y2=y2, stroke=stroke,
                 **attributes)

    def mark(self, x1, y1, x2, y2):
        """A dashed line, for what the answers are compared with."""
        self.line(x1, y1, x2, y2, PALE_INK, stroke_dasharray="6 4")

    def curve(self, places, stroke, width=2.5):
        self.add("polyline", points=points(places), fill="none",
                 stroke=stroke, stroke_width=width, stroke_linejoin="round")

    def band(self, below, above, fill):
        """A pale area between two curves, with what lies under it visible."""
        self.add("polygon", points=points([*below, *reversed(above)]),
                 fill=fill, fill_opacity="0.1")
        self.curve(below, fill, 0.8)
        self.curve(above, fill, 0.8)

    def point(self, x, y, fill, words):
        """A circle; a browser shows the words where it is pointed at."""
        self.add("circle", element("title", escape(words)), cx=x, cy=y, r=3.2,
                 fill=fill)

    def column(self, x, label):
        """A line of the grid from top to bottom, with its label below."""
        self.line(x, TOP, x, BOTTOM, GRID)
        self.text(x, BOTTOM + 20, label, SMALL, text_anchor="middle")

    def row(self, y, label):
        """A line of the grid from left to right, with its label before it."""
        self.line(LEFT, y, RIGHT, y, GRID)
        self.text(LEFT - 9, y + 4, label, SMALL, text_anchor="end")

    def rows(self, upward):
        self.row(upward.place(0), "0")
        for decade in range(upward.decades + 1):
            self.row(upward.place(10 ** decade), f"{10 ** decade:,}")

    def note(self, x, y, lines, **attributes):
        """Small lines of text among others, the last one at y."""
        for above, words in enumerate(reversed(lines)):
            self.label(x, y - 16 * above, words, SMALL, PALE_INK,
                       **attributes)

    def headings(self, below, x_title, y_title):
        """The title, a line below it, and what the two scales are of."""
        x, y = (LEFT + RIGHT) / 2, (TOP + BOTTOM) / 2
        self.text(LEFT, 32, self.title, LARGE, font_weight="bold")
        self.text(LEFT, 54, below, fill=PALE_INK)
        self.text(x, HEIGHT - 20, x_title, text_anchor="middle")
        self.text(20, y, y_title, text_anchor="middle",
                  transform=f"rotate(-90 20 {written(y)})")

    def svg(self):
        """All of it, on white paper whatever the page around it is."""
        inner = [element("title", escape(self.title), id="title"),
                 element("desc", escape(self.description), id="description"),
                 element("rect", width=WIDTH, height=HEIGHT, fill=PAPER),
                 *self.elements]
        return element("svg", "\n" + "\n".join(inner) + "\n",
                       xmlns="http://www.w3.org/2000/svg", width=WIDTH,
                       height=HEIGHT, viewBox=f"0 0 {WIDTH} {HEIGHT}",
                       role="img", aria_labelledby="title description",
                       font_family=FONT) + "\n"
