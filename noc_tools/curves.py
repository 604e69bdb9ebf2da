"""Curves of one figure against another, such as latency against load, in one picture."""
import math
from collections.abc import Iterable, Sequence
from itertools import chain
from typing import NamedTuple

from .errors import Refused, refusing
from .files import named_rows, read_lines
from .measure import COLUMNS
from .picture import BLACK, GREY, WHITE, bold, line, svg, text, upwards
from .statistics import SOURCES, TOO_MUCH, columns_of, margin_of

HEADER = ["load", *COLUMNS]
NONE = "-"
# The columns of the bounds on what lies across.
BOUNDS = {"load": "bound_load", "offered": "bound", "accepted": "bound"}
KEPT = "keeps_up_to"
PARTS = ("mean {}", "median of {}", "95th percentile of {}", "99th percentile of {}", "maximum of {}")
MEASURED = {
    "latency": ("latency", "in cycles"), "queue": ("queue latency", "in cycles"),
    "network": ("network latency", "in cycles"), "hops": ("hops", "to the destination"),
}
NODES = ("least accepted load of a source", "mean accepted load of the sources", "greatest accepted load of a source")
# What columns are called along an axis, and in which unit they are.
LABELS = {
    **{name: f"{words}, in {{}} per node and cycle" for name, words in (
        ("load", "load"), ("offered", "offered load"), ("accepted", "accepted load"),
        ("saturation", "greatest accepted load"), ("capacity", "capacity"), ("bound", "bound of the pattern"),
        (KEPT, "accepted load up to which a network keeps up"),
        ("steady_to", "accepted load up to which most runs are steady"),
    )},
    **{
        column: f"{part.format(name)}, {unit}"
        for measure, (name, unit) in MEASURED.items()
        for column, part in zip(columns_of(measure), PARTS)
    },
    **{column: f"{name}, in {{}} per cycle" for column, name in zip(SOURCES, NODES)},
    "slots": "flits that the buffers of a link hold",
    "of_capacity": "greatest accepted load, as a part of the capacity",
}
# What begins at a latency that it has without load, and grows without end: of these the picture shows the beginning.
GROWING = [*columns_of("latency"), *columns_of("network")]
# Colours that colour-blind eyes can tell apart too, and marks; a pair comes again with another kind of line.
COLOURS = ["#0072b2", "#d55e00", "#009e73", "#cc79a7", "#8c8c8c", "#56b4e9", "#e69f00", BLACK]
MARKS = ["circle", "square", "triangle", "diamond", "cross"]
DASHES = ["", "7 4", "2 3", "9 3 2 3"]
# How wide and how high a frame is that is alone, or one of several, and how many stand side by side.
ALONE, ONE_OF_SEVERAL = (640, 380), (400, 250)
MOST_BESIDE = 3
LEFT, TOP, BOTTOM = 84, 76, 60
# Between two frames, and the height of the name of one.
GAP, NAME_HEIGHT = 46, 26
LEGEND_GAP, LEAST_LEGEND = 30, 350
TICKS = 8
SIZE = 5
FAINT = "#e4e4e4"
# A letter is about so wide, as a part of the size of its font.
LETTER = 0.62


class Point(NamedTuple):
    """A point of a curve, whether all packets that were measured were out, between which figures it lies, as far as
    this is known, whether its run stood still, and whether the next point is not known."""

    x: float
    y: float
    is_whole: bool
    least: float | None = None
    most: float | None = None
    is_stuck: bool = False
    is_last: bool = False


class Style(NamedTuple):
    """How a curve is drawn: the numbers of its colour and its dashes."""

    colour: int
    dash: int = 0

    @property
    def paint(self) -> str:
        """Its colour."""
        return COLOURS[self.colour]

    @property
    def mark(self) -> str:
        """Its mark, which tells as much as its colour."""
        return MARKS[self.colour % len(MARKS)]

    @property
    def stroke(self) -> str:
        """The line of the curve."""
        dash = f' stroke-dasharray="{DASHES[self.dash]}"' if DASHES[self.dash] else ""
        return f'stroke="{self.paint}" stroke-width="2"{dash}'


# All styles, with colours as the fastest.
STYLES = [Style(colour, dash) for dash in range(len(DASHES)) for colour in range(len(COLOURS))]


class Curve(NamedTuple):
    """The points of one name, from left to right, whether they are of a network that can deadlock, and how far to the
    right links and ports allow points to lie."""

    name: str
    points: list[Point]
    style: Style = STYLES[0]
    can_deadlock: bool = False
    bound: float | None = None

    @property
    def label(self) -> str:
        """Its name in the legend."""
        return f"{self.name} (can deadlock)" if self.can_deadlock else self.name


def around(height: float, margin: float | None) -> tuple[float | None, float | None]:
    """From where to where a figure lies with this margin; None where it is not known."""
    return (None, None) if margin is None else (max(0.0, height - margin), height + margin)


def with_ends(points: Iterable[Point | None]) -> list[Point]:
    """Those points that are known, of which each says whether the next one is not."""
    some = list(points)
    return [
        point._replace(is_last=following is None)
        for point, following in zip(some, [*some[1:], *some[-1:]]) if point is not None
    ]


class Frame(NamedTuple):
    """Curves between axes of their own; a frame that is one of several has a name."""

    name: str
    curves: list[Curve]


def label_of(name: str, unit: str) -> str:
    """What stands along the axis of a column."""
    return LABELS.get(name, name).format(unit)


# ---- files


def number_of(words: str) -> float:
    """A figure of a curve."""
    number = float(words)
    if not 0 <= number < TOO_MUCH:
        raise ValueError(f"'{words}' is no number of a curve")
    return number


class Measured(NamedTuple):
    """What 'noc-tools load' wrote."""

    name: str
    path: str
    rows: list[dict[str, str]]

    def curve(self, x: str, y: str, style: Style) -> Curve:
        """The curve of two figures in the order of its loads, without those points where one is a dash."""
        with refusing(ValueError, f"{self.path}: "):
            rows = sorted(self.rows, key=lambda row: number_of(row["load"]))
            known = [self.point(row, x, y) for row in rows]
            bound = self.rows[0][BOUNDS[x]] if self.rows and x in BOUNDS else NONE
            limit = None if bound == NONE else number_of(bound)
        points = with_ends(known)
        if not points:
            raise Refused(f"{self.path} has no '{y}' that is a number")
        can_deadlock = any(row["deadlock_free"] == "no" for row in rows)
        return Curve(self.name or self.path, points, style, can_deadlock, limit)

    def point(self, row: dict[str, str], x: str, y: str) -> Point | None:
        """The point of a load; None where a figure is a dash."""
        if NONE in (row[x], row[y]):
            return None
        height, margin = number_of(row[y]), row.get(margin_of(y), NONE)
        least, most = around(height, None if margin == NONE else number_of(margin))
        is_whole = row["packets"] == row["out"]
        return Point(number_of(row[x]), height, is_whole, least, most, row["stuck"] == "yes")

    def cycles(self) -> list[float]:
        """The cycles of each run."""
        with refusing(ValueError, f"{self.path}: "):
            return [number_of(row["ran"]) for row in self.rows]


def read_curve(word: str) -> Measured:
    """The file of a word NAME=CURVE.csv, or CURVE.csv."""
    name, _, path = word.rpartition("=")
    kind = "curve of noc-tools load with all its columns"
    return Measured(name, path, named_rows(read_lines(path, kind), HEADER, kind, path))


def subtitle_of(given: Sequence[Measured]) -> str:
    """How many cycles the runs had, which are not the same where noc does not take the packets of all."""
    cycles = sorted(cycles for one in given for cycles in one.cycles())
    span = f"{cycles[0]:.0f}" if cycles[0] == cycles[-1] else f"{cycles[0]:.0f} to {cycles[-1]:.0f}"
    return f"Of the packets that were measured, in runs of {span} cycles."


# ---- axes


def step_of(top: float) -> float:
    """The distance of the numbers along an axis, at most so many: 1, 2 or 5 times a power of ten."""
    steps = (factor * 10.0**power for power in range(-6, 300) for factor in (1, 2, 5))
    return next(step for step in steps if top / step <= TICKS)


def rounded_up(top: float) -> float:
    """The next number at which an axis can end that has one there."""
    step = step_of(top)
    return round(step * math.ceil(top / step - 1e-9), 6)


def ticks(top: float) -> list[float]:
    """The numbers along an axis, from 0 to its top, which is always one."""
    step = step_of(top)
    inner = [round(step * number, 6) for number in range(math.ceil(top / step - 1e-9))]
    return [number for number in inner if number == 0 or 0.4 * step < top - number] + [top]


def end_of(curve: Curve, top: float) -> float:
    """How far a curve goes to the right until it leaves the picture at its top."""
    reach = 0.0
    for before, point in zip([None, *curve.points], curve.points):
        if point.y > top:
            if before is None:
                return reach
            part = (top - before.y) / (point.y - before.y) if before.y < top else 0
            return max(reach, before.x + part * (point.x - before.x))
        reach = max(reach, point.x)
    return reach


class Axes(NamedTuple):
    """The axes that all frames of a picture have: of which columns they are, and where they end."""

    x: str
    y: str
    unit: str
    end: float
    top: float
    width: int
    height: int

    def place(self, x: float, y: float) -> tuple[float, float]:
        """Where a point lies in a frame."""
        return round(x / self.end * self.width, 2), round(self.height * (1 - y / self.top), 2)

    def shown(self, points: Iterable[Point]) -> list[Point]:
        """Those of some points that a frame shows."""
        return [point for point in points if point.y <= self.top and point.x <= self.end]

    def parts(self) -> list[str]:
        """The axes of a frame with their numbers."""
        parts = []
        for number in ticks(self.end):
            x, _ = self.place(number, 0)
            parts.append(line(x, 0, x, self.height, f'stroke="{FAINT}"'))
            parts.append(text(x, self.height + 20, f"{number:g}", 12))
        for number in ticks(self.top):
            _, y = self.place(0, number)
            parts += [line(0, y, self.width, y, f'stroke="{FAINT}"'), text(-10, y + 4, f"{number:g}", 12, "end")]
        if (self.x, self.y) in (("offered", "accepted"), ("load", "accepted")):
            least = min(self.end, self.top)
            parts.append(line(*self.place(0, 0), *self.place(least, least), f'stroke="{GREY}" stroke-dasharray="3 4"'))
        return [*parts, f'<path d="M0 0V{self.height}H{self.width}" fill="none" stroke="{GREY}"/>']


def axes_of(frames: Sequence[Frame], x: str, y: str, top: float | None, unit: str) -> Axes:
    """The axes of some frames; without a top, what grows without end ends at four times its lowest point."""
    curves = [curve for frame in frames for curve in frame.curves if curve.points]
    points = [point for curve in curves for point in curve.points]
    highest = max(max(point.y, point.most or 0) for point in points)
    found = top or rounded_up((4 * min(point.y for point in points) if y in GROWING else highest) or 1)
    reach = max(end_of(curve, found) for curve in curves)
    end = rounded_up(reach or max(curve.points[0].x for curve in curves) or 1)
    return Axes(x, y, unit, end, found, *(ALONE if len(frames) == 1 else ONE_OF_SEVERAL))


# ---- the picture


def standstill(x: float, y: float, colour: str) -> str:
    """The mark of a run that stood still: two strokes that cross."""
    corner = 1.3 * SIZE
    stroke = f'stroke="{colour}" stroke-width="3" class="standstill"'
    side = 2 * corner
    path = f"M{x - corner:g} {y - corner:g}l{side:g} {side:g}m0 {-side:g}l{-side:g} {side:g}"
    return f'<path d="{path}" fill="none" {stroke}/>'


def mark_at(point: Point, style: Style, axes: "Axes") -> str:
    """The mark of a point."""
    x, y = axes.place(point.x, point.y)
    if point.is_stuck:
        return standstill(x, y, style.paint)
    return mark_of(style.mark, x, y, style.paint, point.is_whole)


def mark_of(mark: str, x: float, y: float, colour: str, is_whole: bool) -> str:
    """A mark, which is hollow where not all packets were out."""
    drawn = f'fill="{colour if is_whole else WHITE}" stroke="{colour}" stroke-width="2"'
    shapes: dict[str, list[tuple[float, float]]] = {
        "square": [(-1, -1), (1, -1), (1, 1), (-1, 1)],
        "triangle": [(0, -1.2), (1.2, 1), (-1.2, 1)],
        "diamond": [(0, -1.4), (1.4, 0), (0, 1.4), (-1.4, 0)],
        "cross": [
            (-0.4, -1.3), (0.4, -1.3), (0.4, -0.4), (1.3, -0.4), (1.3, 0.4), (0.4, 0.4), (0.4, 1.3), (-0.4, 1.3),
            (-0.4, 0.4), (-1.3, 0.4), (-1.3, -0.4), (-0.4, -0.4),
        ],
    }
    if mark == "circle":
        return f'<circle cx="{x:g}" cy="{y:g}" r="{SIZE}" {drawn}/>'
    corners = " ".join(f"{x + SIZE * a:g},{y + SIZE * b:g}" for a, b in shapes[mark])
    return f'<polygon points="{corners}" {drawn}/>'


def goes_on(x: float, y: float, colour: str) -> str:
    """The mark of a point behind which the next one is not known: an arrow to the upper right."""
    side, head = 3.6 * SIZE, 1.2 * SIZE
    path = f"M{x:g} {y:g}l{side:g} {-side:g}m{-head:g} 0h{head:g}v{head:g}"
    return f'<path d="{path}" fill="none" stroke="{colour}" stroke-width="1.6" class="goes-on"/>'


def bound_lines(curves: Iterable[Curve], axes: Axes) -> list[str]:
    """The bounds of curves, each once; grey where several curves have it."""
    colours: dict[float, set[str]] = {}
    for curve in curves:
        if curve.bound is not None and curve.bound <= axes.end:
            colours.setdefault(curve.bound, set()).add(curve.style.paint)
    parts = []
    for bound, paints in colours.items():
        x, _ = axes.place(bound, 0)
        colour = paints.pop() if len(paints) == 1 else GREY
        parts.append(line(x, 0, x, axes.height, f'stroke="{colour}" stroke-dasharray="8 3 2 3" class="bound"'))
    return parts


def spread_of(point: Point, axes: Axes, colour: str) -> list[str]:
    """A bar from the least to the most that a point may be."""
    if point.least is None or point.most is None or point.least == point.most:
        return []
    x, low = axes.place(point.x, min(point.least, axes.top))
    _, high = axes.place(point.x, min(point.most, axes.top))
    return [line(x, low, x, high, f'stroke="{colour}" stroke-width="1.2"')]


def curve_parts(number: int, curve: Curve, axes: Axes) -> list[str]:
    """A curve with a mark for each of its points that the picture shows."""
    style = curve.style
    points = " ".join("{:g},{:g}".format(*axes.place(point.x, point.y)) for point in curve.points)
    parts = [f'<g id="curve-{number}">']
    parts.append(f'<polyline points="{points}" fill="none" {style.stroke} clip-path="url(#frame)"/>')
    for point in axes.shown(curve.points):
        parts += spread_of(point, axes, style.paint)
        parts += [goes_on(*axes.place(point.x, point.y), style.paint)] * point.is_last
        parts.append(mark_at(point, style, axes))
    return [*parts, "</g>"]


def frame_parts(frame: Frame, axes: Axes, first: int) -> list[str]:
    """A frame, whose curves are counted on from the first number."""
    parts = [bold(0, -8, frame.name)] if frame.name else []
    parts += axes.parts()
    parts += bound_lines(frame.curves, axes)
    for number, curve in enumerate(frame.curves, first):
        parts += curve_parts(number, curve, axes)
    return parts


def legend(frames: Sequence[Frame], x: float, axes: Axes, also: Sequence[str]) -> tuple[list[str], float]:
    """The names of the curves, what their marks mean, and what is told besides; and where this ends."""
    named = {curve.label: curve.style for frame in frames for curve in frame.curves}
    parts, y = [], TOP + 10
    for name, style in named.items():
        parts.append(line(x, y - 4, x + 32, y - 4, style.stroke))
        parts.append(mark_of(style.mark, x + 16, y - 4, style.paint, True))
        parts.append(text(x + 42, y, name, anchor="start"))
        y += 26
    curves = [axes.shown(curve.points) for frame in frames for curve in frame.curves]
    points, empty = list(chain.from_iterable(curves)), curves.count([])
    words = []
    if not all(point.is_whole or point.is_stuck for point in points):
        parts.append(mark_of("circle", x + 16, y + 8, GREY, False))
        words = ["hollow: not all measured packets were", "out at the end of the run"]
    if any(point.is_stuck for point in points):
        parts.append(standstill(x + 16, y + 8 + 18 * len(words), GREY))
        words += ["stood still: packets wait for one", "another in a circle"]
    words += [f"without a point here: {empty} of {len(curves)} curves"] * (empty > 0)
    words += [bar_told(axes.y)] * any(spread_of(point, axes, "") for point in points)
    words += ["arrow: the next point is not known"] * any(point.is_last for point in points)
    bounds = [parts for frame in frames for parts in bound_lines(frame.curves, axes)]
    words += ["dashed upright: the bound of the pattern"] * bool(bounds)
    words += ["dotted: all that is offered"] * (axes.y == "accepted")
    words += also
    parts += [text(x + 42, y + 12 + 18 * number, told, 13, "start", GREY) for number, told in enumerate(words)]
    return parts, y + 12 + 18 * len(words)


def bar_told(y: str) -> str:
    """What the bars of a picture mean."""
    return "bar: up to the next load that was tried" if y == KEPT else "bar: 95 percent interval of confidence"


def title_of(x: str, y: str) -> str:
    """What the picture shows."""
    shown = "Latency" if y in columns_of("latency") else label_of(y, "").partition(",")[0]
    across = label_of(x, "").partition(",")[0]
    return f"{shown[0].upper()}{shown[1:]} against {across}"


def moved(x: float, y: float, parts: Sequence[str]) -> list[str]:
    """Parts at another place."""
    return [f'<g transform="translate({x:g} {y:g})">', *parts, "</g>"]


def picture(frames: Sequence[Frame], axes: Axes, subtitle: str, also: Sequence[str] = ()) -> str:
    """The picture of these frames, side by side and then below one another; the legend tells some lines besides."""
    beside = min(len(frames), 2 if len(frames) == 4 else MOST_BESIDE)
    head = NAME_HEIGHT if frames[0].name else 0
    parts, first = [], 0
    for number, frame in enumerate(frames):
        below, column = divmod(number, beside)
        place = LEFT + column * (axes.width + GAP), TOP + head + below * (axes.height + head + GAP)
        parts += moved(*place, frame_parts(frame, axes, first))
        first += len(frame.curves)
    across = beside * (axes.width + GAP) - GAP
    rows = -(-len(frames) // beside)
    end = TOP + rows * (axes.height + head + GAP) - GAP
    parts.append(text(LEFT + across / 2, end + 44, label_of(axes.x, axes.unit)))
    parts += upwards(22, (TOP + end) / 2, label_of(axes.y, axes.unit))
    explained, lowest = legend(frames, LEFT + across + LEGEND_GAP, axes, also)
    names = max(len(curve.label) for frame in frames for curve in frame.curves)
    width = LEFT + across + max(LEGEND_GAP + 60 + math.ceil(13 * LETTER * names), LEAST_LEGEND)
    width = max(width, LEFT + 20 + math.ceil(13 * LETTER * len(subtitle)))
    clip = f'<clipPath id="frame"><rect x="0" y="0" width="{axes.width}" height="{axes.height}"/></clipPath>'
    heads = [bold(LEFT, 32, title_of(axes.x, axes.y), 20), text(LEFT, 54, subtitle, 13, "start", GREY)]
    return svg(width, max(end + BOTTOM, lowest + 24), [clip, *heads, *parts, *explained])
