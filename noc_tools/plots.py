"""The curves of a study as figures of matplotlib for a paper, which is wanted here alone.

The curves, names, frames and styles are those of the pictures that 'noc-tools sweep' draws. A
figure is as wide as a column, its letters have 8 points, and its caption has what the title and
subtitle of such a picture say.
"""
from collections.abc import Mapping, Sequence
from io import BytesIO
from itertools import chain
from pathlib import Path
from typing import TYPE_CHECKING, Any

from .curves import Axes, Curve, Frame, Point, Style, axes_of, bar_told, label_of, title_of
from .study.drawing import frames_of, subtitle_of
from .errors import Refused
from .picture import GREY
from .study.combinations import combinations_of, varying
from .units import NAMES

try:
    import matplotlib
    from matplotlib.figure import Figure as AnyFigure
    from matplotlib.lines import Line2D
    from matplotlib.ticker import MaxNLocator
except ImportError:
    raise Refused("a figure needs matplotlib, which the extra 'plots' of noc_tools brings") from None

if TYPE_CHECKING:
    from .study import Study

# The width of a column in inches, and the size of letters in points.
COLUMN, LETTERS = 3.5, 8
# The height of a frame as a part of its width; that of a line of words, and the width of the key
# before a name, in inches.
RATIO, LINE, KEY = 0.72, 0.15, 0.45
# An inch has room for so many letters, and for so many numbers of an axis across and upwards.
LETTERS_OF_AN_INCH, ACROSS, UPWARDS = 17.5, 2.6, 3
MARKS = {"circle": "o", "square": "s", "triangle": "^", "diamond": "D", "cross": "P"}
STANDSTILL = "x"
DASHES: list[Any] = ["-", (0, (5, 3)), (0, (1.5, 2)), (0, (6, 2, 1.5, 2))]
BOUND = (0, (6, 2, 1.5, 2))
# Letters stay letters in each file, and the same curves give the same bytes.
LOOK = {
    "font.size": LETTERS, "axes.titlesize": LETTERS, "legend.fontsize": LETTERS,
    "axes.linewidth": 0.6, "axes.spines.top": False, "axes.spines.right": False,
    "axes.grid": True, "grid.color": "#e4e4e4", "grid.linewidth": 0.5,
    "pdf.fonttype": 42, "ps.fonttype": 42, "svg.fonttype": "none", "svg.hashsalt": "noc",
}
# What a kind of file says of the time, which is left out.
TIMES = {".pdf": "CreationDate", ".svg": "Date"}


class Figure(AnyFigure):  # type: ignore[misc]
    """A figure that is saved as it was made, with letters that are text and without the time."""

    # What it shows, as a caption may begin.
    caption = ""

    def savefig(self, file: Any, **given: Any) -> None:
        """Writes it into a file, as PDF, SVG or PNG by the end of its name."""
        time = TIMES.get(Path(file).suffix) if isinstance(file, (str, Path)) else None
        how: dict[str, Any] = {"dpi": 300, "metadata": {time: None} if time else None}
        with matplotlib.rc_context(LOOK):
            super().savefig(file, **(how | given))

    def _repr_png_(self) -> bytes:
        """How a notebook shows it."""
        made = BytesIO()
        self.savefig(made, format="png", dpi=150)
        return made.getvalue()


def has_bar(point: Point) -> bool:
    """Whether it is known between which figures a point lies."""
    return point.least is not None and point.least != point.most


def draw_point(place: Any, point: Point, style: Style) -> None:
    """A mark, which is hollow where not all packets were out, with a bar of what it may be, and
    with an arrow where the next point is not known."""
    mark = STANDSTILL if point.is_stuck else MARKS[style.mark]
    filled = style.paint if point.is_whole else "white"
    # (whole also at the end of an axis)
    look = {"color": style.paint, "markerfacecolor": filled, "markersize": 4, "clip_on": False}
    place.plot(point.x, point.y, mark, **look)
    if has_bar(point):
        place.vlines(point.x, point.least, point.most, color=style.paint, linewidth=0.8)
    if point.is_last:
        arrow = {"arrowstyle": "<-", "color": style.paint, "linewidth": 0.8, "shrinkB": 2}
        place.annotate("", (point.x, point.y), (9, 9), textcoords="offset points", arrowprops=arrow)


def draw_bounds(place: Any, frame: Frame, axes: Axes) -> None:
    """The bounds of the curves, each once; grey where several curves have it."""
    for bound in {curve.bound for curve in frame.curves}:
        if bound is not None and bound <= axes.end:
            paints = {curve.style.paint for curve in frame.curves if curve.bound == bound}
            colour = paints.pop() if len(paints) == 1 else GREY
            place.axvline(bound, color=colour, ls=BOUND, linewidth=0.8, gid="bound")


def draw_frame(place: Any, frame: Frame, axes: Axes) -> None:
    """The curves of a frame."""
    place.set_title(frame.name, loc="left", fontweight="bold")
    draw_bounds(place, frame, axes)
    for curve in frame.curves:
        places = [point.x for point in curve.points], [point.y for point in curve.points]
        style = {"ls": DASHES[curve.style.dash], "color": curve.style.paint, "linewidth": 1.1}
        place.plot(*places, **style)
        for point in axes.shown(curve.points):
            draw_point(place, point, curve.style)
    place.set(xlim=(0, axes.end), ylim=(0, axes.top))


def number_axes(place: Any, width: float, height: float) -> None:
    """Numbers along the axes of a frame of so many inches, as many as have room."""
    for axis, count in (place.xaxis, width * ACROSS), (place.yaxis, height * UPWARDS):
        axis.set_major_locator(MaxNLocator(max(2, int(count)), steps=[1, 2, 5, 10]))
        axis.set_major_formatter("{x:g}")


def key_of(curve: Curve) -> Any:
    """What stands before the name of a curve in the legend."""
    style, mark = curve.style, {"marker": MARKS[curve.style.mark], "markersize": 4}
    return Line2D([], [], color=style.paint, ls=DASHES[style.dash], linewidth=1.1, **mark)


def figure_of(
    frames: Sequence[Frame], axes: Axes, width: float = COLUMN, beside: int = 1
) -> Figure:
    """Some frames, so many side by side, as a figure of so many inches; below it the names of
    the curves."""
    across = min(len(frames), beside)
    down = -(-len(frames) // across)
    keys = {curve.label: curve for curve in chain.from_iterable(frame.curves for frame in frames)}
    columns = max(1, int(width / (max(map(len, keys)) / LETTERS_OF_AN_INCH + KEY)))
    lines = -(-len(keys) // columns)
    wide, below = width / across, LINE * (lines + 1.4)
    high = down * RATIO * wide + below
    with matplotlib.rc_context(LOOK):
        made = Figure(figsize=(width, high))
        places = made.subplots(down, across, sharex=True, sharey=True, squeeze=False)
        number_axes(places.flat[0], wide, RATIO * wide)
        for place, frame in zip(places.flat, frames):
            draw_frame(place, frame, axes)
        for place in places.flat[len(frames):]:
            place.set_visible(False)
        made.text(0.5, (below - 0.02) / high, label_of(axes.x, axes.unit), ha="center", va="top")
        label = label_of(axes.y, axes.unit)
        middle = min((high + below) / 2, high - len(label) / LETTERS_OF_AN_INCH / 2)
        made.text(0.005, middle / high, label, rotation=90, va="center")
        made.legend(
            [key_of(curve) for curve in keys.values()], keys, loc="lower center", ncol=columns,
            frameon=False, borderaxespad=0.1, labelspacing=0.25, handlelength=3, columnspacing=1,
        )
        made.tight_layout(rect=(LINE / width, below / high, 1, 1), pad=0.3)
    return made


def caption_of(frames: Sequence[Frame], axes: Axes, same: str) -> str:
    """What a figure shows, what its curves have in common, and what its marks mean."""
    curves = list(chain.from_iterable(frame.curves for frame in frames))
    points = list(chain.from_iterable(axes.shown(curve.points) for curve in curves))
    told, reach = bar_told(axes.y), axes.end
    is_left = [not point.is_whole and not point.is_stuck for point in points]
    notes = {
        "Hollow: not all measured packets were out.": any(is_left),
        "Crosses: stood still.": any(point.is_stuck for point in points),
        f"{told[0].upper()}{told[1:]}.": any(map(has_bar, points)),
        "Arrow: the next point is not known.": any(point.is_last for point in points),
        "Upright: the bound of the pattern.": any(it.bound and it.bound <= reach for it in curves),
    }
    needed = [note for note, is_needed in notes.items() if is_needed]
    return " ".join([f"{title_of(axes.x, axes.y)}: {same}.", *needed])


def study_figure(
    study: "Study", y: str = "mean", x: str = "accepted", top: float | None = None,
    width: float = COLUMN, beside: int = 1, where: Mapping[str, Any] | None = None, **view: Any,
) -> Figure:
    """The curves of one column of a study's results against another, as a figure of so many inches.

    `top` ends the axis of y; so many frames stand side by side; `where` leaves the runs whose
    settings have these values; and `frames`, `colour`, `dash` and `along` are as a study has them.
    """
    wanted = {key: str(value) for key, value in (where or {}).items()}
    rows = [row for row in study.rows_of(study.cases) if wanted.items() <= row.items()]
    if not rows or not {x, y} <= set(rows[0]):
        drawn = f"'{y}' against '{x}'"
        raise Refused(f"there is nothing to draw of {drawn}: no such results or columns")
    chosen = study.plan.view._replace(**view)
    chosen.check()
    combinations = combinations_of(rows, chosen.along)
    pictures = list(frames_of(combinations, chosen, x, y))
    if len(pictures) != 1:
        told = f"{len(pictures)} figures are needed for all curves"
        raise Refused(f"{told}: 'where' leaves some runs alone")
    unit = NAMES[rows[0]["unit"]]
    axes = axes_of(pictures[0], x, y, top, unit)
    made = figure_of(pictures[0], axes, width, beside)
    same = subtitle_of(rows, [*varying(combinations, chosen.along), chosen.along])
    made.caption = caption_of(pictures[0], axes, same)
    return made
