"""The picture of a packet's life: a row for each router on its way, and a bar for each stretch with one verdict."""
from .findings import EMPTY, STALLS
from .life import QUEUE, Bar, Life, Stay
from .palette import KINDS, fill_of, patterns
from .picture import BLACK, GREY, bold, line, rectangle, svg, text
from .words import counted, stretch

LEFT, TOP, PLOT_WIDTH, RIGHT = 150, 84, 860, 230
ROW, BAR = 34, 22
LEGEND_COLUMNS, LEGEND_ROW = 2, 22
TICKS = 12
LEAST_EDGED = 4
# Room for a number at the axis, in points.
TICK_ROOM = 44
OUTLINE = 'stroke="#666666" stroke-width="0.7"'


def name_of(stay: Stay) -> str:
    """Where a packet stays."""
    return f"node {stay.router}, queue" if stay.channel == QUEUE else f"router {stay.router}, {stay.channel}"


def summary(stay: Stay) -> str:
    """How long a stay is, and why the packet stood still there longest."""
    cycles, counts = stay.end - stay.first, stay.counts()
    words = counted(cycles, "cycle")
    reason = max(STALLS, key=lambda reason: counts[reason])
    return f"{words}, {reason} in {counts[reason]}" if counts[reason] else words


def step_of(span: int) -> int:
    """The distance of the ticks between the ends: 1, 2 or 5 with zeros, at most so many of them."""
    step = 1
    while span / step > TICKS:
        step = step * 5 // 2 if str(step)[0] == "2" else step * 2
    return step


class Axis:
    """The cycles along the picture."""

    def __init__(self, first: int, last: int) -> None:
        self.first, self.last = first, last
        self.scale = PLOT_WIDTH / (last - first)

    def x(self, cycle: int) -> float:
        """Where a cycle begins."""
        return round(LEFT + (cycle - self.first) * self.scale, 2)

    def ticks(self) -> list[int]:
        """Both ends, and between them the multiples of a step that have room beside these."""
        step = step_of(self.last - self.first)
        between = range(-(-self.first // step) * step, self.last + 1, step)
        room = TICK_ROOM / self.scale
        inner = [cycle for cycle in between if self.first + room <= cycle <= self.last - room]
        return [self.first, *inner, self.last]

    def parts(self, bottom: int) -> list[str]:
        """The axis below the rows."""
        parts = []
        for cycle in self.ticks():
            x = self.x(cycle)
            parts.append(line(x, TOP, x, bottom, 'stroke="#dddddd"'))
            parts.append(text(x, bottom + 18, str(cycle), 12))
        return [*parts, text(LEFT + PLOT_WIDTH / 2, bottom + 38, "cycle")]

    def bar(self, y: int, bar: Bar) -> str:
        """A bar, with its cycles and its verdict."""
        # (white edges would hide bars that are a few points wide)
        edge = ' stroke="#ffffff" stroke-width="0.5"' if LEAST_EDGED < self.scale else ""
        kind, x = bar.verdict, self.x(bar.first)
        width = round(self.x(bar.end) - x, 2)
        drawn = f'<rect x="{x:g}" y="{y}" width="{width:g}" height="{BAR}" fill="{fill_of(kind)}"{edge}>'
        return f"{drawn}<title>{stretch(bar.first, bar.end - 1)}: {kind}</title></rect>"


def row_parts(axis: Axis, number: int, stay: Stay) -> list[str]:
    """The row of a stay."""
    y = TOP + number * ROW + (ROW - BAR) // 2
    first, last = axis.x(stay.first), axis.x(stay.end)
    return [
        f'<g id="stay-{number}">',
        text(LEFT - 12, y + 16, name_of(stay), 13, "end"),
        *(axis.bar(y, bar) for bar in stay.bars),
        rectangle(first, y, last - first, BAR, f'fill="none" {OUTLINE}'),
        text(LEFT + PLOT_WIDTH + 12, y + 16, summary(stay), 12, "start", GREY),
        "</g>",
    ]


def legend(y: int, stays: list[Stay]) -> tuple[list[str], int]:
    """Each verdict with its colour and meaning, those that the packet never had in grey; in columns, read downwards.
    And where it ends."""
    present = {bar.verdict for stay in stays for bar in stay.bars}
    # (no packet is in a channel that is empty)
    kinds = [(name, kind) for name, kind in KINDS.items() if name != EMPTY]
    rows = -(-len(kinds) // LEGEND_COLUMNS)
    parts = []
    for number, (name, kind) in enumerate(kinds):
        column, row = divmod(number, rows)
        x, at = LEFT + column * PLOT_WIDTH // LEGEND_COLUMNS, y + row * LEGEND_ROW
        fill = BLACK if name in present else GREY
        parts.append(rectangle(x, at - 11, 22, 13, f'fill="{fill_of(name)}" {OUTLINE}'))
        parts.append(text(x + 30, at, f"{name}: {kind.meaning}", 13, "start", fill))
    return parts, y + rows * LEGEND_ROW


def title(life: Life) -> str:
    """What packet it is, and when it was out."""
    packet = life.packet
    end = "not out at the end of the run" if life.out is None else f"out in cycle {life.out}"
    return f"The life of packet {packet.number}: {packet.way}, due in cycle {packet.due}, {end}"


def picture(life: Life) -> str:
    """The whole picture."""
    stays = life.stays
    axis = Axis(stays[0].first, max(stay.end for stay in stays))
    bottom = TOP + len(stays) * ROW
    explained, lowest = legend(bottom + 76, stays)
    said = "A row is an input channel on its way; a bar is a stretch of cycles with one verdict."
    parts = [bold(20, 32, title(life), 16), text(20, 56, said, 13, "start", GREY), *axis.parts(bottom)]
    for number, stay in enumerate(stays):
        parts += row_parts(axis, number, stay)
    return svg(LEFT + PLOT_WIDTH + RIGHT, lowest + 8, [*patterns(), *parts, *explained])
