"""The picture of a stall report: where packets stand still, or how much each link is used."""
import math
from collections import Counter
from collections.abc import Iterator

from .findings import REASONS
from .life import QUEUE
from .network import LOCAL, Network
from .palette import KINDS
from .picture import (
    BLACK, GREY, WHITE, bold, colour_bar, colour_of, column_of_words, hexadecimal, ink_on, percent,
    rectangle, svg, text, upwards,
)
from .stalls import INTO, OUT_OF, Link, Report, Router, links_of
from .words import counted, stretch

LEFT, TOP, BOTTOM = 60, 96, 56
LEGEND_GAP, LEGEND_WIDTH = 36, 400
BAR_HEIGHT = 160
EDGE = 'stroke="#999999"'
# So many cells in a row or a column have room for words, and so many of the worst are listed where
# there are more.
MOST_WITH_WORDS, LISTED = 8, 10
# A queue of fewer packets has no number, which would be 0.0.
LEAST_QUEUE = 0.05
# How high the bar of a queue is, and how it is drawn.
BAR_OF_QUEUE, QUEUE_DRAWN = 5, f'fill="{KINDS[QUEUE].colour}" stroke="{WHITE}" stroke-width="0.7"'
# A letter is about so wide, as a part of the size of its font.
LETTER = 0.6
Point = tuple[float, float]


class Sheet:
    """Where the cells of a network lie; in three dimensions a plane for each third coordinate."""

    def __init__(self, network: Network) -> None:
        self.network = network
        self.columns, self.rows, self.planes = [*network.radix, 1, 1][:3]
        self.is_wide = MOST_WITH_WORDS < max(self.columns * self.planes, self.rows)
        self.cell = 50 if self.is_wide else 100
        self.top = TOP + (20 if 1 < self.planes else 0)

    def plane_left(self, z: int) -> float:
        """The left edge of a plane."""
        return LEFT + z * (self.columns + 0.5) * self.cell

    @property
    def right(self) -> float:
        """The right edge of all."""
        return self.plane_left(self.planes - 1) + self.columns * self.cell

    @property
    def bottom(self) -> int:
        """The lower edge of all."""
        return self.top + self.rows * self.cell

    def corner(self, router: int) -> Point:
        """The upper left corner of a router's cell."""
        x, y, z = [*self.network.coordinates(router), 0, 0][:3]
        return self.plane_left(z) + x * self.cell, self.top + (self.rows - 1 - y) * self.cell

    def axes(self) -> list[str]:
        """The coordinates along the lower and the left edge."""
        bottom = self.bottom
        parts = []
        for z in range(self.planes):
            left, width = self.plane_left(z), self.columns * self.cell
            parts += [text(left + (x + 0.5) * self.cell, bottom + 20, str(x))
                      for x in range(self.columns)]
            if 1 < self.planes:
                parts.append(text(left + width / 2, self.top - 10, f"third coordinate {z}", 12))
        middle = (LEFT + self.right) / 2
        parts.append(text(middle, bottom + 44, "first coordinate (port +0 leads right)"))
        if len(self.network.radix) == 1:
            return parts
        parts += [text(LEFT - 12, bottom - (y + 0.5) * self.cell + 5, str(y), anchor="end")
                  for y in range(self.rows)]
        second = "second coordinate (port +1 leads up)"
        return [*parts, *upwards(20, (self.top + bottom) / 2, second)]


def most(counts: Counter[str]) -> str:
    """The key of the highest count, the first of equals, or a dash where all counts are 0."""
    key, count = max(counts.items(), key=lambda item: item[1])
    return key if count else "\u2013"


def described(network: Network, report: Report) -> str:
    """What the picture is of, in one line."""
    size = " x ".join(map(str, network.radix))
    channels = f"{counted(network.channels, 'channel')} of {counted(network.buffer, 'slot')}"
    first, cycles = report.first, report.cycles
    span = stretch(first, first + cycles - 1) if first else counted(cycles, "cycle")
    return f"{network.kind} {size}, {network.rule}, {channels}, {span}"


# ---- routers by their stalls


class Stalls:
    """The picture of where packets stand still."""

    title = "Where packets stand still"
    explanation = ("Of the cycles in which an input channel of a router had a packet, those in "
                   "which it stood still.")
    scale = "stalled of occupied cycles"

    def __init__(self, sheet: Sheet, report: Report) -> None:
        self.sheet, self.report = sheet, report
        self.queues = report.queues or {}
        self.longest = max(self.queues.values(), default=0)

    def top_share(self) -> float:
        """The greatest share."""
        return max(router.share() for router in self.report.routers.values())

    def cells(self, top_share: float) -> Iterator[str]:
        """Each router."""
        for number, router in sorted(self.report.routers.items()):
            yield from self.cell(number, router, top_share)

    def cell(self, number: int, router: Router, top_share: float) -> list[str]:
        """One router: its words where there is room for them, and else its share alone."""
        (x, y), side = self.sheet.corner(number), self.sheet.cell
        colour = colour_of(router.share() / top_share)
        fill, middle = ink_on(colour), x + side / 2
        if self.sheet.is_wide:
            share = f"{100 * router.share():.1f}".replace("100.0", "100")
            words = [text(middle, y + 31, share, 17, fill=fill)]
        else:
            occupied = percent(router.occupied / router.cycles)
            words = [
                text(x + 6, y + 16, str(number), 12, "start", fill),
                text(x + side - 6, y + 16, occupied, 11, "end", fill),
                bold(middle, y + 48, percent(router.share()), 18, "middle", fill),
                text(middle, y + 69, most(router.reasons), 11, fill=fill),
                text(middle, y + 88, most(router.channels), 11, fill=fill),
            ]
        square = rectangle(x, y, side, side, f'fill="{hexadecimal(colour)}" {EDGE}')
        title = f"<title>router {number}: {self.tooltip(number, router)}</title>"
        queue = self.queue(number, fill)
        return [f'<g id="router-{number}">', title, square, *words, *queue, "</g>"]

    def tooltip(self, number: int, router: Router) -> str:
        """The cycles of a router in numbers, and the queue of its node."""
        stalled, occupied = router.reasons.total(), router.occupied
        queue = self.queues.get(number)
        waits = "" if queue is None else f"; {queue:.2f} packets in the queue of its node"
        return f"{stalled} stalled of {occupied} occupied of {router.cycles} cycles{waits}"

    def queue(self, number: int, fill: str) -> Iterator[str]:
        """The queue of a node: its number where there is room for it, and a bar at the lower edge
        of the cell."""
        if not self.queues:
            return
        (x, y), side, queue = self.sheet.corner(number), self.sheet.cell, self.queues[number]
        if not self.sheet.is_wide and LEAST_QUEUE <= queue:
            yield text(x + side / 2, y + 30, f"queue {queue:.1f}", 10, fill=fill)
        if queue:
            width = (side - 4) * queue / self.longest
            lower = y + side - BAR_OF_QUEUE - 1
            yield rectangle(x + 2, lower, round(width, 1), BAR_OF_QUEUE, QUEUE_DRAWN)

    def legend(self, x: float, y: float) -> tuple[list[str], float]:
        """What a cell shows, and the reasons."""
        parts, y = self.legend_of_cells(x, y)
        parts.append(bold(x, y, "reasons: why a packet stood still"))
        main_reasons = {most(router.reasons) for router in self.report.routers.values()}
        for reason, meaning in REASONS.items():
            y += 20
            colour = BLACK if reason in main_reasons else GREY
            parts.append(text(x, y, f"{reason}: {meaning}", 13, "start", colour))
        return parts, y

    def legend_of_cells(self, x: float, y: float) -> tuple[list[str], float]:
        """What a cell shows, and where there is no room for words in it, the worst in words."""
        full = f"bar: packets in the node's queue, full at {self.longest:.1f}"
        bar = [full] if self.longest else []
        if not self.sheet.is_wide:
            waits = "queue: packets that wait at the node, on average"
            shown = [
                "router, and occupied of all cycles", *([waits] if self.queues else []),
                "stalled of occupied cycles", "main reason",
                "input channel that stood still longest",
            ]
            return column_of_words(x, y, "in a cell", [*shown, *bar])
        shown = ["stalled of occupied cycles, in percent", *bar]
        parts, y = column_of_words(x, y, "in a cell", shown)
        worst = sorted(self.report.routers.items(), key=lambda item: -item[1].share())[:LISTED]
        lines = [self.in_words(number, router) for number, router in worst
                 if router.reasons.total()]
        more, y = column_of_words(x, y, "worst: share, main reason, input channel", lines)
        longest = sorted(self.queues.items(), key=lambda item: -item[1])[:LISTED // 2]
        waiting = [f"node {node}: {queue:.1f}" for node, queue in longest if queue]
        if waiting:
            queues, y = column_of_words(x, y, "longest queues: packets on average", waiting)
            more += queues
        return parts + more, y

    def in_words(self, number: int, router: Router) -> str:
        """What a cell with words would show."""
        place = ", ".join(map(str, self.sheet.network.coordinates(number)))
        said = f"{percent(router.share())}, {most(router.reasons)}, {most(router.channels)}"
        return f"router {number} at {place}: {said}"


# ---- links by their use


# Which way a port leads on the sheet, to the right and down, and to which side of the middle its
# arrow lies: traffic keeps to the right. Ports of the third dimension lead aslant, and so does the
# way from the node and to it.
DIRECTIONS: dict[str, Point] = {
    "+0": (1, 0), "-0": (-1, 0), "+1": (0, -1), "-1": (0, 1), "+2": (0.7, -0.7), "-2": (-0.7, 0.7),
    INTO: (0.7, 0.7), OUT_OF: (0.7, 0.7),
}


def is_stub(link: Link) -> bool:
    """Whether it leads along the third dimension or to a node, which lie on no side of a router."""
    return link.port in (INTO, OUT_OF) or link.port[1] == "2"


def link_in_words(link: Link) -> str:
    """A link and its use."""
    if link.port == INTO:
        return f"node {link.router} to its router: {percent(link.use)}"
    end = "its node" if link.port == OUT_OF else f"router {link.goes_to}"
    port = LOCAL if link.port == OUT_OF else link.port
    return f"router {link.router}, {port}, to {end}: {percent(link.use)}"


def arrow(start: Point, direction: Point, length: float, width: float) -> str:
    """The corners of an arrow."""
    (x, y), (a, b) = start, direction
    shaft, head = width / 2, width
    neck = max(length - 1.6 * width, 0)
    outline = [(0, shaft), (neck, shaft), (neck, head), (length, 0), (neck, -head), (neck, -shaft),
               (0, -shaft)]
    return " ".join(f"{x + a * along - b * aside:.1f},{y + b * along + a * aside:.1f}"
                    for along, aside in outline)


class Links:
    """The picture of how much each link is used."""

    title = "How much each link is used"
    explanation = "The share of cycles in which a flit that came by the link went on."
    scale = "share of cycles with a flit"

    def __init__(self, sheet: Sheet, report: Report) -> None:
        self.sheet, self.network = sheet, sheet.network
        self.links = list(links_of(sheet.network, report))
        self.half_box = sheet.cell * 0.2

    def top_share(self) -> float:
        """The greatest share."""
        return max(link.use for link in self.links)

    def middle(self, router: int) -> Point:
        """The middle of a router's box."""
        x, y = self.sheet.corner(router)
        return x + self.sheet.cell / 2, y + self.sheet.cell / 2

    def place(self, link: Link) -> tuple[Point, float]:
        """Where the arrow of a link begins, and its length: from box to box, and a stub where it
        leads elsewhere."""
        (x, y), (a, b) = self.middle(link.router), DIRECTIONS[link.port]
        if is_stub(link):
            length = 1.1 * self.half_box
            reach = -1.5 * self.half_box - length if link.port == INTO else 1.5 * self.half_box
            return (x + a * reach, y + b * reach), length
        aside, reach = self.half_box * 0.5, self.half_box
        start = x + a * reach - b * aside, y + b * reach + a * aside
        to_x, to_y = self.middle(link.goes_to)
        is_next = (to_x - x, to_y - y) == (a * self.sheet.cell, b * self.sheet.cell)
        return start, (3 if is_next else 1.3) * self.half_box

    def cells(self, top_share: float) -> Iterator[str]:
        """Each router and each link."""
        for router in range(self.network.nodes):
            yield from self.box(router)
        for link in self.links:
            yield from self.arrow(link, top_share)

    def box(self, router: int) -> Iterator[str]:
        """A router."""
        (x, y), half = self.middle(router), self.half_box
        size = 9 if self.sheet.is_wide else 13
        yield f'<g id="router-{router}">'
        yield rectangle(x - half, y - half, 2 * half, 2 * half, f'fill="{WHITE}" {EDGE}')
        yield text(x, y + size * 0.36, str(router), size)
        yield "</g>"

    def arrow(self, link: Link, top_share: float) -> Iterator[str]:
        """A link."""
        start, length = self.place(link)
        corners = arrow(start, DIRECTIONS[link.port], length, self.half_box * 0.4)
        colour = hexadecimal(colour_of(link.use / top_share))
        yield f'<g id="link-{link.router}{link.port}">'
        yield f"<title>{link_in_words(link)}</title>"
        yield f'<polygon points="{corners}" fill="{colour}" {EDGE} stroke-width="0.7"/>'
        if not self.sheet.is_wide and not is_stub(link):
            yield self.number(link, start, length)
        yield "</g>"

    def number(self, link: Link, start: Point, length: float) -> str:
        """The share beside its arrow, in percent."""
        (x, y), (a, b) = start, DIRECTIONS[link.port]
        gap = 12 if a else 9
        x, y = x + a * length / 2 - b * gap, y + b * length / 2 + a * gap
        anchor = "middle" if a else "start" if b < 0 else "end"
        return text(x, y + 3.6 + a, f"{100 * link.use:.1f}", 10, anchor)

    def legend(self, x: float, y: float) -> tuple[list[str], float]:
        """What boxes and arrows show, and the links that are used most."""
        share = "" if self.sheet.is_wide else ", with its share in percent"
        shown = ["box: router", f"arrow: link{share}"]
        if len(self.network.radix) == 3:
            shown.append("arrow aslant: to the next plane (up), or back (down)")
        ways = {INTO: "from the upper left: from the node",
                OUT_OF: "to the lower right: to the node"}
        shown += [f"arrow {way}" for port, way in ways.items()
                  if any(link.port == port for link in self.links)]
        if self.network.kind == "torus":
            shown.append("short arrow at an edge: round to the other end")
        parts, y = column_of_words(x, y, "boxes and arrows", shown)
        busiest = sorted(self.links, key=lambda link: -link.use)[:LISTED]
        lines = [link_in_words(link) for link in busiest if link.use]
        more, y = column_of_words(x, y, "used most", lines)
        return parts + more, y - 36


# ---- the whole picture


def picture(
    name: str, network: Network, report: Report, is_of_links: bool, top: float | None
) -> str:
    """The picture of a report, where the scale ends at a share, or at the greatest that there is."""
    sheet = Sheet(network)
    drawing: Stalls | Links = Links(sheet, report) if is_of_links else Stalls(sheet, report)
    top_share = drawing.top_share() if top is None else top
    bar_x, bar_y = sheet.right + LEGEND_GAP, TOP + 14
    explained, lowest = drawing.legend(bar_x, bar_y + BAR_HEIGHT + 44)
    title = f"{drawing.title}: {name}"
    heads = [(title, 20), (described(sheet.network, report), 13), (drawing.explanation, 13)]
    widths = (LEFT + 20 + math.ceil(LETTER * size * len(words)) for words, size in heads)
    parts = [
        bold(LEFT, 28, title, 20),
        text(LEFT, 50, heads[1][0], 13, "start"),
        text(LEFT, 70, heads[2][0], 13, "start", GREY),
        # (where every share is 0, so is every part of the scale)
        *drawing.cells(top_share or 1),
        *sheet.axes(),
        *colour_bar(bar_x, bar_y, BAR_HEIGHT, drawing.scale, top_share),
        *explained,
    ]
    return svg(max(bar_x + LEGEND_WIDTH, *widths), max(sheet.bottom + BOTTOM, lowest + 24), parts)
