"""The picture of a channel dependency graph: its channels in the order of their ranks, or a circle in it.

A small graph is drawn with a column for each rank, so that each dependency is an arrow to the right. Of a large one
each cell of a square says how many dependencies lead from channels of one rank to channels of another.
"""
import math
from collections import Counter, defaultdict
from collections.abc import Iterable, Iterator, Sequence
from dataclasses import dataclass, field
from html import escape
from itertools import pairwise

from .errors import Refused
from .picture import BLACK, GREY, WHITE, bold, colour_of, hexadecimal, line, rectangle, svg, text, upwards
from .ranks import Dependency, RankedSteps, Ranks
from .relation import Channels, Relation
from .words import counted

# More boxes or arrows than that are drawn as a square.
MOST_BOXES, MOST_ARROWS = 200, 500
BOX_WIDTH, BOX_HEIGHT, ROW, GAP = 84, 20, 30, 58
LEFT, TOP, BOTTOM = 24, 84, 40
# Before a box a line ends, where the tip covers it.
TIP = 5
SQUARE, CORNER, KEY_WIDTH = 720, 110, 900
# The ports of each dimension in two shades of a colour that all eyes tell from the others.
COLOURS = {
    "+0": "#0072b2", "-0": "#56b4e9", "+1": "#d55e00", "-1": "#e69f00", "+2": "#007a56", "-2": "#59c39b",
}


@dataclass(eq=False)
class Box:
    """Channels of one link that have one rank and depend on the same, and on which the same depend.

    A box without channels is a place where arrows pass the column of a rank.
    """

    channels: list[int]
    rank: int
    ahead: list["Box"] = field(default_factory=list)
    behind: list["Box"] = field(default_factory=list)
    row: float = 0


class Graph:
    """The channels that have ranks, and for each those that depend on it: from which a step leads to it."""

    def __init__(self, relation: Relation, ranks: Ranks) -> None:
        self.channels, self.ranks = relation.channels, ranks
        self.before = RankedSteps(relation, ranks).before()
        if any(ranks[channel] <= ranks[other] for channel, behind in self.before.items() for other in behind):
            raise Refused("the ranks do not rise along the channel dependency graph")
        self.dependencies = sum(map(len, self.before.values()))
        self.levels = sorted(set(ranks.values()))

    def boxes(self) -> list[Box]:
        """All boxes."""
        after: dict[int, list[int]] = {channel: [] for channel in self.before}
        for channel, behind in self.before.items():
            for other in behind:
                after[other].append(channel)
        found: dict[object, Box] = {}
        of: dict[int, Box] = {}
        for channel, rank in self.ranks.items():
            link = channel // self.channels.vcs
            alike = rank, link, frozenset(after[channel]), frozenset(self.before[channel])
            of[channel] = found.setdefault(alike, Box([], rank))
            of[channel].channels.append(channel)
        for box in found.values():
            box.ahead = distinct(of[channel] for channel in after[box.channels[0]])
            box.behind = distinct(of[channel] for channel in self.before[box.channels[0]])
        return list(found.values())

    def picture(self) -> str:
        """The picture."""
        boxes = self.boxes()
        arrows = sum(len(box.ahead) for box in boxes)
        if len(boxes) <= MOST_BOXES and arrows <= MOST_ARROWS:
            return "".join(Columns(self, boxes).picture())
        return "".join(square(self))

    def size(self) -> str:
        """How large it is, in words."""
        channels, ranks = counted(len(self.ranks), "channel"), counted(len(self.levels), "rank")
        return f"{channels} of {ranks}, {self.dependencies} dependencies"


def distinct(boxes: Iterable[Box]) -> list[Box]:
    """Boxes without those that came before."""
    return list(dict.fromkeys(boxes))


def short(channels: Channels, numbers: Sequence[int]) -> str:
    """Channels of one link as a box names them: the router, the port, and the numbers of the channels."""
    router, port, _ = channels.parts(numbers[0])
    return f"{router} {port}.{','.join(str(channels.parts(number)[2]) for number in numbers)}"


def box_at(x: float, y: float, channels: Channels, numbers: Sequence[int], title: str) -> list[str]:
    """A box with its left edge and middle there, and what is said of it."""
    colour = COLOURS[channels.parts(numbers[0])[1]]
    return [
        f"<g><title>{escape(title)}</title>",
        rectangle(x, y - BOX_HEIGHT / 2, BOX_WIDTH, BOX_HEIGHT, f'rx="3" fill="{WHITE}" stroke="{colour}" '
                                                                'stroke-width="2"'),
        text(x + BOX_WIDTH / 2, y + 4, short(channels, numbers), 12), "</g>",
    ]


def key_of(channels: Channels, x: float, y: float) -> list[str]:
    """What colours and names mean."""
    said = "12 +0.1 is router 12, output port +0, virtual channel 1. Colours are those of ports:"
    parts, x = [text(x, y, said, 12, "start")], x + 6.1 * len(said)
    for port in channels.ports[:-1]:
        parts += [rectangle(x, y - 9, 12, 10, f'fill="{COLOURS[port]}"'), text(x + 16, y, port, 12, "start")]
        x += 48
    return parts


class Columns:
    """A graph with a column for each rank."""

    def __init__(self, graph: Graph, boxes: list[Box]) -> None:
        self.graph = graph
        self.columns = [[box for box in boxes if box.rank == rank] for rank in graph.levels]
        self.place = {rank: number for number, rank in enumerate(graph.levels)}
        # Where the arrows from a box pass a column, and with what each box and each such place is joined on both sides.
        self.passed: dict[tuple[Box, int], Box] = {}
        self.to_left: dict[Box, list[Box]] = defaultdict(list)
        self.to_right: dict[Box, list[Box]] = defaultdict(list)
        self.ways = {(box, other): self.way(box, other) for box in boxes for other in box.ahead}
        self.rows = max(map(len, self.columns))
        for column in self.columns:
            self.spread(column)
        for _ in range(4):
            self.straighten(self.columns, self.to_left)
            self.straighten(self.columns[::-1], self.to_right)

    def way(self, box: Box, other: Box) -> list[Box]:
        """The boxes by which an arrow goes: its two ends, and a place in each column between them."""
        way = [box]
        for place in range(self.place[box.rank] + 1, self.place[other.rank]):
            if (box, place) not in self.passed:
                self.passed[box, place] = Box([], self.graph.levels[place])
                self.columns[place].append(self.passed[box, place])
            way.append(self.passed[box, place])
        way.append(other)
        for one, following in pairwise(way):
            self.to_right[one].append(following)
            self.to_left[following].append(one)
        return way

    def spread(self, column: list[Box]) -> None:
        """Gives the boxes of a column their rows, in their order, alike above and below the middle."""
        for number, box in enumerate(column):
            box.row = number + (self.rows - len(column)) / 2

    def straighten(self, columns: list[list[Box]], joined: dict[Box, list[Box]]) -> None:
        """Puts the boxes of each column in the order of the boxes with which they are joined on one side."""
        for column in columns:
            middle = {box: sum(one.row for one in joined[box]) / len(joined[box]) for box in column if box in joined}
            column.sort(key=lambda box: middle.get(box, box.row))
            self.spread(column)

    def corner(self, box: Box) -> tuple[float, float]:
        """The left edge and the middle of a box."""
        return LEFT + self.place[box.rank] * (BOX_WIDTH + GAP), TOP + (box.row + 0.5) * ROW

    def arrow(self, box: Box, other: Box) -> str:
        """A dependency from one box to another."""
        curves = []
        for one, following in pairwise(self.ways[box, other]):
            (x, y), (to, end) = self.corner(one), self.corner(following)
            x, stop = x + BOX_WIDTH, to - (TIP if following is other else 0)
            bend = (to - x) / 2
            curves.append(f"{x:g},{y:g} C{x + bend:g},{y:g} {to - bend:g},{end:g} {stop:g},{end:g}")
        path = " L".join(curves)
        colour = COLOURS[self.graph.channels.parts(box.channels[0])[1]]
        names = " -> ".join(short(self.graph.channels, one.channels) for one in (box, other))
        tip = f'<path d="M{to - 7:g},{end - 3:g} L{to:g},{end:g} L{to - 7:g},{end + 3:g} z" fill="{colour}"/>'
        drawn = f'fill="none" stroke="{colour}" stroke-opacity="0.6" stroke-width="1.2"'
        return f'<g class="dependency"><title>{escape(names)}</title><path d="M{path}" {drawn}/>{tip}</g>'

    def title(self, box: Box) -> str:
        """All of a box in words."""
        ahead = ", ".join(short(self.graph.channels, one.channels) for one in box.ahead) or "no further channel"
        return f"{short(self.graph.channels, box.channels)}: rank {box.rank}; leads to {ahead}"

    def picture(self) -> Iterator[str]:
        """The picture."""
        channels, boxes = self.graph.channels, [box for column in self.columns for box in column if box.channels]
        width = max(LEFT * 2 + len(self.columns) * (BOX_WIDTH + GAP) - GAP, KEY_WIDTH)
        parts = [bold(LEFT, 24, f"The channel dependency graph in the order of the ranks: {self.graph.size()}", 15)]
        parts += key_of(channels, LEFT, 46)
        for rank, place in self.place.items():
            x = LEFT + place * (BOX_WIDTH + GAP) + BOX_WIDTH / 2
            parts.append(text(x, TOP - 8, f"rank {rank}", 12, fill=GREY))
        parts += [self.arrow(box, other) for box in boxes for other in box.ahead]
        for box in boxes:
            parts += box_at(*self.corner(box), channels, box.channels, self.title(box))
        yield svg(width, TOP + self.rows * ROW + BOTTOM, parts)


def square(graph: Graph) -> Iterator[str]:
    """A large graph: how many dependencies lead from channels of one rank to channels of another."""
    place = {rank: number for number, rank in enumerate(graph.levels)}
    counts = Counter(
        (place[graph.ranks[other]], place[graph.ranks[channel]])
        for channel, behind in graph.before.items() for other in behind
    )
    side, most = SQUARE / len(place), max(counts.values(), default=1)
    parts = [
        bold(LEFT, 24, f"The channel dependency graph by ranks: {graph.size()}", 15),
        text(LEFT, 46, "A cell: how many dependencies lead from channels of the rank on the left to channels of the "
                       "rank on top.", 12, "start"),
        text(LEFT, 64, "All lie above the diagonal, where the rank on top is the greater one. "
                       f"The darkest cell has {most}.", 12, "start"),
        rectangle(CORNER, CORNER, SQUARE, SQUARE, f'fill="#f4f4f4" stroke="{GREY}"'),
        f'<path d="M{CORNER},{CORNER} h{SQUARE} v{SQUARE} z" fill="{WHITE}"/>',
    ]
    for (x, y), count in sorted(counts.items()):
        colour = hexadecimal(colour_of(0.2 + 0.8 * count / most))
        said = f"rank {graph.levels[x]} to rank {graph.levels[y]}: {counted(count, 'dependency').replace('ys', 'ies')}"
        cell = rectangle(CORNER + y * side, CORNER + x * side, side, side, f'fill="{colour}"')
        parts.append(f'<g class="dependency"><title>{said}</title>{cell}</g>')
    parts.append(line(CORNER, CORNER, CORNER + SQUARE, CORNER + SQUARE, f'stroke="{GREY}"'))
    step = math.ceil(14 / side)
    for number, rank in list(enumerate(graph.levels))[::step]:
        middle = CORNER + (number + 0.5) * side
        parts += [text(CORNER - 6, middle + 4, str(rank), 10, "end"), *upwards(middle + 4, CORNER - 16, str(rank))]
    below = CORNER + SQUARE * 0.75
    parts.append(text(CORNER + SQUARE * 0.3, below, "Here a dependency would lead to no greater rank: there is none.",
                      13, fill=BLACK))
    yield svg(CORNER + SQUARE + LEFT, CORNER + SQUARE + LEFT, parts)


# ---- a circle


def circle_picture(channels: Channels, circle: Sequence[Dependency]) -> str:
    """The dependencies of a circle, as arrows from channel to channel round it."""
    way = [channel for dependency in circle for channel in dependency.way[:-1]]
    radius = max(130, len(way) * 26)
    across, height = max(radius + BOX_WIDTH + 110, KEY_WIDTH / 2), 2 * radius + 150
    middle = radius + 90

    def at(number: float, far: float) -> tuple[float, float]:
        angle = 2 * math.pi * number / len(way) - math.pi / 2
        return across + far * math.cos(angle), middle + far * math.sin(angle)

    parts = [bold(LEFT, 24, f"A circle of {len(circle)} dependencies", 15)]
    place = 0
    for dependency in circle:
        for channel in dependency.way[:-1]:
            x, y = at(place + 0.5, radius)
            colour = COLOURS[channels.parts(channel)[1]]
            parts.append(round_arrow(at(place, radius), at(place + 1, radius), (x, y), colour))
            place += 1
        said = f"class {dependency.message_class} to node {dependency.destination}"
        x, y = at(place - len(dependency.way) / 2 + 0.5, radius + 16)
        anchor = "middle" if abs(x - across) < 30 else ("start" if across < x else "end")
        parts.append(text(x, y + 4, said, 12, anchor))
    for number, channel in enumerate(way):
        x, y = at(number, radius)
        parts += box_at(x - BOX_WIDTH / 2, y, channels, [channel], channels.name(channel))
    return svg(2 * across, height, [*parts, *key_of(channels, LEFT, height - 16)])


def round_arrow(start: tuple[float, float], end: tuple[float, float], bend: tuple[float, float], colour: str) -> str:
    """An arrow along the circle, with its tip in the middle, which no box hides."""
    (x, y), (to, down), (a, b) = start, end, bend
    angle = math.degrees(math.atan2(down - y, to - x))
    tip = f'<path d="M-7,-5 L6,0 L-7,5 z" transform="translate({a:.1f} {b:.1f}) rotate({angle:.1f})" fill="{colour}"/>'
    path = f"M{x:.1f},{y:.1f} Q{2 * a - (x + to) / 2:.1f},{2 * b - (y + down) / 2:.1f} {to:.1f},{down:.1f}"
    return f'<g class="dependency"><path d="{path}" fill="none" stroke="{colour}" stroke-width="2"/>{tip}</g>'
