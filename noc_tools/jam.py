"""The smallest jam: a traffic with which a network gets stuck, and of which nothing can be left out.

It is cut from a traffic with which the network gets stuck, by delta debugging: halves of it are left out, then quarters
and so on. The first such traffic is made for a circle of dependencies: of packets that are permitted one of its steps.
"""
import re
from collections.abc import Callable, Iterable, Iterator, Sequence
from concurrent.futures import ThreadPoolExecutor
from dataclasses import dataclass
from functools import cache, partial
from itertools import chain, compress, islice, product
from pathlib import Path
from random import Random
from tempfile import TemporaryDirectory
from threading import Lock

from .errors import Refused, refusing
from .files import read_text, write
from .network import LOCAL, Network
from .program import STUCK, call, free_processors
from .ranks import Dependency, NoRanks, ranks_found
from .relation import NOWHERE, TABLE_HEADER, Channels, Goal, Relation, Steps, checked_relation, of_network
from .runs import Config, Run, config_file
from .traffic import (
    LONGEST, MOST_PACKETS, UNIFORM, Demand, Packet, Row, below, numbers_in, read_traffic, traffic_text,
)
from .words import counted

# The traffics that are tried for a circle: so many packets for each of its dependencies and each channel of a link, of
# those that are permitted it so many that have least choice.
COPIES, REACH = (1, 2, 3, 4, 6, 8, 12, 16, 24, 32, 48, 64), (1, 2, 4, 16)
# And the loads, lengths and cycles of the uniform traffics that are tried after these.
LOADS, LENGTHS, SPAN = (0.3, 1), (1, 4, 16, LONGEST), 500
# So many runs are made at a time where processors are free.
MOST_AT_A_TIME = 8
# A source, a destination and a class.
Way = tuple[int, int, int]
Change = Callable[[list[Row]], list[Row]]
# A traffic in which a part is changed, and the place behind this part.
Variant = tuple[list[Row], int]
# Finds the first of some traffics that gets stuck.
First = Callable[[Iterator[Variant]], Variant | None]


class Excerpt:
    """The table of a relation, cut down to what packets of some ways meet: wherever else packets come to, it permits
    one channel. noc reads its table in each run, and runs of these packets do not differ."""

    def __init__(self, relation: Relation) -> None:
        self.relation = relation
        self.folder = TemporaryDirectory(prefix="noc-")
        self.paths: list[Path] = []
        self.ways: set[Way] = set()
        self.part = cache(self.part_of)

    def part_of(self, goal: Goal, sources: frozenset[int]) -> str:
        """The lines for a class and a destination, with packets from these routers."""
        message_class, destination = goal
        met = self.relation.reached(message_class, destination, sources)

        def permitted(message_class: int, channel: int, router: int, destination: int) -> Sequence[int]:
            onward = self.relation.permitted(message_class, channel, router, destination)
            return onward if channel in met else onward[:1]

        lines = Relation(self.relation.channels, permitted).lines(message_class, destination)
        return "".join(f"{line}\n" for line in lines)

    def file_for(self, ways: set[Way]) -> Path:
        """A table for these ways; another one is made where the last one lacks some, or has twice as many."""
        if not (self.paths and ways <= self.ways and len(self.ways) < 2 * len(ways)):
            self.ways = ways
            network = self.relation.channels.network
            goals = product(range(network.classes), range(network.nodes))
            sources: dict[Goal, set[int]] = {goal: set() for goal in goals}
            for source, destination, message_class in ways:
                sources[message_class, destination].add(source)
            parts = (self.part(goal, frozenset(some)) for goal, some in sources.items())
            self.paths.append(Path(self.folder.name) / f"table_{len(self.paths)}.csv")
            write(self.paths[-1], "".join([f"{TABLE_HEADER}\n", *parts]))
        return self.paths[-1]


class Trials:
    """A network with which traffics are tried, as many at a time as processors are free."""

    def __init__(self, config: Config, relation: Relation) -> None:
        self.config = config_file(config)
        self.excerpt = Excerpt(relation) if relation.channels.network.rule == "table" else None
        self.known: dict[tuple[Row, ...], bool] = {}
        self.lock = Lock()
        self.width = min(free_processors(), MOST_AT_A_TIME)

    def table_for(self, rows: Iterable[Row]) -> str | None:
        """The path of a table for these packets, where the network has one."""
        with self.lock:
            return str(self.excerpt.file_for({row[:3] for row in rows})) if self.excerpt else None

    def is_stuck(self, rows: Sequence[Row]) -> bool:
        """Whether a run of these packets gets stuck; how those of different nodes are numbered makes no difference."""
        queues = tuple(sorted(rows, key=lambda row: row[0]))
        if queues not in self.known:
            table = self.table_for(rows)
            words = "run", self.config.path, "/dev/stdin", *(["--table", table] if table else [])
            self.known[queues] = call(*words, "--report", "summary", given=traffic_text(rows))[0] == STUCK
        return self.known[queues]

    def first_stuck(self, variants: Iterator[Variant]) -> Variant | None:
        """The first of these traffics that gets stuck."""
        with ThreadPoolExecutor(self.width) as pool:
            while some := list(islice(variants, self.width)):
                stuck = pool.map(self.is_stuck, [rows for rows, _ in some])
                if found := next(compress(some, stuck), None):
                    return found
        return None

    def without_bystanders(self, rows: list[Row]) -> list[Row]:
        """Of a traffic that gets stuck the packets that are in the network at the end where these do, or those that
        ever came into it."""
        packets = (Packet(number, *row) for number, row in enumerate(rows))
        run = Run(self.config.path, packets, self.table_for(rows))
        last = run.network.cycles - 1
        inside = {finding.packet for finding in run.trace(first=last, last=last)}
        left = [packet.row for packet in run.packets if packet.number in inside]
        came = [packet.row for packet in run.packets if packet.number in inside or packet.out is not None]
        return next(filter(self.is_stuck, (left, came)), rows)


# ---- a traffic for a circle


def sources(relation: Relation, steps: Steps, channel: int) -> list[int]:
    """The routers from which packets come to a channel by these steps."""
    reaching = {channel}
    for before, onward in reversed(steps.items()):
        if not reaching.isdisjoint(onward):
            reaching.add(before)
    parts = map(relation.channels.parts, sorted(reaching))
    return list(dict.fromkeys(router for router, port, _ in parts if port == LOCAL))


def ways_over(relation: Relation, circle: Sequence[Dependency]) -> list[list[Way]]:
    """For each dependency of a circle the packets that may go over it; those that have least choice come first, and of
    these the ones that go least far."""
    network = relation.channels.network
    found: list[list[tuple[int, int, Way]]] = [[] for _ in circle]
    for message_class in range(network.classes):
        for destination in range(network.nodes):
            steps = relation.steps(message_class, destination)
            for ways, (_, _, (channel, *onward)) in zip(found, circle):
                if onward[0] in steps.get(channel, ()):
                    for source in sources(relation, steps, channel):
                        hops = network.distance(source, destination)
                        ways.append((len(steps[channel]), hops, (source, destination, message_class)))
    return [[way for *_, way in sorted(ways)] for ways in found]


def traffics_for(network: Network, ways: Sequence[Sequence[Way]]) -> Iterator[list[Row]]:
    """Traffics of packets over a circle, at first one for each dependency, and then ever more, by chance; and after
    these, packets of all nodes to all others."""
    yield [(*first, LONGEST, 0) for first, *_ in ways]
    lengths = 1, network.buffer, LONGEST
    for number, (length, copies, reach) in enumerate(product(lengths, COPIES, REACH)):
        random = Random(number)
        nearest = [choice[:reach] for choice in ways]
        rows = [(*choice[below(random, len(choice))], length, 0) for choice in nearest * network.channels * copies]
        random.shuffle(rows)
        yield rows[:MOST_PACKETS]
    classes = tuple(range(network.classes))
    for load, length in product(LOADS, LENGTHS):
        demand = Demand(UNIFORM, load, length, cycles=min(network.cycles, SPAN), classes=classes)
        yield list(islice(demand.rows(network), MOST_PACKETS))


def jam_on(relation: Relation, circle: Sequence[Dependency], first: First) -> list[Row]:
    """A traffic that gets stuck, made for a circle."""
    network = relation.channels.network
    found = first((rows, 0) for rows in traffics_for(network, ways_over(relation, circle)))
    if found is not None:
        return found[0]
    cycles = counted(network.cycles, "cycle")
    made = f"there is a circle of dependencies, but no traffic that was made for it gets stuck within {cycles}"
    raise Refused(f"{made}; other escape channels may have ranks (noc-tools ranks --escape C,..)")


# ---- and what is cut from it


def variants(rows: list[Row], start: int, size: int, change: Change) -> Iterator[Variant]:
    """A traffic with one part of this size changed in turn, from a place on."""
    for begin in range(start, len(rows), size):
        part = change(rows[begin:begin + size])
        other = [*rows[:begin], *part, *rows[begin + size:]]
        if other and other != rows:
            yield other, begin + len(part)


def changed(rows: list[Row], size: int, change: Change, first: First) -> list[Row]:
    """Of a traffic that gets stuck one that does, too, in which parts are changed: of half of this size, then of a
    quarter, and at last single packets, of which none can be changed any more."""
    is_changed = True
    while 1 < size or is_changed:
        size, is_changed, start = max(1, size // 2), False, 0
        while found := first(variants(rows, start, size, change)):
            (rows, start), is_changed = found, True
    return rows


def fewest(rows: list[Row], first: First) -> list[Row]:
    """Of a traffic that gets stuck a part that does, too, and from which no packet can be left out."""
    return changed(rows, len(rows), lambda part: [], first)


def shorter(rows: list[Row], by: int) -> list[Row]:
    """The packets, those that have more flits than these without so many."""
    return [(*row[:3], row[3] - by, row[4]) if by < row[3] else row for row in rows]


def shortest(rows: list[Row], first: First) -> list[Row]:
    """A traffic that gets stuck with shorter packets, each of which alone is as short as it can be at last."""
    rows = changed(rows, 2 * len(rows), lambda part: [(*row[:3], 1, row[4]) for row in part], first)
    by = LONGEST
    while by := by // 2:
        rows = changed(rows, 1, partial(shorter, by=by), first)
    return rows


def smallest(rows: list[Row], first: First) -> list[Row]:
    """Of a traffic that gets stuck one from which no packet can be left out, nor a flit be taken from one."""
    rows = fewest(rows, first)
    while (short := shortest(rows, first)) != rows:
        rows = fewest(short, first)
    return rows


# ---- jams


@dataclass(frozen=True)
class Jam:
    """The packets of a jam, those from which it was cut, and the circle for which they were made, if there is one."""

    rows: list[Row]
    cut_from: list[Row]
    circle: Sequence[Dependency] = ()

    def told(self) -> str:
        """What it is, in a sentence."""
        made = f", made for a circle of {len(self.circle)} dependencies" if self.circle else ""
        return f"{size_of(self.rows)} get stuck (cut from {size_of(self.cut_from)}{made})"


def size_of(rows: Sequence[Row]) -> str:
    """How many packets and flits there are."""
    return f"{counted(len(rows), 'packet')} with {counted(sum(row[3] for row in rows), 'flit')} in all"


def cut(trials: Trials, rows: list[Row], circle: Sequence[Dependency] = ()) -> Jam:
    """The jam that is left of a traffic that gets stuck."""
    return Jam(smallest(trials.without_bystanders(rows), trials.first_stuck), rows, circle)


def jam_of_circle(config: str, table: str | None = None) -> Jam:
    """A jam made for a circle of a network that has no ranks."""
    relation = checked_relation(config, table)
    try:
        ranks_found(relation)
    except NoRanks as reason:
        trials = Trials(config, relation)
        return cut(trials, jam_on(relation, reason.circle, trials.first_stuck), reason.circle)
    raise Refused("no traffic gets stuck: the network has ranks (noc-tools certify --find)")


# ---- a jam in files

# So many packets has a jam at most of which it is looked at whether anything can be left out: that takes up to two runs
# for each of them.
MOST_TRIED = 2000
# A dependency of a circle, as `Dependency.line` has it.
STEP = re.compile(r"class (\d{1,9}) to node (\d{1,9}): (.+)", re.ASCII)


def circle_in(relation: Relation, path: str) -> list[Dependency]:
    """The circle of dependencies in a file, one in each line."""
    channels, name = relation.channels, Path(path).name
    numbers = {channels.name(channel): channel for channel in channels.links()}
    found = []
    for line in read_text(path, "circle", name).splitlines():
        parts = STEP.fullmatch(line)
        way = [numbers.get(word, NOWHERE) for word in parts[3].split(" -> ")] if parts else []
        found.append(Dependency(int(parts[1]), int(parts[2]), way) if parts else Dependency(0, 0, way))
    ways = [one.way for one in found]
    is_whole = all(1 < len(way) for way in ways) and len({way[0] for way in ways}) == len(ways)
    if not ways or not is_whole or any(way[-1] != after[0] for way, after in zip(ways, [*ways[1:], ways[0]])):
        raise Refused(f"the lines of {name} close no circle")
    if not all(are_permitted(relation, goal, found) for goal in {one[:2] for one in found}):
        raise Refused(f"{name} has a line that is no dependency of this network")
    return found


def are_permitted(relation: Relation, goal: Goal, circle: Iterable[Dependency]) -> bool:
    """Whether packets of a class to a destination may go their ways of a circle."""
    network = relation.channels.network
    if network.classes <= goal[0] or network.nodes <= goal[1]:
        return False
    steps = relation.steps(*goal)
    ways = [one.way for one in circle if one[:2] == goal]
    return all(onward in steps.get(channel, ()) for way in ways for channel, onward in zip(way, way[1:]))


def jam_in(config: str, circle: str, traffic: str, table: str | None = None) -> Jam:
    """The jam of a circle and a traffic in files, of which nothing can be left out.

    What is looked at takes a run of the traffic and up to two for each packet, and of packets as a search makes them:
    so their number, and the cycles of the configuration, say how long it takes.
    """
    name = Path(traffic).name
    with refusing(ValueError, f"{name} has a packet that is not five numbers: "):
        rows = [numbers_in(row) for row in read_traffic(traffic, name)]
    if MOST_TRIED < len(rows):
        raise Refused(f"{name} has {len(rows)} packets: of more than {MOST_TRIED} it is not tried what can be left out")
    if any(SPAN <= due for *_, due in rows):
        raise Refused(f"{name} has a packet that is due in cycle {SPAN} or later, as no jam has that was searched")
    given = ["--table", table] if table else []
    if call("run", config, traffic, *given, "--report", "summary")[0] != STUCK:
        raise Refused(f"a run of {name} does not get stuck")
    relation = checked_relation(config, table)
    found = circle_in(relation, circle)
    changes: list[Change] = [lambda part: [], partial(shorter, by=1)]
    less = chain.from_iterable(variants(rows, 0, 1, change) for change in changes)
    if Trials(config, relation).first_stuck(less):
        raise Refused(f"a run of {name} gets stuck without one of its packets too, or with one that is a flit shorter")
    return Jam(rows, rows, found)


def jam_within(config: str, traffic: str, table: str | None = None) -> Jam:
    """The jam that is left of a traffic."""
    run = Run(config, traffic, table)
    if run.status != STUCK:
        raise Refused(f"a run of {run.traffic.name} does not get stuck")
    relation = of_network(Channels(run.network), run.table.path if run.table else None)
    return cut(Trials(run.config.path, relation), [packet.row for packet in run.packets])
