"""Ranks of the channels of a network, by the steps of its routing relation; or why there are none.

Ranks rise along every step from one link channel to the next that the relation permits. Where some channels are
adaptive, and have none, they rise from one channel with a rank to the next that packets come to.
"""
from collections.abc import Collection, Iterable, Iterator, Sequence
from dataclasses import replace
from graphlib import CycleError, TopologicalSorter
from pathlib import Path
from typing import NamedTuple

from .errors import Refused
from .files import named_rows, read_lines, write
from .network import Network
from .program import report
from .relation import TABLE_HEADER, Channels, Goal, Relation, Steps, of_table_rule
from .rules import table_rule

Ranks = dict[int, int]
RANK_COLUMNS = ["router", "port", "vc", "rank"]
ADAPTIVE = "adaptive"


class Dependency(NamedTuple):
    """One channel depends on another: packets of a class to a destination may go this way from the one to the other."""

    message_class: int
    destination: int
    way: list[int]

    def line(self, channels: Channels) -> str:
        """The dependency in words."""
        way = " -> ".join(map(channels.name, self.way))
        return f"class {self.message_class} to node {self.destination}: {way}"


class NoRanks(Refused):
    """Why there are no ranks, line by line; and the dependencies that close a circle, where this is why."""

    def __init__(self, *lines: str, circle: Sequence[Dependency] = ()) -> None:
        super().__init__("\n".join([f"there are no ranks: {lines[0]}", *lines[1:]]))
        self.circle = circle


class RankedSteps:
    """The steps from one channel with a rank to the next, where these channels have one."""

    def __init__(self, relation: Relation, ranked: Collection[int]) -> None:
        self.relation = relation
        self.channels = relation.channels
        network = self.channels.network
        self.goals = [(each, node) for each in range(network.classes) for node in range(network.nodes)]
        count = len(self.channels.ends) * network.channels
        self.ranked = [channel in ranked for channel in range(count)]
        self.bits = [1 << channel for channel in range(count)]

    def ahead(self, steps: Steps) -> dict[int, int]:
        """For each channel the first channels with a rank that packets come to from it, as the bits of a number."""
        found: dict[int, int] = {}
        last, met = None, 0
        for channel, onward in reversed(steps.items()):
            if onward is not last:
                last, met = onward, 0
                for following in onward:
                    met |= self.bits[following] if self.ranked[following] else found[following]
            found[channel] = met
        return found

    def before(self) -> dict[int, list[int]]:
        """For each channel with a rank those from which a step leads to it."""
        after = dict.fromkeys((channel for channel in self.channels.links() if self.ranked[channel]), 0)
        without_escape: list[tuple[Goal, int]] = []
        for goal in self.goals:
            steps = self.relation.steps(*goal)
            for channel, met in self.ahead(steps).items():
                if channel in after:
                    after[channel] |= met
            without_escape += [
                (goal, channel)
                for channel, onward in steps.items()
                if onward and not any(map(self.ranked.__getitem__, onward))
            ]
        if without_escape:
            raise NoRanks(*self.first_without_escape(without_escape))
        found: dict[int, list[int]] = {channel: [] for channel in after}
        for channel, met in after.items():
            for following in members(met):
                found[following].append(channel)
        return found

    def first_without_escape(self, entries: Iterable[tuple[Goal, int]]) -> Iterator[str]:
        """The lines for the entry that comes first of those without an escape channel."""
        places = self.channels.place_of_port

        def order(entry: tuple[Goal, int]) -> tuple[int, ...]:
            (message_class, destination), channel = entry
            router, port, vc = self.channels.entered(channel)
            return message_class, router, places[port], vc, destination

        goal, channel = min(entries, key=order)
        router, port, vc = self.channels.entered(channel)
        onward = map(self.channels.parts, self.relation.steps(*goal)[channel])
        names = " or ".join(f"{out}.{number}" for _, out, number in onward)
        yield "packets are permitted no escape channel here:"
        yield f"class {goal[0]} to node {goal[1]}, at router {router} by {port}.{vc}: it may take {names}"

    def way(self, steps: Steps, channel: int, goal: int) -> list[int] | None:
        """The channels from one with a rank to the next such one, or None."""
        ways, met = [[channel]], set()
        for way in ways:
            for following in steps.get(way[-1], ()):
                if following == goal:
                    return [*way, following]
                if not self.ranked[following] and following not in met:
                    met.add(following)
                    ways.append([*way, following])
        return None

    def circle(self, channels: list[int]) -> list[Dependency]:
        """A circle, step by step, each with a class and a destination."""
        wanted = list(zip(channels, channels[1:]))
        ways: dict[tuple[int, int], tuple[Goal, list[int]]] = {}
        for goal in self.goals:
            steps = self.relation.steps(*goal)
            for step in wanted:
                if step not in ways and (way := self.way(steps, *step)):
                    ways[step] = goal, way
            if len(ways) == len(wanted):
                break
        return [Dependency(*goal, way) for goal, way in map(ways.__getitem__, wanted)]


def members(bits: int) -> Iterator[int]:
    """The places of the bits of a number that are 1."""
    while bits:
        least = bits & -bits
        yield least.bit_length() - 1
        bits ^= least


def shortest_circle(before: dict[int, list[int]], channel: int) -> list[int]:
    """The channels of a shortest circle through one that is on a circle, which comes first and last."""
    behind, reached = {channel: channel}, [channel]
    for here in reached:
        if channel in before[here]:
            circle = [channel]
            while here != channel:
                circle.append(here)
                here = behind[here]
            return [*circle, channel]
        for other in before[here]:
            if other not in behind:
                behind[other] = here
                reached.append(other)
    raise ValueError(f"channel {channel} is on no circle")


def find_ranks(relation: Relation, numbered: set[int]) -> Ranks:
    """The rank of each channel whose number is among `numbered`."""
    channels = relation.channels
    steps = RankedSteps(relation, {channel for channel in channels.links() if channel % channels.vcs in numbered})
    before = steps.before()
    ranks: Ranks = {}
    try:
        for channel in TopologicalSorter(before).static_order():
            ranks[channel] = 1 + max((ranks[other] for other in before[channel]), default=0)
    except CycleError as error:
        circle = steps.circle(shortest_circle(before, error.args[1][0]))
        lines = (dependency.line(channels) for dependency in circle)
        raise NoRanks("these steps close a circle:", *lines, circle=circle) from None
    return ranks


def lowest(network: Network) -> list[set[int]]:
    """The numbers of the lowest channel of each class's block, of the lowest two, and so on, but not of all."""
    blocks = [network.block(message_class) for message_class in range(network.classes)]
    return [{number for block in blocks for number in block[:count]} for count in range(1, len(blocks[0]))]


def escape_choices(network: Network, escape: set[int] | None) -> list[set[int]]:
    """The sets of channel numbers that may have ranks: all, these escape channels, or without numbers the lowest."""
    if escape is None:
        return [set(range(network.channels))]
    if escape and not escape <= set(range(network.channels)):
        raise Refused(f"there is no such channel: the channels of a link are 0 to {network.channels - 1}")
    choices = [escape] if escape else lowest(network)
    if not choices:
        raise Refused("escape channels beside adaptive ones need two channels for each class at least")
    return choices


def first_found(relation: Relation, choices: list[set[int]]) -> Ranks:
    """The ranks by the first of these choices that has some; where none has, why the first has not."""
    reasons = []
    for numbered in choices:
        try:
            return find_ranks(relation, numbered)
        except NoRanks as error:
            reasons.append(error)
    raise reasons[0]


def ranks_found(relation: Relation) -> Ranks:
    """The ranks of a relation: of all channels, or else of escape channels, as the lowest of each class; where there
    are none, the reason is a circle of dependencies among all channels."""
    network = relation.channels.network
    return first_found(relation, [set(range(network.channels)), *lowest(network)])


def rank_file(channels: Channels, ranks: Ranks) -> Iterator[str]:
    """The lines of a rank file."""
    yield ",".join(RANK_COLUMNS)
    for channel in channels.links():
        router, port, vc = channels.parts(channel)
        yield f"{router},{port},{vc},{ranks.get(channel, ADAPTIVE)}"


def read_ranks(channels: Channels, path: str | Path) -> Ranks:
    """The ranks in a rank file that noc accepts for this network."""
    return {
        channels.number(int(row["router"]), row["port"], int(row["vc"])): int(row["rank"])
        for row in named_rows(read_lines(path, "rank file"), RANK_COLUMNS, "rank file", str(path))
        if row["rank"] != ADAPTIVE
    }


def table_file(relation: Relation) -> Iterator[str]:
    """The lines of a table file."""
    yield TABLE_HEADER
    for message_class in range(relation.channels.network.classes):
        for destination in relation.nodes:
            yield from relation.lines(message_class, destination)


def checked_table(network: Network, rule: str, folder: Path) -> str:
    """The path of the table of a rule for a network, which is made in a folder, and of which noc accepts the ranks."""
    shape = "x".join(map(str, network.radix))
    if not network.is_bounded:
        raise Refused(f"noc takes no {network.kind} of {shape} for {rule}: its limits are in docs/FORMATS.md")
    channels = Channels(network)
    relation = of_table_rule(channels, table_rule(network, rule))
    name = f"{rule}_{network.kind}_{shape}_channels_{network.channels}_classes_{network.classes}"
    folder.mkdir(parents=True, exist_ok=True)
    table, config, ranks = (folder / f"{name}{end}" for end in (".csv", ".toml", "_ranks.csv"))
    write(table, "".join(f"{line}\n" for line in table_file(relation)))
    write(config, replace(network, rule="table").text())
    found = find_ranks(relation, set(range(network.channels)))
    write(ranks, "".join(f"{line}\n" for line in rank_file(channels, found)))
    report("check", str(config), "--table", str(table), "--ranks", str(ranks))
    return str(table)
