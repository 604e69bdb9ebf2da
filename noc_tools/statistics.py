"""The figures of a run that a study reports: loads, latency in queue and network, hops, and if it was steady."""
import math
import re
from bisect import bisect_right
from collections import Counter
from collections.abc import Callable, Iterable, Sequence
from dataclasses import dataclass
from functools import cached_property
from itertools import chain, compress
from operator import itemgetter, sub
from typing import NamedTuple

from .errors import Refused
from .network import Network
from .traffic import Packet

# The cycle of what did not happen, and of what is not known: later than all cycles.
NEVER = 1 << 62
# In a trace the cycle and the packet where a head is routed that came in at its node.
CAME_IN = re.compile(rb"\n([0-9]+),[0-9]+,local,[0-9],Routed,([0-9]+)")


class Columns(NamedTuple):
    """A list for each fact, in the order of the packets."""

    sources: Sequence[int]
    destinations: Sequence[int]
    classes: Sequence[int]
    lengths: Sequence[int]
    dues: Sequence[int]
    outs: Sequence[int]
    entries: Sequence[int]

    def chosen(self, flags: Iterable[bool]) -> "Columns":
        """The packets that have a true flag."""
        kept = list(flags)
        return Columns(*(list(compress(column, kept)) for column in self))

    @classmethod
    def of_packets(cls, packets: Iterable[Packet]) -> "Columns":
        """The columns of packets."""
        rows = [
            (*packet.row, *(NEVER if cycle is None else cycle for cycle in (packet.out, packet.came_in)))
            for packet in packets
        ]
        return cls(*zip(*rows)) if rows else cls(*([()] * len(cls._fields)))


def outs_in(report: bytes, dues: Iterable[int]) -> list[int]:
    """When packets that are due then were out, by the latencies that end the lines of a report."""
    latencies = [line.rpartition(b",")[2] for line in report.split(b"\n")[1:-1]]
    return [NEVER if latency == b"-" else due + int(latency) for due, latency in zip(dues, latencies)]


def entries_in(trace: bytes, count: int) -> list[int]:
    """When each of so many packets came in by the lines of a trace: in the cycle in which its head is routed first."""
    found = [NEVER] * count
    for cycle, packet in CAME_IN.findall(trace):
        found[int(packet)] = int(cycle)
    return found


TOLERANCE = 20.0
# A network that brings out less than this part of what is offered does not keep up. Two counts that only chance tells
# apart seldom differ by more than so many standard deviations, each the root of their sum: one in 700 pairs, and where
# the nodes of a network are looked at one by one, one in 30,000.
KEPT_UP = 0.95
DEVIATIONS, DEVIATIONS_OF_ONE = 3, 4
# Of so many packets a mean wait is looked at; and a channel drains through so many cycles behind the flits of a packet.
LEAST_OF_A_NODE, DRAINS = 10, 4
# The cycles that a hop takes where nothing is in the way.
HOP = 3
PERCENTS = {"median": 50, "p95": 95, "p99": 99, "max": 100}
# What is measured of a packet: the columns of the latency itself bear no name before theirs.
MEASURES = ("latency", "queue", "network", "hops")
# Cycles from or to one that never came are more than this.
UNKNOWN = NEVER // 2
# No figure of a run is so great.
TOO_MUCH = 1e15
Number = int | float | None


class Window(NamedTuple):
    """The cycles from `first` to before `end`."""

    first: int
    end: int

    def has(self, cycle: int | None) -> bool:
        """Whether a cycle is one of them."""
        return cycle is not None and self.first <= cycle < self.end

    def all_in(self, cycles: Iterable[int]) -> list[bool]:
        """Whether each of some cycles is one of them."""
        first, end = self.first, self.end
        return [first <= cycle < end for cycle in cycles]

    @property
    def cycles(self) -> int:
        """How many they are."""
        return self.end - self.first

    def halves(self) -> tuple["Window", "Window"]:
        """The first and the second half."""
        middle = self.first + self.cycles // 2
        return Window(self.first, middle), Window(middle, self.end)

    def fitted(self, cycles: int, shorter: int) -> "Window":
        """The same part of a run that has fewer cycles."""
        first = self.first * shorter // cycles
        return Window(first, max(self.end * shorter // cycles, first + 1))


def middle_window(cycles: int) -> Window:
    """The middle third of a run: the network has filled before, and has time to bring the packets out."""
    return Window(cycles // 3, max(2 * cycles // 3, cycles // 3 + 1))


def window_within(words: str, cycles: int) -> Window:
    """The window A:B of a run."""
    first, colon, end = words.partition(":")
    if not (colon and first.isdecimal() and end.isdecimal() and int(first) < int(end) <= cycles):
        bounds = f"A below B, and B at most the {cycles} cycles of the run"
        raise Refused(f"a window is A:B with {bounds}, not '{words}'")
    return Window(int(first), int(end))


def end_of(packets: Columns, network: Network) -> int:
    """The cycles of a run: one that drained had more than its configuration says."""
    return max([network.cycles, *(out + 1 for out in packets.outs if out < NEVER)])


# ---- figures


def mean(numbers: Sequence[float]) -> float | None:
    """The mean, where there are numbers."""
    return sum(numbers) / len(numbers) if numbers else None


def rank_of(count: int, percent: int) -> int:
    """Which of so many numbers in order is a percentile of them, from 1 on."""
    return max(-(-percent * count // 100), 1)


def percentile(ordered: Sequence[int], count: int, percent: int) -> int | None:
    """The least number that so many percent of `count` do not exceed, where those that are known are these."""
    rank = rank_of(count, percent)
    return ordered[rank - 1] if rank <= len(ordered) else None


class Spread(NamedTuple):
    """How a number is spread over some packets; None where there is no such figure."""

    mean: float | None
    median: int | None
    p95: int | None
    p99: int | None
    max: int | None


def spread(numbers: Iterable[int], count: int) -> Spread:
    """The spread over `count` packets, of which those without a number have a greater one than all others."""
    ordered = sorted(number for number in numbers if number < UNKNOWN)
    return Spread(mean(ordered), *(percentile(ordered, count, percent) for percent in PERCENTS.values()))


# ---- how well a figure is known

# A window is cut into so many batches, where it has so many packets or more.
BATCHES, LEAST_PACKETS = 10, 100
# Up to so many runs say less of how well a mean over them is known than the batches of each.
MOST_BY_BATCHES = 4
# The number that Student's t exceeds, either way, in 5 percent of cases, for 1, 2, .. degrees of freedom. For more of
# them it is nearly the last number below and the second one divided by them.
STUDENT = (
    12.706, 4.303, 3.182, 2.776, 2.571, 2.447, 2.365, 2.306, 2.262, 2.228, 2.201, 2.179, 2.160, 2.145, 2.131, 2.120,
    2.110, 2.101, 2.093, 2.086, 2.080, 2.074, 2.069, 2.064, 2.060, 2.056, 2.052, 2.048, 2.045, 2.042,
)
NORMAL, CORRECTION = 1.960, 2.40


def student(degrees: int) -> float:
    """By how many standard errors a mean is off in 5 percent of cases, by degrees of freedom."""
    return STUDENT[degrees - 1] if degrees <= len(STUDENT) else NORMAL + CORRECTION / degrees


def margin(numbers: Sequence[float]) -> float | None:
    """Half the width of the 95 percent interval of confidence for what independent numbers estimate by their mean. None
    for fewer than two."""
    if len(numbers) < 2:
        return None
    centre = sum(numbers) / len(numbers)
    variance = sum((number - centre) ** 2 for number in numbers) / (len(numbers) - 1)
    return student(len(numbers) - 1) * math.sqrt(variance / len(numbers))


def batches(numbers: Sequence[int]) -> list[Sequence[int]]:
    """Numbers in a row cut into batches of nearly the same size."""
    cuts = [len(numbers) * place // BATCHES for place in range(BATCHES + 1)]
    return [numbers[first:end] for first, end in zip(cuts, cuts[1:])]


class Margins(NamedTuple):
    """How well a mean and percentiles are known; None where this is not known."""

    mean: float | None
    median: float | None
    p95: float | None
    p99: float | None


def margins(parts: Sequence[Sequence[int]]) -> Margins:
    """The margins of the mean of some numbers and of their percentiles, by their batches."""
    if not parts:
        return Margins(*([None] * len(Margins._fields)))
    means, in_order = [sum(part) / len(part) for part in parts], [sorted(part) for part in parts]
    ordered = sorted(chain.from_iterable(parts))
    percentiles = (margin_of_percentile(in_order, ordered, PERCENTS[name]) for name in Margins._fields[1:])
    return Margins(margin(means), *percentiles)


def margin_of_percentile(parts: Sequence[Sequence[int]], ordered: Sequence[int], percent: int) -> float | None:
    """The margin of a percentile of numbers, which are given in order, and so are their batches: how far the numbers
    are away whose ranks differ from its own by what chance explains, as far as the batches tell this by what part of
    each is at most this number, or below it. None where there is no number of such a rank."""
    count, rank = len(ordered), rank_of(len(ordered), percent)
    middle = ordered[rank - 1]
    shares = ([bisect_right(part, most) / len(part) for part in parts] for most in (middle - 1, middle))
    off = math.ceil(count * max(margin(of_all) or 0.0 for of_all in shares))
    if rank <= off or count < rank + off:
        return None
    return max(middle - ordered[rank - 1 - off], ordered[rank - 1 + off] - middle)


def margin_over(figures: Sequence[float], own: Sequence[float | None], step: float = 0.0) -> float | None:
    """The margin of the mean of a figure over some runs, which have these figures with these margins: from some runs
    on that of independent numbers; of fewer the margins of all together. Where a figure comes in steps the mean may be
    off by such a step, whatever the number of runs, but by no more than the figure of each."""
    known = [number for number in own if number is not None]
    if MOST_BY_BATCHES < len(figures):
        found = margin(figures)
    else:
        found = math.hypot(*known) / len(known) if 0 < len(known) == len(figures) else None
    return found if found is None else max(found, min([step, *([sum(known) / len(known)] if known else [])]))


def step_of(name: str) -> float:
    """The steps in which a figure of the latency comes, in cycles: of a percentile those of a hop, by which packets
    that do not wait differ."""
    return HOP if name in PERCENTS else 0.0


class Range(NamedTuple):
    """The least, the mean and the most of some numbers; None where there are none."""

    least: float | None
    mean: float | None
    most: float | None


@dataclass(frozen=True)
class Figures:
    """What is measured of some packets. Loads are in flits for each node and cycle."""

    packets: int
    flits: int
    out: int
    offered: float
    accepted: float
    latency: Spread
    queue: Spread
    network: Spread
    hops: Spread
    # The accepted loads of the nodes that send.
    sources: Range
    # How well the latency is known.
    margins: Margins

    def columns(self) -> dict[str, Number]:
        """The figures by the names of their columns."""
        found: dict[str, Number] = {}
        for name, value in vars(self).items():
            if isinstance(value, (Spread, Range, Margins)):
                found |= {column_name(name, part): number for part, number in value._asdict().items()}
            else:
                found[name] = value
        return found

    def words(self) -> list[str]:
        """The figures as fields of CSV, in the order of the columns."""
        return [word_of(name, number) for name, number in self.columns().items()]


def column_name(name: str, part: str) -> str:
    """The name of the column of a part of a figure."""
    return {"latency": part, "margins": margin_of(part)}.get(name, f"{name}_{part}")


def margin_of(column: str) -> str:
    """The name of the column that says how well that of a figure is known."""
    return f"{column}_margin"


def word_of(name: str, number: Number) -> str:
    """A figure as a field of CSV."""
    if number is None:
        return "-"
    is_load = name in ("offered", "accepted") or name.startswith("sources_")
    return format(number, ".4f" if is_load else ".1f" if name.endswith(("mean", "margin")) else "d")


def columns_of(measure: str) -> list[str]:
    """The columns of what is measured of a packet."""
    return [column_name(measure, part) for part in ("mean", *PERCENTS)]


SOURCES = ["sources_least", "sources_mean", "sources_most"]
# The columns in their order: those of the latency, and then what it is made of.
LATENCY_NAMES = ["packets", "flits", "out", "offered", "accepted", *columns_of("latency")]
PART_NAMES = [*(name for measure in MEASURES[1:] for name in columns_of(measure)), *SOURCES]
MARGINS = [margin_of(part) for part in Margins._fields]
NAMES = [*LATENCY_NAMES, *PART_NAMES, *MARGINS]


class Sample:
    """What is measured: of the packets of a run those that are due in a window, and which of these were out."""

    def __init__(self, packets: Columns, window: Window, sizes: Sequence[float] | None = None) -> None:
        """In loads each packet counts for one of the sizes, without them for its flits."""
        self.packets, self.window = packets, window
        sizes = packets.lengths if sizes is None else sizes
        is_measured = window.all_in(packets.dues)
        self.measured = packets.chosen(is_measured)
        self.arrived = self.measured.chosen([out < NEVER for out in self.measured.outs])
        self.latencies = list(map(sub, self.arrived.outs, self.arrived.dues))
        self.offered = sum(compress(sizes, is_measured))
        # What came out of each source in the window.
        self.accepted: dict[int, float] = dict.fromkeys(packets.sources, 0)
        # The latencies in the order of due times, cut into batches, where all packets are out and these are enough.
        self.batches: list[Sequence[int]] = []
        if LEAST_PACKETS <= len(self.latencies) == len(self.measured.dues):
            pairs = sorted(zip(self.arrived.dues, self.latencies), key=itemgetter(0))
            self.batches = batches([latency for _, latency in pairs])
        came_out = window.all_in(packets.outs)
        for source, size in compress(zip(packets.sources, sizes), came_out):
            self.accepted[source] += size

    @property
    def taken(self) -> float:
        """What came out in the window."""
        return sum(self.accepted.values())

    @cached_property
    def behind(self) -> "Behind":
        """How the packets under way grow in the window."""
        return behind(self.packets, self.window)

    def figures(self, network: Network, nodes: int) -> Figures:
        """The figures, as a load of so many nodes."""
        measured, arrived = self.measured, self.arrived
        count, places = len(measured.dues), nodes * self.window.cycles
        hops = network.hop_table
        loads = [self.accepted[source] / self.window.cycles for source in set(measured.sources)]
        # (where a network takes longer to forget how it began its batches are no independent numbers)
        parts = self.batches if own_time(arrived, network) <= self.window.cycles else []
        # (queue and network of the same packets as the latency: so their means add up to its mean)
        return Figures(
            count, sum(measured.lengths), len(arrived.dues), self.offered / places, self.taken / places,
            spread(self.latencies, count),
            spread(map(sub, arrived.entries, arrived.dues), count),
            # (where entries are not known this is below zero)
            spread([time for time in map(sub, arrived.outs, arrived.entries) if 0 <= time], count),
            spread([hops[source][goal] for source, goal in zip(measured.sources, measured.destinations)], count),
            Range(min(loads, default=None), mean(loads), max(loads, default=None)),
            margins(parts),
        )


# ---- groups

GROUPS: dict[str, Callable[[Network, Columns], Iterable[int]]] = {
    "class": lambda network, packets: packets.classes,
    "source": lambda network, packets: packets.sources,
    "destination": lambda network, packets: packets.destinations,
    "distance": lambda network, packets: map(network.distance, packets.sources, packets.destinations),
}
# The groups that are of one node each.
OF_A_NODE = ("source", "destination")


def grouped_figures(
    packets: Columns, window: Window, network: Network, names: Iterable[str] = ()
) -> dict[str, Figures]:
    """The figures of all packets, and of each group by these names; those of a node have its own load."""
    found = {"all": Sample(packets, window).figures(network, network.nodes)}
    for name in names:
        group_of = list(GROUPS[name](network, packets))
        nodes = 1 if name in OF_A_NODE else network.nodes
        for value in sorted(set(group_of)):
            some = packets.chosen(group == value for group in group_of)
            found[f"{name} {value}"] = Sample(some, window).figures(network, nodes)
    return found


# ---- a steady state


def under_way(packets: Columns, cycle: int) -> list[bool]:
    """Which packets are due before a cycle, and not out before it."""
    return [due < cycle <= out for due, out in zip(packets.dues, packets.outs)]


class Growth(NamedTuple):
    """How many packets were under way before a window and after it."""

    before: int
    after: int

    def is_beyond(self, deviations: float) -> bool:
        """Whether it is more than so many standard deviations: of a count this is its root, where chance makes it."""
        return deviations * math.sqrt(self.before + self.after) < self.after - self.before


class Behind(NamedTuple):
    """How the packets under way grow in a window: all of them, and those of sources and destinations for themselves,
    as far as it is beyond what chance explains."""

    whole: Growth
    nodes: dict[str, Growth]


def behind(packets: Columns, window: Window) -> Behind:
    """How the packets under way grow."""
    flags = [under_way(packets, cycle) for cycle in (window.first, window.end)]
    nodes: dict[str, Growth] = {}
    for name, ends in ("source", packets.sources), ("destination", packets.destinations):
        before, after = (Counter(compress(ends, each)) for each in flags)
        nodes.update((f"{name} {node}", Growth(before[node], after[node])) for node in sorted(after))
    beyond = {name: growth for name, growth in nodes.items() if growth.is_beyond(DEVIATIONS_OF_ONE)}
    if not window.first:
        # (nothing is under way at first, so that of each node has to grow)
        beyond = {}
    return Behind(Growth(*(each.count(True) for each in flags)), beyond)


def overload(sample: Sample) -> str | None:
    """In words how the packets under way grow, all of them or those of some nodes; None where it may be chance."""
    whole, nodes = sample.behind
    is_filled = 0 < sample.window.first or sample.taken < KEPT_UP * sample.offered
    if whole.is_beyond(DEVIATIONS) and is_filled:
        share = 100 * sample.taken / sample.offered if sample.offered else 0
        told = f"the packets under way are {whole.before} before the window and {whole.after} after it"
        return f"{told}, {share:.1f} percent of what is offered comes out"
    if not nodes:
        return None
    name, (before, after) = next(iter(nodes.items()))
    more = f"; so it is with {len(nodes) - 1} more sources and destinations" if 1 < len(nodes) else ""
    return f"the packets of {name} under way are {before} before the window and {after} after it{more}"


def alone_for(hops: int, length: int) -> int:
    """The latency of a packet that is alone in a network."""
    return HOP * hops + 1 + length


def own_time(packets: Columns, network: Network) -> float:
    """So many cycles a network takes to forget how it began, as far as packets that were out tell it: those of its
    longest way at least.

    Where a queue has a mean wait of D cycles, and a packet holds what it waits for through s cycles, this is 8 D D / s:
    the time in which the queue of one server under heavy traffic relaxes. The sources and the destinations are looked
    at one by one, and the longest time counts. A channel is held through the flits of a packet and 4 cycles more.
    """
    hops = network.hop_table
    ways = [hops[source][goal] for source, goal in zip(packets.sources, packets.destinations)]
    lone = list(map(alone_for, ways, packets.lengths))
    waits = [out - due - least for out, due, least in zip(packets.outs, packets.dues, lone)]
    longest = float(max(lone, default=0))
    for ends in (packets.sources, packets.destinations):
        groups: dict[int, list[int]] = {}
        for node, wait, length in zip(ends, waits, packets.lengths):
            group = groups.setdefault(node, [0, 0, 0])
            group[0] += 1
            group[1] += wait
            group[2] += length + DRAINS
        known = (group for group in groups.values() if LEAST_OF_A_NODE <= group[0])
        longest = max([longest, *(8 * max(0, wait) ** 2 / count / held for count, wait, held in known)])
    return longest


def difference(sample: Sample, percent: float) -> str | None:
    """In words how the mean latencies of the halves of the window differ; None where it is by no more than so much, or
    by no more than chance explains."""
    dues, latencies = sample.arrived.dues, sample.latencies
    whole = mean(latencies)
    halves = (list(compress(latencies, half.all_in(dues))) for half in sample.window.halves())
    first, second = map(mean, halves)
    if whole is None or first is None or second is None:
        return "a half of the window has no packet that is out"
    if abs(first - second) <= max(percent / 100 * whole, by_chance(sample.batches)):
        return None
    return f"the mean latency is {first:.1f} in the first half of the window and {second:.1f} in the second"


def by_chance(parts: Sequence[Sequence[int]]) -> float:
    """By how much the means of two halves may differ by chance, by those of their batches; 0 where there are none."""
    means = [sum(part) / len(part) for part in parts]
    half = len(means) // 2
    own = [margin(some) or 0.0 for some in (means[:half], means[half:])]
    return math.hypot(*own)


def warnings(sample: Sample, own: float, percent: float = TOLERANCE) -> list[str]:
    """Why the figures of a window are not to be trusted, a sentence for each reason; `own` is the time in which the
    network forgets how it began."""
    count = len(sample.measured.dues)
    if not count:
        return ["no packet is due in the window"]
    found = []
    left = count - len(sample.arrived.dues)
    if left:
        found.append(f"{left} of the {count} packets of the window were not out at the end of the run")
    reasons = [overload(sample), difference(sample, percent)]
    if sample.window.cycles < own:
        told = f"the network takes some {own:.0f} cycles to forget how it began"
        reasons.append(f"{told}, and the window has {sample.window.cycles}")
    return found + [f"no steady state: {reason}" for reason in reasons if reason]
