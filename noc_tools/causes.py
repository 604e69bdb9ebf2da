"""Of the cycles of some packets' lives, how many went to which cause: each cycle to one, so the shares add up.

The trace of a run is read twice for it. The first time what all heads do, which is little: when they come to an input
channel, and when they are granted an output channel. So it is known where and when the packets are, and the second time
only their routers are looked at, as long as they are there.
"""
import math
import re
from bisect import bisect_right
from collections import Counter, defaultdict
from collections.abc import Callable, Collection, Iterable, Iterator, Sequence
from functools import cache
from itertools import pairwise
from operator import itemgetter
from pathlib import Path
from typing import NamedTuple

from .errors import Refused
from .findings import (
    GRANTED, NO_CHANNEL, NO_IDLE_CHANNEL, ROUTED, TRACE_HEADER, WINNING, Finding, Place, Selection, finding_of,
    winner_of,
)
from .life import QUEUE, Life, Stay, life_in
from .network import LOCAL
from .program import texts
from .runs import Config, Run, Traffic
from .statistics import window_within
from .traffic import Packet

# Since a cycle it is this packet.
Since = tuple[int, int]
# The routers that are looked at are the same for so many cycles, and so many are before the first that counts.
STEP, BEFORE = 250, 8
# The most digits of a number of packets.
MOST_DIGITS = 15
# The routers to look at in each step of cycles.
Watch = dict[int, set[str]]


class Heads:
    """Since when each packet was the last that came in at a node, and had an output channel; and at which routers
    packets are that have these ends."""

    def __init__(self, run: Run, ends: dict[int, int], last: int) -> None:
        self.came_in: dict[int, list[Since]] = defaultdict(list)
        self.granted: dict[Place, list[Since]] = defaultdict(list)
        self.arrived: dict[int, list[tuple[int, int]]] = defaultdict(list)
        for line in run.trace_lines(last=last, verdicts=(ROUTED, GRANTED)):
            cycle, router, port, _, verdict, packet, out, _ = line.split(",")
            since = int(cycle), int(packet)
            if verdict == GRANTED:
                self.granted[int(router), out].append(since)
                continue
            if port == LOCAL:
                self.came_in[int(router)].append(since)
            if int(packet) in ends:
                self.arrived[int(packet)].append((int(cycle), int(router)))
        self.ends = ends

    def watch(self, wanted: Collection[int]) -> Watch:
        """The routers at which packets are, and some cycles before, in which those say so that win there when they
        come: whoever wins has not won before, and loses at most once to each other port."""
        found: Watch = defaultdict(set)
        for packet in wanted:
            for first, router in self.arrived[packet]:
                for step in range(max(0, first - BEFORE) // STEP, (self.ends[packet] - 1) // STEP + 1):
                    found[step].add(str(router))
        return found


def pattern_of(words: Iterable[str]) -> str:
    """A pattern of these numbers, digit by digit."""
    behind: dict[str, list[str]] = {}
    for word in words:
        behind.setdefault(word[:1], []).append(word[1:])
    return f"(?:{'|'.join(digit and digit + pattern_of(rest) for digit, rest in behind.items())})"


@cache
def lines_with(routers: frozenset[str]) -> re.Pattern[str]:
    """What finds the lines of these routers behind line feeds, each as its group."""
    return re.compile(rf"\n(\d++,{pattern_of(routers)},[^\n]*+)")


def lines_of(texts: Iterable[str], watch: Watch) -> Iterator[tuple[frozenset[str], list[str]]]:
    """The lines of a trace that are of the routers to look at, some at a time, with these routers."""
    first = min(watch)
    for text in texts:
        _, _, lines = f"\n{text}".rpartition(TRACE_HEADER)
        if lines:
            last = int(lines[lines.rfind("\n") + 1:].partition(",")[0]) // STEP
            routers = frozenset[str]().union(*(watch[step] for step in range(first, last + 1) if step in watch))
            yield routers, lines_with(routers).findall(lines) if routers else []
            first = last


class Record:
    """What is kept of the wanted packets of a run up to a last cycle."""

    def __init__(self, run: Run, heads: Heads, wanted: Collection[int], last: int) -> None:
        self.heads, self.wanted = heads, wanted
        # The verdicts of each packet at each place that it had, with their first cycles; None when it was gone.
        self.verdicts: dict[int, dict[Place, list[tuple[int, str | None]]]] = defaultdict(lambda: defaultdict(list))
        # The output channel of a packet at a place: the one that it got, or the first of those that it may take.
        self.outs: dict[tuple[int, Place], str] = {}
        # Who won what the packet at a place lost.
        self.won: dict[Place, list[Since]] = defaultdict(list)
        # The last line of each channel of the routers that are looked at; the places of packets, and where they lose.
        self.said: dict[str, dict[str, str]] = {}
        self.followed: dict[Place, int] = {}
        self.losing: dict[Place, Finding] = {}
        watch = heads.watch(wanted)
        if watch:
            words = Selection(min(watch) * STEP, last, changes=True).words()
            self.read(lines_of(texts("trace", *run.files, *words), watch))

    def read(self, lines: Iterable[tuple[frozenset[str], list[str]]]) -> None:
        """Reads the lines of the routers that are looked at."""
        now, wanted = "", set(map(str, self.wanted))
        for routers, some in lines:
            self.said = {router: self.said.get(router, {}) for router in routers}
            for line in some:
                cycle, router, port, number, _, packet, _ = line.split(",", 6)
                if cycle != now:
                    self.settle(now)
                    now = cycle
                channel = f"{port}.{number}"
                self.said[router][channel] = line
                if packet in wanted or (int(router), channel) in self.followed:
                    self.look(finding_of(line))
        self.settle(now)

    def look(self, found: Finding) -> None:
        """Looks at a finding at a place that a wanted packet had or has."""
        place, packet, before = found.place, found.packet, self.followed.pop(found.place, None)
        if before is not None and before != packet:
            self.verdicts[before][place].append((found.cycle, None))
        self.losing.pop(place, None)
        if packet is not None and packet in self.wanted:
            self.followed[place] = packet
            self.verdicts[packet][place].append((found.cycle, found.verdict))
            if found.verdict == GRANTED:
                self.outs[packet, place] = found.out
            elif found.verdict == NO_IDLE_CHANNEL:
                self.outs.setdefault((packet, place), found.permitted[0])
            elif found.verdict in WINNING:
                self.losing[place] = found

    def settle(self, cycle: str) -> None:
        """Keeps who won in a cycle of which all lines were taken."""
        for place, loss in self.losing.items():
            winner = winner_of(loss, map(finding_of, self.said[str(loss.router)].values())).packet
            assert winner is not None
            if not self.won[place] or self.won[place][-1][1] != winner:
                self.won[place].append((int(cycle), winner))

    def stays(self, packet: int, last: int) -> list[Stay]:
        """The stays of a wanted packet in the network, up to a last cycle."""
        found = []
        for place, verdicts in self.verdicts.get(packet, {}).items():
            stay = Stay(*place)
            ends = [*(cycle for cycle, _ in verdicts[1:]), last + 1]
            for (first, verdict), end in zip(verdicts, ends):
                if verdict is not None:
                    stay.add(verdict, first, end)
            found.append(stay)
        return found

    def ahead(self, packet: int, stay: Stay, verdict: str) -> list[Since]:
        """Who was ahead of a packet where it waits; nobody where its own way takes the time."""
        place = stay.router, stay.channel
        if verdict == QUEUE:
            return self.heads.came_in[stay.router]
        if verdict == NO_IDLE_CHANNEL:
            return self.heads.granted[stay.router, self.outs[packet, place]]
        return self.won[place] if verdict in WINNING else []


# So many packets are followed in one pass over the run: that bounds the memory.
MOST_FOLLOWED = 1000


class Share(NamedTuple):
    """So many cycles of a packet that went to one cause: its queue, or a verdict of an input channel of a router.

    `by` is the packet that was there before or instead, and None where its own way took them. In the queue of a node
    the channel is '-'.
    """

    packet: int
    cause: str
    router: int
    channel: str
    by: int | None
    cycles: int


class Blame(NamedTuple):
    """The shares of some packets, and of each node in whose queue some of them waited how busy it was meanwhile: how
    many flits came in by it in a cycle."""

    packets: list[Packet]
    shares: list[Share]
    busy: dict[int, float]


# ---- which packets


def number_of(amount: str | int, among: int) -> int:
    """How many packets are meant by a number, or by a percentage of so many, rounded up."""
    words = str(amount)
    number = words.removesuffix("%")
    is_number = number.replace(".", "", words.endswith("%")).isdecimal() and number.isascii()
    if not is_number or MOST_DIGITS < len(number) or not 0 < float(number) or (number != words and 100 < float(number)):
        raise Refused(f"the slowest are a number of packets, or a part of them as 1%, not '{words}'")
    return int(number) if number == words else math.ceil(float(number) * among / 100)


def end_of(run: Run, packet: Packet) -> int:
    """The cycle behind the last one of a packet's life: that in which it was out, or the last one of the run."""
    return run.network.cycles if packet.out is None else packet.out + 1


def candidates(run: Run, message_class: int | None = None, window: str | None = None) -> list[Packet]:
    """The packets that are due within the run: of a class, and in the cycles A to B - 1 of a window A:B."""
    network = run.network
    if message_class is not None and not 0 <= message_class < network.classes:
        raise Refused(f"there is no class {message_class}: the classes are 0 to {network.classes - 1}")
    within = window_within(window or f"0:{network.cycles}", network.cycles)
    found = [packet for packet in run.packets if within.has(packet.due)]
    found = [packet for packet in found if message_class in (None, packet.message_class)]
    if not found:
        raise Refused("no such packet is due within the run")
    return found


def slowest(run: Run, amount: str | int, among: Sequence[Packet]) -> list[Packet]:
    """So many of these packets whose lives are longest, the longest first, and of equals the first one. The life of a
    packet that is not out goes on to the end of the run."""
    ordered = sorted(among, key=lambda packet: packet.due - end_of(run, packet))
    return ordered[:number_of(amount, len(ordered))]


# ---- their shares


def parts_by(events: Sequence[Since], first: int, end: int) -> Iterator[tuple[int, int]]:
    """To which packets the cycles from `first` to before `end` belong, and how many to each."""
    place = bisect_right(events, first, key=itemgetter(0))
    starts = [first, *(cycle for cycle, _ in events[place:bisect_right(events, end - 1, key=itemgetter(0))]), end]
    for (_, packet), (begin, behind) in zip(events[place - 1:], pairwise(starts)):
        yield packet, behind - begin


def shares_of(life: Life, record: Record) -> list[Share]:
    """The shares of one packet, in the order in which they begin."""
    number = life.packet.number
    counts: Counter[tuple[str, int, str, int | None]] = Counter()
    for stay, (first, end, verdict) in life.charges():
        channel = NO_CHANNEL if stay.channel == QUEUE else stay.channel
        ahead = record.ahead(number, stay, verdict)
        for packet, cycles in parts_by(ahead, first, end) if ahead else [(None, end - first)]:
            counts[verdict, stay.router, channel, packet] += cycles
    return [Share(number, *cause, cycles) for cause, cycles in counts.items()]


def blame_of(run: Run, packets: list[Packet]) -> Blame:
    """The shares of these packets of a run."""
    shares: list[Share] = []
    queued: dict[int, list[tuple[int, int]]] = defaultdict(list)
    ends = {packet.number: end_of(run, packet) for packet in packets}
    last = max(ends.values()) - 1
    heads = Heads(run, ends, last)
    for place in range(0, len(packets), MOST_FOLLOWED):
        some = packets[place:place + MOST_FOLLOWED]
        record = Record(run, heads, {packet.number for packet in some}, last)
        for packet in some:
            last_own = ends[packet.number] - 1
            life = life_in(packet, record.stays(packet.number, last_own), last_own)
            shares += shares_of(life, record)
            if life.stays[0].channel == QUEUE:
                queued[packet.source].append((packet.due, life.stays[0].end))
    came_in = {node: [*heads.came_in[node], (last + 1, -1)] for node in queued}
    return Blame(packets, shares, {node: flits_per_cycle(run, came_in[node], queued[node]) for node in queued})


def blamed(
    config: Config, traffic: Traffic, amount: str | int, table: str | Path | None = None, drain: bool = False,
    message_class: int | None = None, window: str | None = None,
) -> tuple[Run, Blame]:
    """A run, and the shares of so many of its slowest packets: of a class, and due in a window."""
    run = Run(config, traffic, table, drain)
    return run, blame_of(run, slowest(run, amount, candidates(run, message_class, window)))


# ---- who was ahead


# Of what packets are that were ahead, and how it is called.
FLOWS: dict[str, Callable[[Packet], int]] = {
    "class": lambda packet: packet.message_class,
    "source": lambda packet: packet.source,
    "destination": lambda packet: packet.destination,
}


class Ahead(NamedTuple):
    """The packets of a class, a source or a destination, by its number; and in how many cycles one of them was ahead
    of packets that waited. The part is that of all cycles in which some packet was, from 0 to 1."""

    value: int
    cycles: int
    part: float


def ahead_of(run: Run, shares: Iterable[Share]) -> dict[str, list[Ahead]]:
    """Who was there before or instead of the packets of these shares: by class, by source and by destination, each time
    the most first, and of equals the least number. All of them are empty where nobody was."""
    cycles: Counter[int] = Counter()
    for share in shares:
        if share.by is not None:
            cycles[share.by] += share.cycles
    packets = {number: run.packet(number) for number in cycles}
    found = {}
    for kind, value_of in FLOWS.items():
        counts: Counter[int] = Counter()
        for number, packet in packets.items():
            counts[value_of(packet)] += cycles[number]
        ordered = sorted(counts.items(), key=lambda pair: (-pair[1], pair[0]))
        found[kind] = [Ahead(value, count, count / cycles.total()) for value, count in ordered]
    return found


def merged(spans: list[tuple[int, int]]) -> list[tuple[int, int]]:
    """Spans of cycles, where those that overlap are one."""
    found: list[tuple[int, int]] = []
    for first, end in sorted(spans):
        if found and first <= found[-1][1]:
            first, before = found.pop()
            end = max(end, before)
        found.append((first, end))
    return found


def flits_per_cycle(run: Run, events: list[Since], spans: list[tuple[int, int]]) -> float:
    """How many flits came in at a node in a cycle of these spans, where each packet comes in evenly up to the next."""
    lengths = {packet: run.packet(packet).length for _, packet in events[:-1]}
    took = {packet: following - first for (first, packet), (following, _) in pairwise(events)}
    flits, cycles = 0.0, 0
    for first, end in merged(spans):
        for packet, part in parts_by(events, first, end):
            flits += part * min(1, lengths[packet] / took[packet])
        cycles += end - first
    return flits / cycles
