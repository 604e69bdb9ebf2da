"""The life of a packet: where it was, to what each of its cycles is charged, and who kept it waiting."""
from bisect import bisect_right
from collections import Counter
from collections.abc import Iterable
from contextlib import ExitStack
from dataclasses import dataclass, field
from operator import attrgetter
from typing import NamedTuple

from .findings import (
    EMPTY, LOST_CHANNEL, LOST_INPUT, LOST_SWITCH, MOVED, NO_CREDIT, NO_FLIT, NO_IDLE_CHANNEL, OWNING, STALLS, Finding,
    Place, lost_by, winner_of,
)
from .network import LOCAL, opposite, split
from .runs import Run
from .traffic import Packet

# Where a packet is that is due and has not come in: no channel, and no verdict.
QUEUE = "queue"
# So many of the longest waits are told of.
WAITS = 3
# A trace begins so many cycles before a wait, so that it tells who had a channel that drains when the wait begins;
# where it does not, another one does.
BEFORE = 100
# A packet with what it does, and in how many cycles.
Holders = Counter[tuple[int | None, str]]


class Bar(NamedTuple):
    """A stretch of cycles with one verdict; its end is the cycle behind the last."""

    first: int
    end: int
    verdict: str


@dataclass
class Stay:
    """A packet in an input channel of a router, or in the queue of its source, from the cycle in which it comes."""

    router: int
    channel: str
    bars: list[Bar] = field(default_factory=list)

    @property
    def first(self) -> int:
        """The cycle in which the packet comes."""
        return self.bars[0].first

    @property
    def end(self) -> int:
        """The cycle behind the last in which it is there."""
        return self.bars[-1].end

    def bar_at(self, cycle: int) -> Bar | None:
        """The bar of a cycle, or None where the packet is not there."""
        place = bisect_right(self.bars, cycle, key=attrgetter("first")) - 1
        return self.bars[place] if 0 <= place and cycle < self.bars[place].end else None

    def add(self, verdict: str, first: int, end: int) -> None:
        """Adds some cycles at the end."""
        if self.bars and self.bars[-1].verdict == verdict:
            first = self.bars.pop().first
        self.bars.append(Bar(first, end, verdict))

    def counts(self) -> Counter[str]:
        """In how many cycles it had each verdict."""
        counts: Counter[str] = Counter()
        for bar in self.bars:
            counts[bar.verdict] += bar.end - bar.first
        return counts


@dataclass
class Life:
    """The stays of a packet, in the order of its way, and the cycle in which it was out, or None."""

    packet: Packet
    stays: list[Stay]
    out: int | None

    def charges(self) -> list[tuple[Stay, Bar]]:
        """The stretches of its cycles, from the due one to the last one, each with the stay to which it is charged.

        Read from the end backwards, a packet is where its last flit is, or was in that cycle. Where
        that channel says NoFlit, the flit had not come: the channel before counts. Where it says
        NoCredit and the next channel moved no flit, the next one counts, for whose places it waits.
        So each cycle counts once, and no cycle counts as Moved beyond what the way and the flits take.
        """
        first, end = self.stays[0].first, max(stay.end for stay in self.stays)
        found: list[tuple[Stay, Bar]] = []
        at = len(self.stays) - 1
        while first < end:
            at, bar, since = self.cause(at, end - 1)
            found.append((self.stays[at], Bar(since, end, bar.verdict)))
            end = since
        return found[::-1]

    def charged(self) -> list[tuple[Stay, Bar]]:
        """The stay and the stretch to which each cycle is charged."""
        return [charge for charge in self.charges() for _ in range(charge[1].first, charge[1].end)]

    def cause(self, at: int, cycle: int) -> tuple[int, Bar, int]:
        """The number of the stay that counts in a cycle, from the one that counts in the cycle after it, and its bar;
        and since when it does."""
        looked_at: list[Bar] = []

        def bar_of(at: int) -> Bar | None:
            bar = self.stays[at].bar_at(cycle)
            looked_at.extend([bar] if bar else [])
            return bar

        while (bar := bar_of(at)) is None or bar.verdict == NO_FLIT:
            at -= 1
        while bar.verdict == NO_CREDIT and (ahead := bar_of(at + 1)) is not None and ahead.verdict != MOVED:
            at, bar = at + 1, ahead
        return at, bar, max(bar.first for bar in looked_at)


def life_of(run: Run, number: int) -> Life:
    """The life of a packet that is due within the run."""
    packet = run.due_packet(number)
    last = run.network.cycles - 1
    # (a trace of changes takes longer)
    with run.parallel_trace(packet.due, last, run.free, packet=packet.number) as trace:
        return life_in(packet, stays_of(trace.findings(), packet), last)


def life_in(packet: Packet, stays: list[Stay], last: int) -> Life:
    """The life of a packet that has these stays in the network of a run up to a last cycle."""
    came_in = stays[0].first if stays else last + 1
    queue = [Stay(packet.source, QUEUE, [Bar(packet.due, came_in, QUEUE)])] if packet.due < came_in else []
    is_there = bool(stays) and stays[-1].router == packet.destination
    is_gone = is_there and stays[-1].counts()[MOVED] == packet.length
    return Life(packet, queue + stays, stays[-1].end - 1 if is_gone else None)


def stays_of(findings: Iterable[Finding], packet: Packet) -> list[Stay]:
    """The stays of a packet, from its findings up to that in which its last flit is out."""
    stays: dict[Place, Stay] = {}
    to_come = packet.length
    for finding in findings:
        place = finding.place
        stays.setdefault(place, Stay(*place)).add(finding.verdict, finding.cycle, finding.cycle + 1)
        to_come -= finding.router == packet.destination and finding.verdict == MOVED
        if not to_come:
            break
    return list(stays.values())


# ---- what a packet waited for


class Wait(NamedTuple):
    """The cycles of a packet that are charged to one verdict at one place."""

    router: int
    channel: str
    verdict: str
    cycles: list[int]


def longest_waits(life: Life) -> list[Wait]:
    """The longest waits of a packet, the longest first."""
    cycles: dict[tuple[int, str, str], list[int]] = {}
    for stay, bar in life.charges():
        if bar.verdict in (QUEUE, *STALLS):
            cycles.setdefault((stay.router, stay.channel, bar.verdict), []).extend(range(bar.first, bar.end))
    waits = [Wait(*key, found) for key, found in cycles.items()]
    return sorted(waits, key=lambda wait: len(wait.cycles), reverse=True)[:WAITS]


# What is said of a packet that won what another lost.
WON = {LOST_CHANNEL: "got", LOST_INPUT: "was picked at", LOST_SWITCH: "won the port"}


class RouterHistory:
    """What the channels of a router say in one cycle, and who was the last to say that it had an output channel."""

    def __init__(self, run: Run) -> None:
        self.run, self.cycle = run, 0
        self.found: dict[str, Finding] = {}
        self.had: dict[str, Finding] = {}

    def take(self, finding: Finding) -> None:
        """Takes what is said next."""
        self.found[finding.channel] = finding
        if finding.verdict in OWNING:
            self.had[finding.out] = finding

    def holders(self, wait: Wait) -> list[tuple[int | None, str]]:
        """The packets that hold what is waited for in this cycle, each with what it does."""
        if wait.channel == QUEUE:
            return self.ahead_in_queue()
        own = self.found[wait.channel]
        if wait.verdict == NO_IDLE_CHANNEL:
            return [self.holder_of(wait.router, channel) for channel in own.permitted]
        if wait.verdict == NO_CREDIT:
            return [(own.packet, "filled the next buffer")]
        winner = winner_of(own, self.found.values())
        return [(winner.packet, f"{WON[wait.verdict]} {lost_by(wait.verdict, own)}")]

    def holder_of(self, router: int, channel: str) -> tuple[int | None, str]:
        """Who has an output channel that is not idle, or had it where it drains."""
        last = self.had.get(channel) or self.had.setdefault(channel, self.end_behind(router, channel))
        now = self.found.get(last.channel)
        has_it = now is not None and (now.packet, now.out) == (last.packet, channel)
        return last.packet, f"had {channel}" if has_it else f"drained from {channel}"

    def end_behind(self, router: int, channel: str) -> Finding:
        """The end of the packet that had an output channel before the trace began, in the buffer to which it leads."""
        port, number = split(channel)
        following = self.run.network.linked(router, port)
        findings = self.run.trace(router=following, first=self.cycle, last=self.cycle)
        (end,) = [finding for finding in findings if finding.channel == f"{opposite(port)}.{number}"]
        return end._replace(channel=QUEUE)

    def ahead_in_queue(self) -> list[tuple[int | None, str]]:
        """Who has the channels of the port local, or is the last one that came in by one where some are left."""
        inside = [each for each in self.found.values() if each.channel.startswith(LOCAL) and each.verdict != EMPTY]
        if len(inside) == self.run.network.channels:
            return [(each.packet, f"had {each.channel}") for each in inside]
        packets = [each.packet for each in inside if each.packet is not None]
        return [(max(packets, key=self.run.turn), "came in first")]


def holders_at(run: Run, findings: Iterable[Finding], waits: list[Wait]) -> list[tuple[Wait, Holders]]:
    """For each wait at a router, of which these are the changes, which packets held what was waited for, with what
    they did, and in how many of its cycles."""
    counts: list[Holders] = [Counter() for _ in waits]
    history, coming = RouterHistory(run), iter(findings)
    following = next(coming, None)
    wanted = {cycle: place for place, wait in enumerate(waits) for cycle in wait.cycles}
    held: list[tuple[int | None, str]] | None = None
    for history.cycle in sorted(wanted):
        while following is not None and following.cycle <= history.cycle:
            history.take(following)
            following, held = next(coming, None), None
        # (while nothing changes the same packets hold it)
        place = wanted[history.cycle]
        held = held or history.holders(waits[place])
        counts[place].update(held)
    return list(zip(waits, counts))


def span_of(waits: list[Wait]) -> tuple[int, int]:
    """The cycles of a trace of a router that tells who held what these waits are for."""
    return max(0, min(wait.cycles[0] for wait in waits) - BEFORE), max(wait.cycles[-1] for wait in waits)


def held_waits(run: Run, life: Life) -> list[tuple[Wait, Holders]]:
    """The longest waits, and which packets held what was waited for; with a trace of each router where they were,
    side by side. The longest of these traces has the processors that are left."""
    waits = longest_waits(life)
    at = {wait.router: [other for other in waits if other.router == wait.router] for wait in waits}
    spans = {router: span_of(here) for router, here in at.items()}
    longest = max(spans, key=lambda router: spans[router][1] - spans[router][0], default=None)
    held: list[tuple[Wait, Holders]] = []
    with ExitStack() as stack:
        traces = {}
        for router, span in spans.items():
            processors = run.free + 1 - len(spans) if router == longest else 1
            trace = run.parallel_trace(*span, processors, router=router, changes=True)
            traces[router] = stack.enter_context(trace)
        for router, here in at.items():
            port = LOCAL if all(wait.channel == QUEUE for wait in here) else None
            held += holders_at(run, traces[router].changes(port), here)
    return sorted(held, key=lambda pair: waits.index(pair[0]))
