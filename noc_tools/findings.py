"""Findings of noc: what an input channel does in a cycle, as a line of a trace tells it (docs/FORMATS.md)."""
from collections.abc import Iterable, Iterator
from itertools import chain
from typing import NamedTuple

from .errors import Refused
from .network import split
from .program import Process

TRACE_HEADER = "cycle,router,port,vc,verdict,packet,out,permitted"
EMPTY, ROUTED, GRANTED, MOVED = "Empty", "Routed", "Granted", "Moved"
NO_FLIT, NO_IDLE_CHANNEL, LOST_CHANNEL = "NoFlit", "NoIdleChannel", "LostChannel"
NO_CREDIT, LOST_INPUT, LOST_SWITCH = "NoCredit", "LostInput", "LostSwitch"
# The verdicts in the order of the reports, each with the name of its column there.
COLUMNS = {
    EMPTY: "empty", ROUTED: "routed", GRANTED: "granted", MOVED: "moved", NO_FLIT: "no_flit",
    NO_IDLE_CHANNEL: "no_idle_channel", LOST_CHANNEL: "lost_channel", NO_CREDIT: "no_credit",
    LOST_INPUT: "lost_input", LOST_SWITCH: "lost_switch",
}
VERDICTS = [*COLUMNS]
STALLS = VERDICTS[4:]
# The verdicts of a channel whose packet has the output channel that stands beside it.
OWNING = {MOVED, NO_FLIT, NO_CREDIT, LOST_INPUT, LOST_SWITCH}
# What the one says that wins what another loses.
WINNING = {LOST_CHANNEL: {GRANTED}, LOST_INPUT: {MOVED, LOST_SWITCH}, LOST_SWITCH: {MOVED}}
# What each stall means, in the order of the reports.
REASONS = {
    NO_FLIT: "its next flit has not come yet",
    NO_IDLE_CHANNEL: "no channel that it may take is free",
    LOST_CHANNEL: "another packet was granted the channel",
    NO_CREDIT: "the next buffer has no free slot",
    LOST_INPUT: "another channel of its port went first",
    LOST_SWITCH: "another port went first",
}
NO_CHANNEL = "-"
# A router and the name of one of its input channels.
Place = tuple[int, str]


class Finding(NamedTuple):
    """A line of a trace. An output channel is '-' where there is none, and so is the packet None."""

    cycle: int
    router: int
    channel: str
    verdict: str
    packet: int | None
    out: str
    permitted: tuple[str, ...]

    @property
    def place(self) -> Place:
        """The router and the name of its channel."""
        return self.router, self.channel


def lost_by(verdict: str, finding: Finding) -> str:
    """What is lost with a verdict, or won: the output channel, the input port, or the output port."""
    if verdict == LOST_CHANNEL:
        return finding.out
    return split(finding.channel if verdict == LOST_INPUT else finding.out)[0]


def winner_of(loss: Finding, others: Iterable[Finding]) -> Finding:
    """Which of the findings of a router won what another one lost in the same cycle."""
    verdicts, lost = WINNING[loss.verdict], lost_by(loss.verdict, loss)
    return next(each for each in others if each.verdict in verdicts and lost_by(loss.verdict, each) == lost)


def finding_of(line: str) -> Finding:
    """The finding that a line tells."""
    cycle, router, port, number, verdict, packet, out, permitted = line.rstrip("\n").split(",")
    holder = None if packet == "-" else int(packet)
    names = () if permitted == NO_CHANNEL else tuple(permitted.split(" "))
    return Finding(int(cycle), int(router), f"{port}.{number}", verdict, holder, out, names)


class Selection(NamedTuple):
    """Which findings of a run are asked for, without a word all; of changes only those that change something; and of
    some verdicts only those with one of them."""

    first: int | None = None
    last: int | None = None
    router: int | None = None
    packet: int | None = None
    verdicts: tuple[str, ...] = ()
    changes: bool = False

    def words(self) -> list[str]:
        """The selection as words for noc."""
        options = {"--from": self.first, "--to": self.last, "--router": self.router, "--packet": self.packet}
        given = [[option, str(value)] for option, value in options.items() if value is not None]
        verdicts = ["--verdict", ",".join(self.verdicts)] if self.verdicts else []
        return [*chain.from_iterable(given), *verdicts, *(["--changes"] if self.changes else [])]


def without_header(lines: Iterator[str]) -> Iterator[str]:
    """The lines behind the header of a trace. What noc refuses is refused here, before the first of them."""
    if next(lines, "").rstrip("\n") != TRACE_HEADER:
        raise Refused("what noc writes is no trace")
    return lines


class ParallelTrace:
    """The trace of a span, of which several processes make a part each; they run no longer than this is used."""

    def __init__(self, files: list[str], chosen: Selection, first: int, last: int, number: int) -> None:
        self.parts: list[tuple[int, Process]] = []
        for begin, end in parts_of(first, last + 1, number):
            words = chosen._replace(first=begin, last=end - 1).words()
            self.parts.append((begin, Process("trace", *files, *words)))

    def findings(self) -> Iterator[Finding]:
        """Its findings, where it is no trace of changes."""
        return chain.from_iterable(findings_in(part) for _, part in self.parts)

    def changes(self, port: str | None = None) -> Iterator[Finding]:
        """The findings of a trace of changes, of one port or of all, as if one process had made it."""
        return joined((first, findings_in(part, port)) for first, part in self.parts)

    def __enter__(self) -> "ParallelTrace":
        return self

    def __exit__(self, *details: object) -> None:
        for _, part in self.parts:
            part.end()


def findings_in(process: Process, port: str | None = None) -> Iterator[Finding]:
    """The findings of a process, or of one port alone: most lines are then not looked at any further."""
    lines = without_header(process.lines())
    return (finding_of(line) for line in lines if port is None or f",{port}," in line)


def parts_of(first: int, end: int, number: int) -> list[tuple[int, int]]:
    """Parts of a span; all end at the same time, where a traced cycle takes twice as long as one before the trace."""
    latest = (2**number * end - first) / (2**number - 1)
    ends = [round(latest - (latest - first) / 2**part) for part in range(number + 1)]
    return [(begin, end) for begin, end in zip(ends, ends[1:]) if begin < end]


def joined(parts: Iterable[tuple[int, Iterable[Finding]]]) -> Iterator[Finding]:
    """The findings of a trace of changes from those of its parts, each of which tells in its first cycle of all
    channels that are not empty."""
    told: dict[Place, tuple[object, ...]] = {}
    for first, findings in parts:
        untold = set(told)
        for finding in findings:
            place, said = finding.place, finding[3:]
            if first < finding.cycle:
                yield from emptied(untold, told, first)
            untold.discard(place)
            if told.get(place) != said:
                told[place] = said
                yield finding
            if finding.verdict == EMPTY:
                del told[place]
        yield from emptied(untold, told, first)


def emptied(places: set[Place], told: dict[Place, tuple[object, ...]], cycle: int) -> Iterator[Finding]:
    """Channels of which something was told before a cycle, and nothing in it."""
    while places:
        place = places.pop()
        del told[place]
        yield empty(place, cycle)


def empty(place: Place, cycle: int) -> Finding:
    """What is found of a channel that is empty."""
    return Finding(cycle, *place, EMPTY, None, NO_CHANNEL, ())
