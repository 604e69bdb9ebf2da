"""Who waits for whom in one cycle: from a packet step by step to one that moves, or round a circle."""
from collections.abc import Callable
from typing import NamedTuple

from .findings import (
    GRANTED, LOST_CHANNEL, LOST_INPUT, LOST_SWITCH, MOVED, NO_CREDIT, NO_FLIT, NO_IDLE_CHANNEL, OWNING, ROUTED, Finding,
    lost_by, winner_of,
)
from .life import QUEUE
from .network import LOCAL, opposite, split
from .runs import ArrivalTimes, Run
from .traffic import Packet


class Place(NamedTuple):
    """A packet in an input channel of a router, or in the queue of its source."""

    packet: int
    router: int
    channel: str


class Step(NamedTuple):
    """What is to be said of a place, and the places that it waits for. It moves where there are none."""

    place: Place
    verdict: str
    words: str
    waits_for: list[Place]

    def line(self, before: "Step | None" = None) -> str:
        """The step in words; with the credit that the step before waits for."""
        packet, router, channel = self.place.packet, self.place.router, self.place.channel
        where = f"the queue of node {router}" if channel == QUEUE else f"router {router}, {channel}"
        credit = ""
        if self.verdict == MOVED and before is not None and before.place.router != router:
            credit = f", and its credit goes back to router {before.place.router}"
        return f"packet {packet}, {where}: {self.verdict}{self.words}{credit}."


class Snapshot:
    """A run in one cycle: what each input channel says that holds a packet, and where packets are one cycle later."""

    def __init__(self, run: Run, cycle: int, arrivals: ArrivalTimes | None = None) -> None:
        self.run, self.cycle = run, cycle
        self.arrivals = arrivals or ArrivalTimes(run, cycle)
        self.found: dict[int, dict[str, Finding]] = {}
        self.places: dict[tuple[int, str], Place] = {}
        self.following: set[tuple[int, int]] = set()
        for finding in run.trace(first=cycle, last=min(cycle + 1, run.network.cycles - 1)):
            self.take(finding)

    def take(self, finding: Finding) -> None:
        """Takes what is found of a channel that holds a packet."""
        packet, router, channel = finding.packet, finding.router, finding.channel
        if packet is not None and finding.cycle == self.cycle:
            self.found.setdefault(router, {})[channel] = finding
            self.places[router, channel] = Place(packet, router, channel)
        elif packet is not None:
            self.following.add((packet, router))

    def owners(self, router: int, out: str) -> list[Place]:
        """The packet that has an output channel; none where it is idle or drains."""
        found = self.found.get(router, {}).values()
        return [self.places[each.place] for each in found if each.verdict in OWNING and each.out == out]

    def behind(self, router: int, out: str) -> Place:
        """The packet in the buffer to which an output channel leads, where there is one."""
        port, number = split(out)
        return self.places[self.run.network.linked(router, port), f"{opposite(port)}.{number}"]

    def head(self, packet: Packet) -> Place | None:
        """Where the head of a packet stands, or the last of its channels where the head is out; None outside the
        network."""
        places = [place for place in self.places.values() if place.packet == packet.number]
        distance = self.run.network.distance
        return min(places, key=lambda place: distance(place.router, packet.destination)) if places else None

    def step(self, place: Place) -> Step:
        """The step that begins at a place."""
        if place.channel == QUEUE:
            return self.queue_step(place)
        finding = self.found[place.router][place.channel]
        words, waits_for = STEPS[finding.verdict](self, place, finding)
        return Step(place, finding.verdict, f". {words}", waits_for)

    def inside(self, router: int) -> tuple[list[str], list[Place]]:
        """The channels of the port local, and the packets in those that hold one."""
        local = [f"{LOCAL}.{number}" for number in range(self.run.network.channels)]
        return local, [self.places[router, channel] for channel in local if (router, channel) in self.places]

    def must_wait(self, packet: Packet) -> bool:
        """Whether each channel of the port local at its source has a packet whose turn is before its own: one by which
        it had come in would be empty or have a later one."""
        local, inside = self.inside(packet.source)
        turn = self.run.turn(packet.number)
        return len(inside) == len(local) and all(self.run.turn(found.packet) < turn for found in inside)

    def queue_step(self, place: Place) -> Step:
        """A packet that is due and whose head is still at its source."""
        if (place.packet, place.router) in self.following:
            return Step(place, "", "it comes in in the next cycle", [])
        local, inside = self.inside(place.router)
        if len(inside) == len(local):
            owners = ", and ".join(f"packet {found.packet} has {channel}" for found, channel in zip(inside, local))
            return Step(place, "", f"it needs a channel of the port local, and {owners}", inside)
        # (a node brings in one packet at a time, by due time and then by number)
        first = max(inside, key=lambda found: self.run.turn(found.packet))
        return Step(place, "", f"packet {first.packet} comes in first", [first])


# ---- a step for each verdict: what is said, and what is waited for

Said = tuple[str, list[Place]]


def goes_on(snapshot: Snapshot, place: Place, finding: Finding) -> Said:
    """It waits for nothing."""
    way = "leaves the network by" if finding.out.startswith(LOCAL) else "goes on by"
    moves = f"A flit {way} {finding.out}"
    said = {ROUTED: "Its head is routed", GRANTED: f"It gets {finding.out}", MOVED: moves}[finding.verdict]
    return f"{said} in this cycle", []


def no_flit(snapshot: Snapshot, place: Place, finding: Finding) -> Said:
    """It waits for the packet itself, at the router before."""
    port, number = split(place.channel)
    before = snapshot.run.network.linked(place.router, port)
    said = f"It has {finding.out}, and its next flit is still at router {before}"
    return said, snapshot.owners(before, f"{opposite(port)}.{number}")


def no_idle_channel(snapshot: Snapshot, place: Place, finding: Finding) -> Said:
    """Each channel that it may take has a packet, or drains: then its last packet is in the buffer at its end."""
    said, waits_for = [], []
    for channel in finding.permitted:
        owner = next(iter(snapshot.owners(place.router, channel)), None)
        if owner:
            said.append((channel, f"packet {owner.packet} has", ""))
        else:
            owner = snapshot.behind(place.router, channel)
            said.append((channel, "", f"the end of packet {owner.packet} is still at router {owner.router}"))
        waits_for.append(owner)
    return in_words(said), waits_for


def in_words(needed: list[tuple[str, str, str]]) -> str:
    """What is needed: channels, each with who has it, or with how it drains."""
    if len(needed) == 1:
        ((channel, owner, drains),) = needed
        return f"It needs {channel}, " + (f"and {owner} it" if owner else f"which drains: {drains}")
    names = " or ".join(channel for channel, _, _ in needed)
    said = [f"{owner} {channel}" if owner else f"{channel} drains ({drains})" for channel, owner, drains in needed]
    return f"It needs {names}: {', '.join(said)}"


def no_credit(snapshot: Snapshot, place: Place, finding: Finding) -> Said:
    """It waits for the packet itself, at the next router."""
    ahead = snapshot.behind(place.router, finding.out)
    return f"It has {finding.out}, and its own flits fill the buffer there, at router {ahead.router}", [ahead]


def loses(snapshot: Snapshot, place: Place, finding: Finding) -> Said:
    """It waits for the packet that won what it lost."""
    out, verdict = finding.out, finding.verdict
    winner = snapshot.places[winner_of(finding, snapshot.found[place.router].values()).place]
    said = {
        LOST_CHANNEL: f"It asked for {out}, and packet {winner.packet} gets it",
        LOST_INPUT: f"It has {out}, and {winner.channel} of the same port was picked, with packet {winner.packet}",
        LOST_SWITCH: f"It has {out}, and {winner.channel} won the port {lost_by(verdict, finding)}, with packet "
                     f"{winner.packet}",
    }
    return said[verdict], [winner]


STEPS: dict[str, Callable[[Snapshot, Place, Finding], Said]] = {
    **dict.fromkeys([ROUTED, GRANTED, MOVED], goes_on),
    **dict.fromkeys([LOST_CHANNEL, LOST_INPUT, LOST_SWITCH], loses),
    NO_FLIT: no_flit, NO_IDLE_CHANNEL: no_idle_channel, NO_CREDIT: no_credit,
}


# ---- from the first step to the root


def to_a_root(snapshot: Snapshot, start: Place) -> list[Step]:
    """The steps from a place to one that moves, the fewest; none where none of them can be reached."""
    before: dict[Place, list[Step]] = {start: []}
    waiting = [start]
    for place in waiting:
        step = snapshot.step(place)
        steps = [*before[place], step]
        if not step.waits_for:
            return steps
        for ahead in step.waits_for:
            if ahead not in before:
                before[ahead] = steps
                waiting.append(ahead)
    return []


def to_a_circle(snapshot: Snapshot, start: Place) -> tuple[list[Step], list[Step]]:
    """The steps from a place, by the first of the channels that each needs, until one comes back; and those of the
    circle."""
    steps: list[Step] = []
    place = start
    while place not in [step.place for step in steps]:
        steps.append(snapshot.step(place))
        place = steps[-1].waits_for[0]
    first = [step.place for step in steps].index(place)
    return steps, steps[first:]


def start_of(snapshot: Snapshot, packet: Packet) -> Place | str:
    """Where a packet begins to be followed, or why there is nothing to follow."""
    if snapshot.cycle < packet.due:
        return f"Packet {packet.number} is due in cycle {packet.due}."
    head = snapshot.head(packet)
    if head is None and (packet.number, packet.source) not in snapshot.following and not snapshot.must_wait(packet):
        out = snapshot.arrivals.out(packet)
        if out is not None:
            return f"Packet {packet.number} was out in cycle {out}."
    return head or Place(packet.number, packet.source, QUEUE)


def waiting_lines(snapshot: Snapshot, packet: Packet) -> list[str]:
    """What a packet waits for in the cycle, step by step, in words."""
    start = start_of(snapshot, packet)
    if isinstance(start, str):
        return [start]
    steps = to_a_root(snapshot, start)
    if not steps:
        steps, circle = to_a_circle(snapshot, start)
        names = list(dict.fromkeys(str(step.place.packet) for step in circle))
        return [*(step.line() for step in steps), f"So these packets wait for one another: {', '.join(names)}."]
    said = [step.line(before) for before, step in zip([None, *steps], steps)]
    root = steps[-1].place.packet
    if root != packet.number:
        said.append(f"So packet {packet.number} waits for packet {root}, which goes on.")
    return said
