"""Compares the waves of a design with those of the model, cycle by cycle, up to the first that differs."""
import re
from collections import Counter, defaultdict, deque
from collections.abc import Iterator
from functools import cached_property
from typing import NamedTuple

from .errors import Refused
from .findings import EMPTY, GRANTED, LOST_CHANNEL, NO_CHANNEL, OWNING, VERDICTS, Finding, Place
from .network import LOCAL, MOST_DRAINED, split
from .signals import EDGES, OF_VERDICTS, OUT, PACKET, VERDICT, SignalMap, port_number
from .vcd import Changes, Dump, Signal, number_in
from .words import counted

# (waves of version 1.0.0 have no port in the names of their variables)
OF_MODEL = re.compile(r"noc\.router_(\d{1,3})\.(plus_\d|minus_\d|local)\.(?:\2_)?verdict_(\d)")
OF_CHANNEL = re.compile(r"([+-]\d|local)\.(\d)")
# Which offsets are tried where a map has none, or one that does not fit.
OFFSETS = range(21)
# An offset may be wrong where at most so many cycles agree, and another one fits by which so many do, and all.
EARLY, FITS = 64, 16
# The variables that the model has for each channel, and the verdicts beside which it has an output channel.
SAID = (VERDICT, PACKET, OUT)
WITH_OUT = {*OWNING, GRANTED, LOST_CHANNEL}


class Model:
    """The waves of the model: the channels that it has, and what it finds of them in each cycle."""

    def __init__(self, dump: Dump) -> None:
        self.dump = dump
        self.signs: dict[str, tuple[Place, str]] = {}
        self.said: dict[Place, dict[str, str]] = {}
        for name in dump.variables:
            if found := OF_MODEL.fullmatch(name):
                port = found[2].replace("plus_", "+").replace("minus_", "-")
                self.declare((int(found[1]), f"{port}.{found[3]}"), name)
        if not self.said:
            raise Refused(f"{dump.name} has no channel of a router as 'noc-tools waves' writes them")

    def declare(self, place: Place, verdict: str) -> None:
        """Takes in the variables of a channel."""
        self.said[place] = {}
        for kind in SAID:
            name = verdict.replace(VERDICT, kind)
            signal = self.dump.signal(name)
            if signal is None:
                raise Refused(f"{self.dump.name} has no '{name}', as 'noc-tools waves' writes it")
            self.signs[signal.sign] = place, kind

    @cached_property
    def places(self) -> list[Place]:
        """All channels, in the order of the file."""
        return list(self.said)

    @cached_property
    def ports(self) -> int:
        """The ports of a router: two for each dimension, in which each router has a link, and the local one."""
        names = {split(channel)[0] for _, channel in self.said}
        return 2 * len({name[1:] for name in names - {LOCAL}}) + 1

    @cached_property
    def channels(self) -> int:
        """The channels of a port."""
        return 1 + max(split(channel)[1] for _, channel in self.said)

    def cycles(self) -> Iterator[tuple[int, set[Place]]]:
        """Each cycle, with the channels of which something else is said than before; the last time only ends it."""
        changed: set[Place] = set()
        cycle: int | None = None
        for time, changes in self.dump.steps(self.signs):
            if MOST_DRAINED < time:
                raise Refused(f"{self.dump.name} has the cycle {time}, and noc runs at most {MOST_DRAINED}")
            for earlier in range(time if cycle is None else cycle, time):
                yield earlier, changed
                changed = set()
            for sign, value in changes.items():
                place, kind = self.signs[sign]
                self.said[place][kind] = value
                changed.add(place)
            cycle = time

    def has_channel(self, name: str) -> bool:
        """Whether a router may have an output channel of this name."""
        found = OF_CHANNEL.fullmatch(name)
        if found is None or self.channels <= int(found[2]):
            return False
        return found[1] == LOCAL or port_number(found[1], self.ports) < self.ports - 1

    def finding(self, cycle: int, place: Place) -> Finding:
        """What the model finds of a channel."""
        verdict, packet, out = (self.said[place].get(kind, "") for kind in SAID)
        holder = number_in(packet)
        is_whole = verdict in VERDICTS and (packet == "z" if verdict == EMPTY else holder is not None)
        if not is_whole or not (self.has_channel(out) if verdict in WITH_OUT else out == NO_CHANNEL):
            raise Refused(f"{self.dump.name} does not say what router {place[0]}, {place[1]} does in cycle {cycle}")
        return Finding(cycle, *place, verdict, holder, out, ())


class Design:
    """The waves of a design: the signals of each channel, by a map, and their values in each cycle."""

    def __init__(self, dump: Dump, names: SignalMap, model: Model) -> None:
        self.dump, self.map = dump, names
        if names.ports is not None and len(names.ports) != model.ports:
            raise Refused(f"the map has {counted(len(names.ports), 'port')}, and a router has {model.ports}")
        self.clock = self.found(names.clock)
        self.signals: dict[Place, list[tuple[str, Signal, int]]] = defaultdict(list)
        self.places: dict[tuple[str, int], set[Place]] = defaultdict(set)
        for place in model.places:
            for kind, pattern in names.patterns.items():
                signal = self.found(names.name(pattern, *place, model.ports, model.channels))
                self.signals[place].append((kind, signal, pattern.delay))
                self.places[signal.sign, pattern.delay].add(place)
        # By the delay of signals: their values, and the time of the edge before which they were taken.
        self.values: dict[int, Changes] = {pattern.delay: {} for pattern in names.patterns.values()}
        self.times: dict[int, int] = {}

    def found(self, name: str) -> Signal:
        """The signal of a name."""
        signal = self.dump.signal(name)
        if signal is None:
            raise Refused(f"{self.dump.name} has no signal '{name}', which the map names")
        return signal

    def samples(self) -> Iterator[tuple[int, Changes]]:
        """The time of each edge of the clock, and what has changed before it since the last one."""
        level: str | None = None
        changed: Changes = {}
        has_edge = False
        for time, changes in self.dump.steps({self.clock.sign, *(sign for sign, _ in self.places)}):
            before, level = level, self.clock.value_in(changes) if self.clock.sign in changes else level
            if before not in (None, level) and level == EDGES[self.map.edge]:
                yield time, changed
                changed, has_edge = {}, True
            changed.update(changes)
        if not has_edge:
            raise Refused(f"the clock '{self.clock.name}' of {self.dump.name} has no {self.map.edge} edge")

    def cycles(self) -> Iterator[tuple[int, set[Place]]]:
        """Each cycle, and the channels of which a signal may have changed."""
        latest = max(self.values)
        kept: deque[tuple[int, Changes]] = deque(maxlen=latest + 1)
        for cycle, sample in enumerate(self.samples(), -(self.map.offset or 0) - latest):
            kept.append(sample)
            changed: set[Place] = set()
            for delay, values in self.values.items():
                ago = latest - delay
                if ago < len(kept):
                    self.times[delay], changes = kept[-1 - ago]
                    values.update(changes)
                    changed.update(*(self.places[sign, delay] for sign in changes if (sign, delay) in self.places))
            yield cycle, changed


class Difference(NamedTuple):
    """Where a design differs first: what the model finds there and at its router, the signal that says something else
    than it should, and the further channels that differ in this cycle."""

    finding: Finding
    around: list[Finding]
    kind: str
    expected: int
    signal: Signal
    value: str
    time: int
    others: list[Place]


class Coverage:
    """In how many cycles the channels of each port had each verdict, of those that were compared."""

    def __init__(self) -> None:
        self.counts = Counter[tuple[str, str]]()
        self.since: dict[Place, tuple[int, str]] = {}

    def add(self, finding: Finding) -> None:
        """Counts what a channel had up to a cycle, from which on it has what was found there."""
        self.end(finding.place, finding.cycle)
        self.since[finding.place] = finding.cycle, finding.verdict

    def end(self, place: Place, cycle: int) -> None:
        """Counts what a channel had in the cycles before this one."""
        if place in self.since:
            first, verdict = self.since.pop(place)
            self.counts[split(place[1])[0], verdict] += cycle - first

    def end_all(self, cycle: int) -> None:
        """Counts what all channels had in the cycles before this one."""
        for place in list(self.since):
            self.end(place, cycle)

    def of(self, verdict: str) -> int:
        """In how many cycles channels had a verdict, at all ports."""
        return sum(count for (_, other), count in self.counts.items() if other == verdict)


class Comparison:
    """A model and a design, and the cycles in which they were compared, from one of them on."""

    def __init__(self, model: Model, design: Design, first: int = 0) -> None:
        self.model, self.design, self.first = model, design, first
        self.cycles = range(0)
        self.coverage = Coverage()

    def common(self) -> Iterator[tuple[int, set[Place]]]:
        """The cycles that both have, from the first that is compared on, each with the channels of
        which something may have changed."""
        design = self.design.cycles()
        changed = set(self.model.places)
        ahead, touched = next(design)
        for cycle, said in self.model.cycles():
            changed |= said
            while ahead < cycle:
                following = next(design, None)
                if following is None:
                    return
                ahead, touched = following
                changed |= touched
            if ahead == cycle and self.first <= cycle:
                yield cycle, changed
                changed = set()

    def expected(self, kind: str, finding: Finding) -> int | None:
        """What a signal has to say of a channel; None where it may say anything."""
        names = self.design.map
        if kind in OF_VERDICTS:
            return int(finding.verdict == OF_VERDICTS[kind])
        if kind == VERDICT:
            return names.verdicts.index(finding.verdict) if finding.verdict in names.verdicts else None
        if kind == PACKET:
            return finding.packet
        return None if finding.out == NO_CHANNEL else names.index_of(finding.out, self.model.ports, self.model.channels)

    def wrong(self, finding: Finding) -> tuple[str, int, Signal, str, int] | None:
        """The first signal of a channel that says something else than the model, what it should say, its value, and
        the time of that."""
        for kind, signal, delay in self.design.signals[finding.place]:
            value, expected = signal.value_in(self.design.values[delay]), self.expected(kind, finding)
            if expected is not None and number_in(value) != expected:
                return kind, expected, signal, value, self.design.times[delay]
        return None

    def difference(self) -> Difference | None:
        """The first difference, by cycle and then in the order of the channels."""
        for cycle, changed in self.common():
            self.cycles = range(self.cycles.start if self.cycles else cycle, cycle + 1)
            findings = [self.model.finding(cycle, place) for place in self.model.places if place in changed]
            for finding in findings:
                self.coverage.add(finding)
            differing = [(finding, found) for finding in findings if (found := self.wrong(finding))]
            if differing:
                (first, found), *others = differing
                at_router = [place for place in self.model.places if place[0] == first.router]
                around = [self.model.finding(cycle, place) for place in at_router]
                return Difference(first, around, *found, [finding.place for finding, _ in others])
        self.coverage.end_all(self.cycles.stop)
        return None


class Answer(NamedTuple):
    """A comparison that was made, the map with the offset by which it was, and the first difference, if there is one.
    Of a map with an offset also the other one by which all cycles agree, if this one does not fit."""

    comparison: Comparison
    names: SignalMap
    found: Difference | None
    fitting: int | None = None

    @property
    def agreed(self) -> int:
        """How many cycles agree before the first difference, if there is one."""
        return len(self.comparison.cycles) - (self.found is not None)


def compared_by(reference: str, design: str, names: SignalMap, first: int) -> Answer:
    """Compares two dumps by a map."""
    model = Model(Dump(reference))
    made = Comparison(model, Design(Dump(design), names, model), first)
    return Answer(made, names, made.difference())


def compared(reference: str, design: str, names: SignalMap, first: int = 0) -> Answer:
    """Compares two dumps by a map. Where it has no offset, by that one of those tried by which most cycles agree; where
    it has one and an early cycle differs, says which other one fits."""
    if names.offset is not None:
        answer = compared_by(reference, design, names, first)
        if answer.found is None or answer.agreed > EARLY:
            return answer
    tried = [compared_by(reference, design, names._replace(offset=offset), first) for offset in OFFSETS]
    best = max(tried, key=lambda each: (each.agreed, each.found is None))
    if names.offset is None:
        return best
    fits = best.found is None and best.agreed >= max(FITS, answer.agreed)
    return answer._replace(fitting=best.names.offset if fits else None)
