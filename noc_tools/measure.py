"""A measured run: a network under a traffic, and under replies to it, which are due when the request was out."""
from collections.abc import Iterable, Iterator, Sequence
from dataclasses import replace
from functools import lru_cache, partial
from pathlib import Path
from tempfile import TemporaryDirectory
from typing import NamedTuple

from . import precedence
from .bound import Bound, Ways, asked_for, bound_of, flows_of, sent, ways_of
from .deadlock import is_deadlock_free
from .errors import Refused
from .files import write
from .network import Network
from .pool import made_in_order
from .precedence import After, Dependent, read_dependents
from .program import STUCK, output, report
from .replies import Levels, check_levels, settled, weight_of
from .runs import columns_of_run, with_entries
from .statistics import (
    KEPT_UP, LATENCY_NAMES, MARGINS, PART_NAMES, TOLERANCE, Figures, Number, Sample, Window, alone_for, outs_in,
    own_time, warnings, word_of,
)
from .traffic import (
    MOST_PACKETS, PERMUTATION, Demand, Played, Row, check_classes, fitting, traffic_text,
)
from .units import Unit

# The columns of a measured run: the cycles that it had, the figures of the latency, what it is made of, what was asked
# of links and what these allow, and whether the run stood still and its network has ranks.
COLUMNS = [
    "ran", *LATENCY_NAMES, "steady", *PART_NAMES, *MARGINS, "behind", "own_time", "asked", "bound", "bound_load",
    "stuck", "deadlock_free",
]


def yes_or_no(flag: bool) -> str:
    """A truth value as a field of CSV."""
    return "yes" if flag else "no"


class Files(NamedTuple):
    """The files of one run, the packets of its traffic, and how many cycles it has."""

    config: Path
    traffic: Path
    table: str | None
    rows: list[Row]
    cycles: int

    def words(self) -> list[str]:
        """The files as words for noc."""
        return [str(self.config), str(self.traffic), *(["--table", self.table] if self.table else [])]


class Known(NamedTuple):
    """What is asked once of a network and a traffic: whether the network has ranks, and the bound, where the traffic is
    that of a pattern."""

    is_free: bool
    bound: Bound | None


class Measurement(NamedTuple):
    """What was measured of a run of so many cycles."""

    ran: int
    figures: Figures
    is_steady: bool
    # Whether all its packets waited for one another at its end.
    is_stuck: bool
    # Of how many sources and destinations the packets pile up, and how long the network takes to forget how it began.
    behind: int
    own_time: float
    # What the packets of the window ask of the link of which they ask most, in flits for each cycle.
    asked: float
    known: Known

    def words(self) -> list[str]:
        """As fields of CSV, in the order of the columns."""
        found: dict[str, Number] = self.figures.columns()
        words = {name: word_of(name, number) for name, number in found.items()}
        flags = {"steady": self.is_steady, "stuck": self.is_stuck, "deadlock_free": self.known.is_free}
        bound = self.known.bound
        loads = {"bound": bound and bound.accepted, "bound_load": bound and bound.load, "asked": self.asked}
        words |= {"ran": str(self.ran), **{name: yes_or_no(flag) for name, flag in flags.items()}}
        words |= {name: "-" if load is None else f"{load:.4f}" for name, load in loads.items()}
        words |= {"behind": str(self.behind), "own_time": f"{self.own_time:.0f}"}
        return [words[name] for name in COLUMNS]


class Experiment(NamedTuple):
    """What is measured: a network under a traffic, in a window of its run."""

    network: Network
    traffic: Demand | Played
    window: Window
    table: str | None = None
    tolerance: float = TOLERANCE
    replies: Levels = ()
    # The classes whose packets are measured, without them all; and in what loads are told.
    classes: tuple[int, ...] | None = None
    unit: Unit = Unit()
    # Whether queue and network are told apart, which takes a second run.
    parts: bool = True
    # What is asked once, where this has been done before.
    known: Known | None = None

    def check(self) -> None:
        """Refuses what cannot be had of the network."""
        self.traffic.check(self.network)
        check_levels(self.replies, self.network)
        check_classes(self.classes or (), self.network)

    @property
    def made(self) -> "Made":
        """Its traffic but for replies, which is made once for runs in succession."""
        shape = replace(self.network, kind="mesh", channels=1, buffer=1, rule="dor")
        return made_traffic(self.traffic, shape, self.replies)

    @property
    def silence(self) -> tuple[int, int] | None:
        """The cycle of the last packet and the end of the window, where the packets are over well before the window is:
        then the loads are too low by more than a network may lack that keeps up. Packets that wait for others come when
        they come."""
        made = self.made
        if made.afters:
            return None
        window = self.window.fitted(self.network.cycles, made.cycles)
        last = max((row[4] for row in made.rows), default=0)
        return (last, window.end) if (1 - KEPT_UP) * window.cycles < window.end - 1 - last else None

    @property
    def longest(self) -> int:
        """The cycles that a packet may take where it is alone; of a traffic file one with a flit."""
        lengths = self.traffic.lengths if isinstance(self.traffic, Demand) else (1,)
        return alone_for(max(max(hops) for hops in self.network.hop_table), max(lengths))

    def warm_up(self, ran: int) -> int:
        """The cycles before the window of a run that had so many."""
        return self.window.fitted(self.network.cycles, ran).first

    def config_text(self, cycles: int) -> str:
        """The configuration of the run."""
        return replace(self.network, cycles=cycles).text()

    def files_in(self, folder: Path) -> Files:
        """Writes the files of the run; it is shorter where noc does not take the packets of all its cycles."""
        made, config, traffic = self.made, folder / "config.toml", folder / "traffic.csv"
        write(config, self.config_text(made.cycles))
        write(traffic, made.text)
        files = Files(config, traffic, self.table, made.rows, made.cycles)
        if made.afters:
            packets = list(map(Dependent, made.rows, made.afters))
            return files._replace(rows=precedence.settled(packets, self.network, lambda some: outs_of(files, some)))
        if not self.replies:
            return files
        rows = settled(made.rows, self.replies, lambda some: outs_of(files, some), made.cycles)
        return files._replace(rows=rows)

    def measured(self, files: Files) -> Measurement:
        """The figures of a run of these files; of a shorter run the window is the same part."""
        window = self.window.fitted(self.network.cycles, files.cycles)
        status, packets = columns_of_run(files.words(), files.rows)
        if self.parts:
            packets = with_entries(packets, files.words(), window.first, window.end)
        if self.classes is not None:
            packets = packets.chosen(number in self.classes for number in packets.classes)
        sample = Sample(packets, window, list(map(self.unit.worth, packets.classes, packets.lengths)))
        found = sample.figures(self.network, self.network.nodes)
        asked = self.asked_in(files.rows, window)
        own = own_time(sample.arrived, self.network)
        is_steady = asked <= 1 and not warnings(sample, own, self.tolerance)
        return Measurement(
            files.cycles, found, is_steady, status == STUCK, len(sample.behind.nodes), own, asked,
            self.known or self.learnt(),
        )

    def learnt(self, is_free: bool = False) -> Known:
        """What is asked once; a network may be known to have ranks."""
        return Known(is_free or is_deadlock_free(self.network, self.table), self.bound)

    @property
    def bound(self) -> Bound | None:
        """The greatest load that links and ports allow of the pattern, with its replies; None for a traffic file."""
        if not isinstance(self.traffic, Demand):
            return None
        seed = self.traffic.seed if self.traffic.pattern == PERMUTATION else 1
        demand = replace(self.traffic, load=1, seed=seed, cycles=None, burst=None)
        return kept_bound(ways_of(self.network, self.table), demand, self.replies, self.classes, self.unit)

    def asked_in(self, rows: Iterable[Row], window: Window) -> float:
        """What the packets that are due in a window ask of the link or port of which they ask most, in flits for each
        of its cycles, as far as no choice of ways avoids it."""
        first, end = window
        due = ((source, goal, number, length) for source, goal, number, length, due in rows if first <= due < end)
        return max(asked_for(ways_of(self.network, self.table), sent(due))) / window.cycles


class Made(NamedTuple):
    """A traffic as packets and as text, for so many cycles of a run; and for which others each packet waits, where some
    wait."""

    rows: list[Row]
    text: str
    cycles: int
    afters: list[tuple[After, ...]]


@lru_cache(maxsize=64)
def kept_bound(
    ways: Ways, demand: Demand, replies: Levels, classes: tuple[int, ...] | None, unit: Unit
) -> Bound | None:
    """The bound on a demand whose load is 1 in flits, in some unit, which is worked out once."""
    def worth(message_class: int) -> float:
        lengths = tuple(level.length for level in replies if level.by == message_class)
        is_reply = lengths and message_class not in demand.classes
        return unit.of_a_flit(message_class, lengths if is_reply else demand.lengths)

    flows = flows_of(demand, ways.network, [(level.to, level.by, level.length) for level in replies])
    return bound_of(ways, flows, worth, worth(demand.classes[0]), classes)


@lru_cache(maxsize=1)
def made_traffic(traffic: Demand | Played, shape: Network, replies: Levels) -> Made:
    """The traffic of a network of this shape; the packets of the first cycles where noc does not take all of them with
    their replies."""
    rows, cycles = fitting(traffic.first_rows(shape), shape.cycles, partial(weight_of, replies))
    afters = [each.afters for each in read_dependents(traffic.path)] if isinstance(traffic, Played) else []
    if not (isinstance(traffic, Played) and any(afters)):
        return Made(rows, traffic_text(rows), cycles, [])
    if replies or cycles < shape.cycles:
        why = "replies have no part in it" if replies else f"noc takes {MOST_PACKETS} of them"
        raise Refused(f"packets of {traffic.path} wait for others, and {why}")
    return Made(rows, traffic_text(rows), cycles, afters)


def outs_of(files: Files, rows: Sequence[Row]) -> Sequence[int]:
    """When these packets are out in a run, whose traffic is written."""
    write(files.traffic, traffic_text(rows))
    return outs_in(output("run", *files.words()), [row[4] for row in rows])


def measured_in(folder: Path, experiment: Experiment) -> Measurement:
    """The figures of one run, in a process of a pool."""
    return experiment.measured(experiment.files_in(folder))


def measured_side_by_side(experiments: Sequence[Experiment], jobs: int) -> Iterator[Measurement]:
    """The figures of runs in their order, so many made at a time."""
    return made_in_order(measured_in, experiments, jobs)


def check_network(network: Network, table: str | None = None) -> None:
    """Refuses what noc does not take, which is a run without packets here."""
    with TemporaryDirectory(prefix="noc-try-") as folder:
        config = Path(folder, "config.toml")
        write(config, network.text())
        words = ["--report", "summary", *(["--table", table] if table else [])]
        report("run", str(config), "/dev/stdin", *words, given=traffic_text([]))


def told_of_short_runs(runs: Iterable[tuple[int, int]]) -> str | None:
    """In words how many runs have fewer cycles than asked for, by pairs of what they had and what was asked."""
    pairs = list(runs)
    shorter = [pair for pair in pairs if pair[0] < pair[1]]
    if not shorter:
        return None
    ran, cycles = min(shorter)
    told = f"noc takes {MOST_PACKETS} packets, so {len(shorter)} of {len(pairs)} runs had fewer cycles than asked"
    return f"{told}: the shortest had {ran} of {cycles}"


def told_of_warm_up(runs: Iterable[tuple[int, int]]) -> str | None:
    """In words how many runs have a warm-up that is over before a packet may be out, by pairs of the two in cycles; not
    of runs without one."""
    pairs = list(runs)
    short = [pair for pair in pairs if 0 < pair[0] < pair[1]]
    if not short:
        return None
    first, longest = min(short)
    told = f"in {len(short)} of {len(pairs)} runs the warm-up is shorter than a packet may take alone"
    return f"{told}: {first} cycles, and {longest}"


def told_of_standstill(stuck: Sequence[bool]) -> str | None:
    """In words how many runs stood still."""
    if not any(stuck):
        return None
    told = "stood still: packets wait for one another in a circle, so the figures are those of a deadlock"
    return f"{stuck.count(True)} of {len(stuck)} runs {told}"
