"""Stall reports of noc: in how many cycles each input channel said each verdict, added up by router
and by link."""
from collections import Counter
from collections.abc import Iterable, Iterator
from dataclasses import dataclass, field, replace
from typing import NamedTuple

from .errors import Refused, refusing
from .files import named_rows
from .findings import COLUMNS, EMPTY, MOVED, REASONS, Place
from .network import LOCAL, Network, opposite, split
from .program import report as noc_report
from .runs import Run, config_file
from .statistics import Window

HEADER = ["router", "port", "vc", *COLUMNS.values()]
# The counts of a line of a stall report by their names.
Counts = dict[str, int]


@dataclass
class Router:
    """What the stall report says of the input channels of one router; occupied cycles are those
    with a packet."""

    cycles: int = 0
    occupied: int = 0
    reasons: Counter[str] = field(default_factory=Counter)
    channels: Counter[str] = field(default_factory=Counter)
    moved: Counter[str] = field(default_factory=Counter)

    def add(self, channel: str, counts: dict[str, int]) -> None:
        """Adds a line of the report."""
        stalls = {reason: counts[COLUMNS[reason]] for reason in REASONS}
        self.cycles += sum(counts.values())
        self.occupied += sum(counts.values()) - counts[COLUMNS[EMPTY]]
        self.reasons.update(stalls)
        self.channels[channel] = sum(stalls.values())
        self.moved[split(channel)[0]] += counts[COLUMNS[MOVED]]

    def share(self) -> float:
        """The share of stalled cycles of the occupied ones."""
        return self.reasons.total() / self.occupied if self.occupied else 0


@dataclass
class Report:
    """A stall report: its routers by number, and of how many cycles it is from a first one on.

    Where it is known, also how many flits left the network at each node in these, and how many
    packets waited in its queue on average.
    """

    routers: dict[int, Router]
    cycles: int
    first: int = 0
    left: Counter[int] | None = None
    queues: dict[int, float] | None = None


def read_counts(lines: Iterable[str], network: Network) -> dict[Place, Counts]:
    """The counts of each input channel in a stall report."""
    found: dict[Place, Counts] = {}
    rows = named_rows(lines, HEADER, "stall report", "what comes in")
    for number, row in enumerate(rows, 2):
        with refusing(ValueError, f"line {number} of the stall report is not whole"):
            place = int(row["router"]), f"{row['port']}.{int(row['vc'])}"
            found[place] = {name: int(row[name]) for name in HEADER[3:]}
            if min(found[place].values()) < 0:
                raise ValueError
    if len(found) != len(rows) or sorted(found) != sorted(network.places):
        raise Refused("the report has other channels than the configuration")
    return found


def report_of(counts: dict[Place, Counts]) -> Report:
    """The report of these counts, by router."""
    routers: dict[int, Router] = {}
    for (router, channel), found in counts.items():
        routers.setdefault(router, Router()).add(channel, found)
    cycles = {sum(found.values()) for found in counts.values()}
    if len(cycles) != 1 or cycles == {0}:
        raise Refused("the lines of the report are not of equally many cycles")
    return Report(routers, cycles.pop())


def report_within(run: Run, window: Window) -> Report:
    """The report of a window of a run: what is counted up to its end, less what is counted up to
    its beginning."""
    counts = counts_up_to(run, window.end)
    if window.first:
        before = counts_up_to(run, window.first)
        counts = {place: {name: found[name] - before[place][name] for name in found}
                  for place, found in counts.items()}
    report = report_of(counts)
    report.first, report.left = window.first, Counter()
    for packet in run.packets:
        if window.has(packet.out):
            report.left[packet.destination] += packet.length
    return report


def queues_within(run: Run, window: Window) -> dict[int, float]:
    """How many packets waited in the queue of each node in the cycles of a window, on average:
    those that were due and had not come in."""
    waited: Counter[int] = Counter()
    for packet in run.timed_packets:
        came_in = window.end if packet.came_in is None else min(packet.came_in, window.end)
        waited[packet.source] += max(0, came_in - max(packet.due, window.first))
    return {node: waited[node] / window.cycles for node in range(run.network.nodes)}


def counts_up_to(run: Run, cycles: int) -> dict[Place, Counts]:
    """The counts of the first cycles of a run."""
    config = config_file(replace(run.network, cycles=cycles))
    said = noc_report("run", config.path, *run.files_behind, "--report", "stalls")
    return read_counts(said.splitlines(), run.network)


# ---- links by their use


# The arrows between a router and its node.
INTO, OUT_OF = "in", "out"


class Link(NamedTuple):
    """A link from a router by a port, or between it and its node, and the share of cycles in which
    a flit used it."""

    router: int
    port: str
    goes_to: int
    use: float


def links_of(network: Network, report: Report) -> Iterator[Link]:
    """All links; those out of the network where the report knows of them."""
    for router in range(network.nodes):
        for port in network.ports:
            goes_to = network.neighbour(router, port)
            if goes_to is not None:
                use = report.routers[goes_to].moved[opposite(port)] / report.cycles
                yield Link(router, port, goes_to, use)
        yield Link(router, INTO, router, report.routers[router].moved[LOCAL] / report.cycles)
        if report.left is not None:
            yield Link(router, OUT_OF, router, report.left[router] / report.cycles)
