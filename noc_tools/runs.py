"""A run: a network with its traffic, and what noc says of it."""
import csv
import shutil
import tempfile
from collections.abc import Iterable, Iterator, Sequence
from dataclasses import replace
from functools import cached_property
from io import BytesIO
from pathlib import Path
from typing import IO, TYPE_CHECKING, Any

from . import shown
from .errors import Refused, refusing
from .files import STANDARD_INPUT, standard_input
from .findings import ROUTED, Finding, ParallelTrace, Selection, finding_of, without_header
from .network import MOST_CYCLES, Network
from .program import Process, call, called, free_processors, lines_in, output, report, texts
from .statistics import (
    NEVER, Columns, Figures, Window, end_of, entries_in, grouped_figures, outs_in, window_within,
)
from .traffic import Demand, Packet, Row, numbers_in, read_latencies, read_traffic, traffic_text

if TYPE_CHECKING:
    import pandas

# A span is long where it has so many cycles, each router counted by itself: noc takes some tenth of a second for it.
# A trace of a long span has several parts, three at most.
LONG, MOST_PARTS = 1_000_000, 3
# A trace in which heads are routed.
HEADS = Selection(verdicts=(ROUTED,)).words()


class InputFile:
    """A file that was given, by a path at which it can be read again and again.

    Of standard input ('-'), of a pipe and of a text that is a copy, which goes with this object.
    """

    def __init__(self, name: str | Path, text: str | None = None) -> None:
        self.name = self.path = str(name)
        if text is not None:
            self.keep(BytesIO(text.encode()))
        elif self.name == STANDARD_INPUT:
            self.name = "standard input"
            self.keep(standard_input().buffer)
        elif Path(name).is_fifo():
            with open(name, "rb") as pipe:
                self.keep(pipe)

    def keep(self, source: IO[bytes]) -> None:
        """Makes the copy."""
        self.folder = tempfile.TemporaryDirectory(prefix="noc-")
        path = Path(self.folder.name) / Path(self.name).name
        with open(path, "wb") as copy:
            shutil.copyfileobj(source, copy)
        self.path = str(path)


Config = str | Path | Network
Traffic = str | Path | Demand | Iterable[Packet]


def config_file(config: Config) -> InputFile:
    """The file of a configuration."""
    return InputFile("configuration", config.text()) if isinstance(config, Network) else InputFile(config)


def traffic_file(traffic: Traffic, network: Network) -> InputFile:
    """The file of a traffic for a network."""
    if isinstance(traffic, (str, Path)):
        return InputFile(traffic)
    if isinstance(traffic, Demand):
        return InputFile("traffic", traffic.traffic(network))
    return InputFile("traffic", traffic_text(packet.row for packet in traffic))


class Run:
    """A network with its traffic. noc is asked what happens only as far as it is wanted."""

    def __init__(self, config: Config, traffic: Traffic, table: str | Path | None = None, drain: bool = False) -> None:
        if sum(isinstance(file, str) and file == STANDARD_INPUT for file in (config, traffic, table)) > 1:
            raise Refused("standard input can be one of the files, and not two of them")
        self.config = config_file(config)
        self.network = Network.read(self.config.path)
        self.traffic = traffic_file(traffic, self.network)
        self.table = InputFile(table) if table else None
        self.free = free_processors()
        self.rows = read_traffic(self.traffic.path, self.traffic.name)
        self.ended: tuple[int, list[Packet]] | None = None
        if drain:
            self.drain()

    @property
    def files(self) -> list[str]:
        """The files as words for noc."""
        return [self.config.path, *self.files_behind]

    @property
    def files_behind(self) -> list[str]:
        """The files behind the configuration."""
        return [self.traffic.path, *(["--table", self.table.path] if self.table else [])]

    def drain(self) -> None:
        """Makes the run as long as 'noc run --drain' makes it; where packets are left for ever, up to the first cycle
        without an event."""
        summary = summary_of(report("run", *self.files, "--drain", "--report", "summary"))
        cycles = summary["cycles"] or 0
        if summary["left"]:
            cycles = max(self.network.cycles, (summary["last_event"] or 0) + 2)
        self.network = replace(self.network, cycles=min(cycles, MOST_CYCLES))
        self.config = InputFile(self.config.name, self.network.text())

    # ---- its packets

    def packet(self, number: int) -> Packet:
        """A packet as the traffic has it."""
        if not 0 <= number < len(self.rows):
            raise Refused(f"there is no packet {number}: the traffic has {len(self.rows)}")
        with refusing(ValueError, f"{self.traffic.name} is no traffic: row {number} is not five numbers"):
            return Packet(number, *numbers_in(self.rows[number]))

    def due_packet(self, number: int) -> Packet:
        """A packet that is due before the end of the run."""
        packet = self.packet(number)
        if self.network.cycles <= packet.due:
            late = f"packet {number} is due in cycle {packet.due}, behind the end of the run"
            raise Refused(f"{late} (--drain makes that later)")
        return packet

    def turn(self, number: int) -> tuple[int, int]:
        """The place of a packet in the queue of its source: by due time, and then by number."""
        return self.packet(number).due, number

    # ---- what noc says

    def finish(self) -> tuple[int, list[Packet]]:
        """Makes the run where no question has had it made yet, and returns its outcome."""
        if self.ended is None:
            status, text = call("run", *self.files)
            self.ended = status, read_latencies(text.splitlines(), self.network, "the report of noc")
        return self.ended

    @property
    def outcome(self) -> tuple[int, list[Packet]]:
        """The status of the run, and its packets with the cycles in which they were out."""
        return self.finish()

    @property
    def is_made(self) -> bool:
        """Whether noc was asked for its packets yet."""
        return self.ended is not None

    @property
    def status(self) -> int:
        """0 where the run is done, 5 where its packets wait for one another."""
        return self.outcome[0]

    @property
    def packets(self) -> list[Packet]:
        """The packets, with the cycles in which they were out."""
        return self.outcome[1]

    @cached_property
    def timed_packets(self) -> list[Packet]:
        """The packets, also with the cycles in which they came into the network, which takes a trace."""
        entries = entries_in(output("trace", *self.files, *HEADS), len(self.packets))
        return [
            packet if entry == NEVER else replace(packet, came_in=entry)
            for packet, entry in zip(self.packets, entries)
        ]

    @property
    def latencies(self) -> list[int]:
        """The latencies of the packets that were out, in the order of the packets."""
        return [packet.out - packet.due for packet in self.packets if packet.out is not None]

    @cached_property
    def counts(self) -> dict[str, int | None]:
        """The numbers of the summary report by their names."""
        return summary_of(report("run", *self.files, "--report", "summary"))

    @cached_property
    def stalls(self) -> list[dict[str, Any]]:
        """The counts of each input channel: a row with its router, port and number, and in how many cycles it said each
        verdict, by the names of the stall report."""
        rows = csv.DictReader(report("run", *self.files, "--report", "stalls").splitlines())
        return [{name: word if name == "port" else int(word) for name, word in row.items()} for row in rows]

    def figures(self, window: tuple[int, int] | None = None) -> Figures:
        """What is measured of the packets that are due in the cycles from the first of these to before the second, or
        in all. These are loads in flits for each node and cycle, latencies and their parts in cycles, hops, and
        fairness."""
        return grouped_figures(*self.measured(window))["all"]

    def grouped(self, by: str, window: tuple[int, int] | None = None) -> dict[int, Figures]:
        """The same for each class, source, destination or distance, as 'by' says: by its number."""
        found = grouped_figures(*self.measured(window), [by])
        return {int(name.removeprefix(by)): figures for name, figures in found.items() if name != "all"}

    def measured(self, window: tuple[int, int] | None) -> tuple[Columns, Window, Network]:
        """The packets, the window in which they are measured, and the network."""
        packets = Columns.of_packets(self.timed_packets)
        if window is None:
            return packets, Window(0, self.network.cycles), self.network
        first, end = window
        return packets, window_within(f"{first}:{end}", end_of(packets, self.network)), self.network

    # ---- in a notebook

    def frame(self, of: str = "packets", **chosen: Any) -> "pandas.DataFrame":
        """A frame of pandas, which has to be installed: a row for each packet, channel or line of a trace, as 'of' says
        ('packets', 'stalls' or 'trace'). Of a trace some lines are chosen by the names of a selection."""
        from . import frames
        return frames.of_run(self, of, **chosen)

    def __repr__(self) -> str:
        return f"<{shown.run_in_words(self)}>"

    def _repr_html_(self) -> str:
        return shown.run_as_table(self)

    # ---- further questions

    def is_long(self, cycles: int) -> bool:
        """Whether noc takes a while for so many cycles."""
        return LONG <= cycles * self.network.nodes

    def trace_lines(self, **chosen: Any) -> Iterator[str]:
        """The lines of a trace, as noc writes them; what is chosen has the names of a Selection."""
        return without_header(lines_in(texts("trace", *self.files, *Selection(**chosen).words())))

    def trace(self, **chosen: Any) -> Iterator[Finding]:
        """The findings of a trace, one after the other; what is chosen has the names of a Selection."""
        return map(finding_of, self.trace_lines(**chosen))

    def parallel_trace(self, first: int, last: int, processors: int, **chosen: Any) -> ParallelTrace:
        """The trace of a span by so many processors, which runs from now on."""
        number = max(1, min(MOST_PARTS, processors)) if self.is_long(last + 1 - first) else 1
        return ParallelTrace(self.files, Selection(**chosen), first, last, number)


def columns_of_run(files: Sequence[str], rows: Sequence[Row]) -> tuple[int, Columns]:
    """The status of a run of these files, and its packets column by column, but for when they came in."""
    sources, destinations, classes, lengths, dues = list(zip(*rows)) or [()] * 5
    status, written = called(["run", *files])
    outs = outs_in(written, dues)
    return status, Columns(sources, destinations, classes, lengths, dues, outs, [NEVER] * len(rows))


def with_entries(packets: Columns, files: Sequence[str], first: int, end: int) -> Columns:
    """The same, for those that are due from `first` to before `end` and were out also with when they came in."""
    measured = (out for due, out in zip(packets.dues, packets.outs) if first <= due < end and out < NEVER)
    trace = output("trace", *files, *HEADS, "--from", str(first), "--to", str(max(measured, default=first)))
    return packets._replace(entries=entries_in(trace, len(packets.dues)))


def summary_of(text: str) -> dict[str, int | None]:
    """The numbers of a summary report by their names, and None for a dash."""
    pairs = (line.split() for line in text.splitlines())
    return {name: None if number == "-" else int(number) for name, number in pairs}


class ArrivalTimes:
    """When packets were out before a cycle: by the latency report of a run that ends with it, beside other calls."""

    def __init__(self, run: Run, cycle: int) -> None:
        self.run, self.cycle = run, cycle
        self.process: Process | None = None

    def begin(self) -> Process:
        """Begins the run."""
        self.config = config_file(replace(self.run.network, cycles=self.cycle + 1))
        self.process = Process("run", self.config.path, *self.run.files_behind)
        return self.process

    @cached_property
    def rows(self) -> list[str]:
        """The lines of the report."""
        return list((self.process or self.begin()).lines())[1:]

    def out(self, packet: Packet) -> int | None:
        """The cycle in which a packet was out, or None."""
        out = self.rows[packet.number].split(",")[6]
        return None if out == "-" else int(out)

    def __enter__(self) -> "ArrivalTimes":
        return self

    def __exit__(self, *details: object) -> None:
        if self.process is not None:
            self.process.end()
