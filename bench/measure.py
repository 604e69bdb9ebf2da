#!/usr/bin/env python3
"""Measures how fast a program simulates, and compares it with another one.

    measure.py PROGRAM [--against OTHER [--own-clock]] [--channels N] [--repeat N] [--only NAME..]

For each workload of make_workloads.py the program gets the joined text on standard input twice: once with the
workload's cycles and once with one cycle. What the first takes longer is the time of the cycle loop, since reading,
setting up and the report are in both. It is processor time, so waiting for a processor is left out. In a round these
two runs are repeated until the long ones have taken 0.3 seconds, so that short workloads run often, and the times are
added. The figure is the median of N rounds (15 by default), in router-cycles per second: one router that does one cycle
is one router-cycle. A table in Markdown goes to standard output. With --channels each network has so many virtual
channels, and its traffic is the same.

The runs of OTHER are measured in the same way, each next to one of PROGRAM, so that both meet the same neighbours on
the machine. Each round then has a ratio of the two speeds. The median of the ratios is told, and the quartiles, between
which half of the ratios lie. With --own-clock OTHER is run as 'OTHER run CONFIG TRAFFIC --time' instead, and must write
'seconds S' with the time of its cycle loop to standard error. The latency reports of all runs must be the same, and so
must the stall reports of both programs, which are called for them as 'run CONFIG TRAFFIC --report stalls' once, without
a clock. Reports that differ are an error, and so are statuses other than 0 and 5.
"""
import argparse
import re
import resource
import subprocess
import sys
import tempfile
from collections.abc import Callable, Sequence
from pathlib import Path
from statistics import median, quantiles

sys.dont_write_bytecode = True
from make_workloads import Workload, chosen, texts_in  # noqa: E402

Clock = Callable[[], float]

ENDED_WELL = (0, 5)
# A round goes on until the long runs of each side have taken so many seconds.
ENOUGH = 0.3


def processor_seconds() -> float:
    """The processor time of all programs that were run and have ended."""
    used = resource.getrusage(resource.RUSAGE_CHILDREN)
    return used.ru_utime + used.ru_stime


def timed_run(words: list[str], text: bytes, clock: Clock = processor_seconds) -> tuple[float, bytes, str]:
    """Runs a program; returns its seconds by a clock, its standard output and its standard error."""
    start = clock()
    ran = subprocess.run(words, input=text, capture_output=True)
    seconds = clock() - start
    if ran.returncode not in ENDED_WELL:
        sys.exit(f"measure: {words[0]} ended with status {ran.returncode}: {ran.stderr.decode(errors='replace')[:300]}")
    return seconds, ran.stdout, ran.stderr.decode(errors="replace")


def stalls(program: str, load: Workload, folder: Path) -> bytes:
    """The stall report of a program."""
    return timed_run([program, "run", *texts_in(folder, load), "--report", "stalls"], b"")[1]


class Joined:
    """A program of one thread that is measured by two runs on joined texts, with all cycles and with one."""

    clock: Clock = staticmethod(processor_seconds)

    def __init__(self, program: str) -> None:
        self.program = str(Path(program).resolve())
        self.words = [self.program]

    def start(self, load: Workload, folder: Path) -> None:
        """Makes the texts of a workload ready."""
        self.start_with(load, "---\n" + load.traffic())

    def start_with(self, load: Workload, tail: str) -> None:
        """Makes the texts ready, which are the configurations and something behind them."""
        self.texts = [(load.config(cycles) + tail).encode() for cycles in (load.network.cycles, 1)]

    def begin(self) -> None:
        """Begins a round: no run, no cycle and no loop has been timed."""
        self.whole = self.loops = 0.0
        self.cycles = 0

    def run(self, load: Workload) -> bytes:
        """Times one cycle loop more; returns the report."""
        (seconds, report, _), (least, _, _) = [timed_run(self.words, text, self.clock) for text in self.texts]
        self.add(seconds, seconds - least, load.network.cycles - 1)
        return report

    def add(self, whole: float, loop: float, cycles: int) -> None:
        """Adds a run, the cycle loop in it, and the cycles of that."""
        self.whole += whole
        self.loops += loop
        self.cycles += cycles

    def speed(self, load: Workload) -> float:
        """The router-cycles per second of the round."""
        return load.network.nodes * self.cycles / max(self.loops, 1e-9)


class OwnClock(Joined):
    """A program that measures its cycle loop itself."""

    def start(self, load: Workload, folder: Path) -> None:
        self.words = [self.program, "run", *texts_in(folder, load), "--time"]

    def run(self, load: Workload) -> bytes:
        seconds, report, said = timed_run(self.words, b"")
        found = re.search(r"seconds ([0-9.]+)", said)
        if not found:
            sys.exit(f"measure: {self.program} wrote no 'seconds S' to standard error")
        self.add(seconds, float(found[1]), load.network.cycles)
        return report


class Measured:
    """Of each round the router-cycles per second of each side, and the different reports that were written."""

    def __init__(self) -> None:
        self.rounds: list[list[float]] = []
        self.reports: set[bytes] = set()

    def add_round(self, load: Workload, sides: Sequence[Joined]) -> None:
        """Runs the sides in turn until each of them has run for long enough."""
        for side in sides:
            side.begin()
        while min(side.whole for side in sides) < ENOUGH:
            self.reports |= {side.run(load) for side in sides}
        self.rounds.append([side.speed(load) for side in sides])

    def speed(self, side: int) -> float:
        """The median of the speeds of a side."""
        return median(speeds[side] for speeds in self.rounds)

    def ratios(self, side: int, than: int) -> list[float]:
        """How many times as fast a side was as another one, round by round."""
        return [speeds[side] / speeds[than] for speeds in self.rounds]


def measure(load: Workload, sides: Sequence[Joined], repeat: int, folder: Path) -> Measured:
    """Measures so many rounds."""
    for side in sides:
        side.start(load, folder)
    measured = Measured()
    for _ in range(repeat):
        measured.add_round(load, sides)
    return measured


def figures_of(measured: Measured, sides: int) -> list[str]:
    """The speed of each side, and how many times as fast the first one was as the second."""
    figures = [f"{measured.speed(side) / 1e6:.1f}" for side in range(sides)]
    if sides == 1:
        return figures
    ratios = measured.ratios(0, 1)
    low, _, high = quantiles(ratios, method="inclusive") if len(ratios) > 1 else ratios * 3
    return [*figures, f"{median(ratios):.2f}", f"{low:.2f} to {high:.2f}"]


def write_same_stalls(load: Workload, sides: Sequence[Joined], folder: Path) -> bool:
    """Whether all sides write the same stall report."""
    return len(sides) == 1 or len({stalls(side.program, load, folder) for side in sides}) == 1


def main() -> int:
    parser = argparse.ArgumentParser(description="Measures how fast a program simulates.")
    parser.add_argument("program")
    parser.add_argument("--against", metavar="OTHER", help="a second program to compare with")
    parser.add_argument("--own-clock", action="store_true", help="OTHER times its cycle loop itself")
    parser.add_argument("--channels", type=int, metavar="N", help="virtual channels of each network")
    parser.add_argument("--repeat", type=int, default=15, metavar="N", help="rounds, of which the median counts")
    parser.add_argument("--only", nargs="+", metavar="NAME", help="these workloads alone")
    options = parser.parse_args()
    sides = [Joined(options.program)]
    if options.against:
        sides.append((OwnClock if options.own_clock else Joined)(options.against))
    heads = ["workload", "routers", "cycles", "M router-cycles/s"] + (
        ["the other", "ratio", "half of the ratios"] if options.against else [])
    print("|", " | ".join(heads), "|")
    print("|---|" + "--:|" * (len(heads) - 1))
    well = True
    with tempfile.TemporaryDirectory(prefix="noc-bench-") as folder:
        for load in chosen(options.only, options.channels):
            measured = measure(load, sides, options.repeat, Path(folder))
            cells = [load.name, str(load.network.nodes), str(load.network.cycles), *figures_of(measured, len(sides))]
            print("|", " | ".join(cells), "|", flush=True)
            if len(measured.reports) > 1 or not write_same_stalls(load, sides, Path(folder)):
                print(f"measure: the reports on {load.name} differ", file=sys.stderr)
                well = False
    return 0 if well else 1


if __name__ == "__main__":
    sys.exit(main())
