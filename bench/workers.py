#!/usr/bin/env python3
"""Measures what several workers gain.

    workers.py PROGRAM [--workers W..] [--repeat N] [--beside N] [--channels N] [--only NAME..]

For workloads of make_workloads.py on 256 routers the program runs with 1, 2 and 4 workers, or those that are named, in
turn, in rounds as those of measure.py, but by the clock on the wall. A table in Markdown goes to standard output:
router-cycles per second of the first number of workers, and how many times as fast the others are, both as medians of N
rounds (15 by default). With --channels each network has so many virtual channels, and its traffic is the same. Reports
that differ are an error. Workloads of up to 64 routers, which are one block, run by one thread, however many workers
there are.

More workers than free processors do not pay, so what other programs do on the machine shows in every figure: its load
comes first. With --beside so many processes that are always busy run beside the program.
"""
import argparse
import os
import subprocess
import sys
import tempfile
import time
from collections.abc import Iterator
from contextlib import contextmanager
from pathlib import Path
from statistics import median

sys.dont_write_bytecode = True
from make_workloads import Workload, large_workloads, texts_in, workloads  # noqa: E402
from measure import Joined, measure  # noqa: E402

LOADS = {load.name: load for load in workloads() + large_workloads()}
# Those of several blocks that are busy for long enough.
WORKLOADS = ["d_transpose16", "h_torus16", "i_mesh16", "j_mesh884"]


class Workers(Joined):
    """A program with so many workers, which gets the configuration on standard input and the traffic by a file."""

    clock = staticmethod(time.perf_counter)

    def __init__(self, program: str, workers: int) -> None:
        super().__init__(program)
        self.workers = str(workers)

    def start(self, load: Workload, folder: Path) -> None:
        self.start_with(load, "")
        self.words = [self.program, "run", "/dev/stdin", texts_in(folder, load)[1], "--workers", self.workers]


@contextmanager
def busy(count: int) -> Iterator[None]:
    """So many processes that are always busy."""
    started = [subprocess.Popen([sys.executable, "-c", "while True: pass"]) for _ in range(count)]
    try:
        yield
    finally:
        for process in started:
            process.kill()
            process.wait()


def table(options: argparse.Namespace, folder: Path) -> bool:
    """Writes the table; returns whether no report differed."""
    least, *others = options.workers
    heads = ["workload", "routers", "cycles", f"M router-cycles/s by {least}", *(f"by {workers}" for workers in others)]
    print("|", " | ".join(heads), "|")
    print("|---|" + "--:|" * (len(heads) - 1))
    well = True
    for load in (LOADS[name].with_channels(options.channels) for name in options.only):
        sides = [Workers(options.program, workers) for workers in options.workers]
        measured = measure(load, sides, options.repeat, folder)
        gains = [median(measured.ratios(side, 0)) for side in range(1, len(sides))]
        figures = [f"{measured.speed(0) / 1e6:.1f}", *(f"{gain:.2f}" for gain in gains)]
        cells = [load.name, str(load.network.nodes), str(load.network.cycles), *figures]
        print("|", " | ".join(cells), "|", flush=True)
        if len(measured.reports) > 1:
            print(f"workers: the reports on {load.name} differ", file=sys.stderr)
            well = False
    return well


def main() -> int:
    parser = argparse.ArgumentParser(description="Measures what several workers gain.")
    parser.add_argument("program")
    parser.add_argument("--workers", nargs="+", type=int, default=[1, 2, 4], metavar="W", help="numbers of workers")
    parser.add_argument("--repeat", type=int, default=15, metavar="N", help="rounds, of which the median counts")
    parser.add_argument("--beside", type=int, default=0, metavar="N", help="busy processes that run meanwhile")
    parser.add_argument("--channels", type=int, metavar="N", help="virtual channels of each network")
    parser.add_argument("--only", nargs="+", metavar="NAME", choices=LOADS, default=WORKLOADS,
                        help="these workloads")
    options = parser.parse_args()
    print(f"Load before: {os.getloadavg()[0]:.1f} on {os.cpu_count()} processors; {options.beside} busy beside.\n")
    with tempfile.TemporaryDirectory(prefix="noc-bench-") as folder, busy(options.beside):
        return 0 if table(options, Path(folder)) else 1


if __name__ == "__main__":
    sys.exit(main())
