#!/usr/bin/env python3
"""Tries the intervals of confidence: in how many of 200 seeds does the 95 percent interval have the
long-run figure?

    coverage.py [JOBS [LENGTH..]]

A mesh of 8 by 8 routers with dimension order and four channels of four slots, under uniform
traffic, with packets of 1, 5 and 20 flits, or of these lengths, at a quarter, a half, three
quarters and nine tenths of the greatest accepted load. The long-run figure is that of all measured
packets of 400 further seeds. A line for each load goes to standard output, as a table of Markdown:
how many percent of the runs are steady; and in how many percent of those that tell an interval it
has the figure, for the 200 runs, and for as many groups of three and of five as they make.

The program is that of $NOC. It takes some minutes for each length on two processors.
"""
import sys
from collections import Counter
from collections.abc import Sequence
from pathlib import Path
from typing import Any

sys.path.append(str(Path(__file__).resolve().parent.parent))
from noc_tools.measure import Experiment, Measurement, measured_side_by_side  # noqa: E402
from noc_tools.network import Network  # noqa: E402
from noc_tools.runs import columns_of_run  # noqa: E402
from noc_tools.several import added  # noqa: E402
from noc_tools.statistics import PERCENTS, Sample, Window, percentile  # noqa: E402
from noc_tools.traffic import Demand  # noqa: E402
from noc_tools.pool import made_in_order  # noqa: E402

SEEDS, FURTHER, GROUPS = 200, 400, [1, 3, 5]
PARTS, LENGTHS = [0.25, 0.5, 0.75, 0.9], [1, 5, 20]
# A run has so many packets or cycles at most, and a third of them in its window.
PACKETS, MOST_CYCLES = 9000, 6000
# A load at which no such network keeps up.
MUCH = 0.9
FIGURES = ["mean", "p95", "p99"]


def experiments(load: float, length: int, seeds: range) -> list[Experiment]:
    """The runs of some seeds."""
    cycles = min(MOST_CYCLES, int(PACKETS * length / (64 * load)))
    network = Network("mesh", (8, 8), 4, 4, 1, "dor", cycles)
    window = Window(cycles // 3, 2 * cycles // 3)
    demands = [Demand("uniform", load, length, seed) for seed in seeds]
    known = Experiment(network, demands[0], window).learnt()
    return [Experiment(network, one, window, parts=False, known=known) for one in demands]


def latencies_in(folder: Path, experiment: Experiment) -> Counter[int]:
    """How many measured packets of a run have which latency."""
    files = experiment.files_in(folder)
    _, packets = columns_of_run(files.words(), files.rows)
    return Counter(Sample(packets, experiment.window).latencies)


def long_run(runs: Sequence[Experiment], jobs: int) -> dict[str, float]:
    """The figures of all measured packets of some runs."""
    counts: Counter[int] = Counter()
    for one in made_in_order(latencies_in, runs, jobs):
        counts.update(one)
    ordered = sorted(counts.elements())
    found: dict[str, float] = {"mean": sum(ordered) / len(ordered)}
    for name in FIGURES[1:]:
        found[name] = percentile(ordered, len(ordered), PERCENTS[name]) or 0
    return found


def figure(made: Measurement, name: str) -> Any:
    """A figure of the latency."""
    return getattr(made.figures.latency, name)


def share(made: Sequence[Measurement], name: str, value: float) -> str:
    """How many percent of the intervals of a figure have a value, of those that are told; and how
    many are not, where some are not."""
    pairs = [(figure(one, name), getattr(one.figures.margins, name)) for one in made]
    flags = [abs(found - value) <= margin for found, margin in pairs if margin is not None]
    untold = f" ({len(made) - len(flags)} not told)" if len(flags) < len(made) else ""
    return f"{100 * sum(flags) / len(flags):.1f}{untold}" if flags else "-"


def line(load: float, length: int, jobs: int) -> list[str]:
    """The fields of a load."""
    made = list(measured_side_by_side(experiments(load, length, range(1, SEEDS + 1)), jobs))
    further = range(SEEDS + 1, SEEDS + FURTHER + 1)
    truth = long_run(experiments(load, length, further), jobs)
    steady = sum(one.is_steady for one in made)
    found = [f"{truth['mean']:.2f}", f"{100 * steady / len(made):.1f}"]
    for size in GROUPS:
        firsts = range(0, SEEDS - size + 1, size)
        groups = [added(made[first:first + size]) for first in firsts]
        found += [share(groups, name, truth[name]) for name in FIGURES]
    return found


def main() -> None:
    jobs, *lengths = list(map(int, sys.argv[1:])) or [2]
    names = [f"{name} of {size}" for size in GROUPS for name in FIGURES]
    columns = ["flits", "part of saturation", "load", "mean in cycles", "steady", *names]
    print("| " + " | ".join(columns) + " |\n|" + "---:|" * len(columns), flush=True)
    for length in lengths or LENGTHS:
        (full,) = measured_side_by_side(experiments(MUCH, length, range(1, 2)), 1)
        for part in PARTS:
            load = round(part * full.figures.accepted, 4)
            fields = [length, part, load, *line(load, length, jobs)]
            print("| " + " | ".join(map(str, fields)) + " |", flush=True)


if __name__ == "__main__":
    main()
