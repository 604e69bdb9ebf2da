#!/usr/bin/env python3
"""Tries what is said of loads on a mesh of 8 by 8 routers.

Does a network keep up with no more than its bound, and is no load called steady that a longer run
shows growing?

    grid.py KEPT.csv [JOBS [SEED]]

Six patterns, three rules, one to eight channels of four slots, and packets of 1, 5 and 20 flits, at
loads up to a little more than the bound of the pattern. Each load has three runs, of the seeds from
SEED (1) on, and is steady where most of these are. A run has some 4,000 packets, so one that is
five times as long is not cut. Each load that is called steady is run so long, by each seed and with
the same first packets; and so is each single run that is steady. A long run grows where packets of
its last two fifths take a quarter longer than those of its second and third fifth, and the packets
under way at its end are more than at two fifths by more than three standard deviations. A packet
that is not out counts up to the end. A load grows where most of its long runs do.

KEPT.csv gets a line for each combination as it comes, and the same command goes on behind the last
one. When all are there, a line for each pattern and rule goes to standard output, as a table of
Markdown. The program is that of $NOC. It takes some twenty minutes on two processors.
"""
import csv
import sys
from collections.abc import Iterable, Iterator
from dataclasses import replace
from itertools import groupby, islice, product
from pathlib import Path
from typing import NamedTuple

sys.path.append(str(Path(__file__).resolve().parent.parent))
from noc_tools.files import csv_line  # noqa: E402
from noc_tools.measure import COLUMNS, Experiment, Measurement, measured_side_by_side  # noqa: E402
from noc_tools.network import Network  # noqa: E402
from noc_tools.runs import columns_of_run  # noqa: E402
from noc_tools.statistics import Columns, Growth, Window, middle_window, under_way  # noqa: E402
from noc_tools.study.combinations import Combination, Line, row_of  # noqa: E402
from noc_tools.traffic import Demand  # noqa: E402
from noc_tools.pool import made_in_order  # noqa: E402

PATTERNS = ["uniform", "transpose", "bit-complement", "bit-reverse", "tornado", "hot-spot"]
RULES = ["dor", "west-first", "adaptive"]
CHANNELS, LENGTHS = [1, 2, 4, 8], [1, 5, 20]
# The loads as parts of the bound; the packets and the cycles of a run; and how much longer a long
# one is.
PARTS = [0.3, 0.45, 0.6, 0.75, 0.9, 1.05]
PACKETS, MOST_CYCLES, TIMES = 3900, 6000, 5
SEEDS = 3
# How much longer packets take where a long run grows, and by how many deviations more are under
# way.
LONGER, DEVIATIONS = 1.25, 3


class Point(NamedTuple):
    """A combination of the grid, and the first of its seeds."""

    seed: int
    pattern: str
    rule: str
    channels: int
    length: int


class Tried(NamedTuple):
    """The runs of a load of the grid."""

    load: float
    runs: list[Experiment]


class Counts(NamedTuple):
    """What is found of a combination: how many loads are steady, and how many of these grow; and
    the same of single runs."""

    bound: float
    keeps_up_to: float
    steady: int
    growing: int
    steady_runs: int
    growing_runs: int


HEADER = [*Point._fields, *Counts._fields]


def experiments(point: Point) -> list[Tried]:
    """The loads of a combination."""
    seed, pattern, rule, channels, length = point
    network = Network("mesh", (8, 8), channels, 4, 1, rule, 100)
    whole = Experiment(network, Demand(pattern, 0.01, length), Window(0, 1))
    known = whole.learnt()
    assert known.bound is not None
    found = []
    for part in PARTS:
        load = min(float(length), round(part * known.bound.load, 4))
        cycles = min(MOST_CYCLES, int(PACKETS * length / (64 * load)))
        run = whole._replace(
            network=replace(network, cycles=cycles), window=middle_window(cycles), parts=False,
            known=known,
        )
        demands = [Demand(pattern, load, length, each) for each in range(seed, seed + SEEDS)]
        found.append(Tried(load, [run._replace(traffic=demand) for demand in demands]))
    return found


def grows(folder: Path, experiment: Experiment) -> bool:
    """Whether a run that is so much longer grows."""
    cycles = TIMES * experiment.network.cycles
    network = replace(experiment.network, cycles=cycles)
    longer = experiment._replace(network=network, window=Window(0, cycles))
    files = longer.files_in(folder)
    _, packets = columns_of_run(files.words(), files.rows)
    fifth = files.cycles // 5
    early, late = (
        mean_time(packets, first * fifth, (first + 2) * fifth, files.cycles) for first in (1, 3)
    )
    before, after = (under_way(packets, cycle).count(True) for cycle in (2 * fifth, files.cycles))
    return LONGER * early < late and Growth(before, after).is_beyond(DEVIATIONS)


def mean_time(packets: Columns, first: int, end: int, last: int) -> float:
    """How long packets that are due in some cycles take on average, those that are not out up to
    the last cycle."""
    pairs = zip(packets.dues, packets.outs)
    times = [min(out, last) - due for due, out in pairs if first <= due < end]
    return sum(times) / max(1, len(times))


def line_of(tried: Tried, found: Iterable[Measurement]) -> Line:
    """The runs of a load as results."""
    channels = str(tried.runs[0].network.channels)
    words = {"kind": "mesh", "radix": "8x8", "channels": channels, "buffer": "4"}
    rows = [dict(zip(COLUMNS, one.words())) for one in found]
    own = {"load": str(tried.load)}
    return Line([words | own | row | {"seed": str(seed)} for seed, row in enumerate(rows, 1)])


def counted(point: Point, jobs: int) -> Counts:
    """What is found of a combination."""
    tried = experiments(point)
    runs = [run for each in tried for run in each.runs]
    found = list(measured_side_by_side(runs, jobs))
    made = iter(found)
    lines = [line_of(each, islice(made, SEEDS)) for each in tried]
    row = row_of(Combination(lines[0].rows[0], lines), [], None)
    steady = [line.is_steady for line in lines for _ in range(SEEDS)]
    long = [place for place, one in enumerate(found) if steady[place] or one.is_steady]
    flags = dict(zip(long, made_in_order(grows, [runs[place] for place in long], jobs)))
    for place in (place for place in long if flags[place]):
        of = "steady" if found[place].is_steady else "not steady"
        told = f"a run that is {of} grows: {point}, {runs[place].traffic}"
        print(told, file=sys.stderr, flush=True)
    of_loads = [[flags[place] for place in range(first, first + SEEDS)]
                for first in range(0, len(runs), SEEDS) if steady[first]]
    growing = sum(some.count(False) < some.count(True) for some in of_loads)
    of_runs = [flags[place] for place in long if found[place].is_steady]
    bound, kept = row["bound"], row["keeps_up_to"] or 0.0
    assert isinstance(bound, float) and isinstance(kept, float)
    return Counts(bound, kept, len(of_loads), growing, len(of_runs), of_runs.count(True))


def points(seed: int) -> list[Point]:
    """The combinations of the grid by pattern and rule."""
    all_of = product([seed], PATTERNS, RULES, CHANNELS, LENGTHS)
    # (beside an escape channel the adaptive rule needs another one)
    return [point for point in map(Point._make, all_of) if point[2:4] != ("adaptive", 1)]


def kept_in(path: Path) -> dict[Point, Counts]:
    """The combinations that are done."""
    if not path.exists():
        path.write_text(csv_line(HEADER))
    with open(path, newline="") as file:
        rows = list(csv.reader(file))[1:]
    found = {}
    for seed, pattern, rule, channels, length, bound, kept, *numbers in rows:
        point = Point(int(seed), pattern, rule, int(channels), int(length))
        found[point] = Counts(float(bound), float(kept), *map(int, numbers))
    return found


def table(found: Iterable[tuple[Point, Counts]]) -> Iterator[str]:
    """The lines of the table."""
    columns = ["networks", "bound", "greatest kept up", "above", "steady", "growing",
               "steady runs", "growing runs"]
    yield "| pattern | rule | " + " | ".join(columns) + " |"
    yield "|---|---|" + "---:|" * len(columns)
    for name, group in groupby(found, key=lambda pair: pair[0][1:3]):
        all_of = [counts for _, counts in group]
        bound, kept = all_of[0].bound, max(one.keeps_up_to for one in all_of)
        above = sum(one.bound < one.keeps_up_to for one in all_of)
        sums = [sum(numbers) for numbers in list(zip(*all_of))[2:]]
        fields = [*name, len(all_of), f"{bound:.4f}", f"{kept:.4f}", above, *sums]
        yield "| " + " | ".join(map(str, fields)) + " |"


def main() -> None:
    path = Path(sys.argv[1])
    jobs, seed = [int(word) for word in [*sys.argv[2:], *["2", "1"][len(sys.argv) - 2:]]]
    found = kept_in(path)
    for point in points(seed):
        if point not in found:
            found[point] = counted(point, jobs)
            with open(path, "a") as file:
                file.write(csv_line(map(str, (*point, *found[point]))))
    print("\n".join(table((point, found[point]) for point in points(seed))))


if __name__ == "__main__":
    main()
