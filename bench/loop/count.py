#!/usr/bin/env python3
"""Counts the instructions that the cycle loop takes for a router-cycle, function by function.

    count.py PROGRAM [--against OTHER] [--channels N] [--only NAME..] [--cycles FROM TO] [--least N] [--lines FUNCTION]

PROGRAM is a copy of the engine that plain.py has made, or the program itself, crates/noc/out/noc_avx2. On each workload
of make_workloads.py it runs twice under cachegrind, for FROM and for TO cycles (400 and 1200 where no others are
named). What the longer run takes more is divided by the router-cycles between. Setting up and the report are in both
runs. Only functions of the crates that a cycle runs are counted, so reading and writing are not, nor is what is called
of libraries, such as a copy of memory.

A table in Markdown goes to standard output. It has a row for each function and a column for each workload, in
instructions for a router-cycle. Functions that take less than N in each column (0.2 by default) are added up as the
rest. What is inlined counts with the function that calls it. With --against each workload has a second column, for
OTHER. With --channels each network has so many virtual channels, and its traffic is the same.

With --lines the lines of functions of this name follow, where they take N or more. The program has no lines, but a copy
has.
"""
import argparse
import re
import shutil
import subprocess
import sys
import tempfile
from collections import Counter, defaultdict
from pathlib import Path

sys.dont_write_bytecode = True
sys.path.append(str(Path(__file__).resolve().parent.parent))
from make_workloads import Workload, chosen, texts_in  # noqa: E402
from measure import ENDED_WELL  # noqa: E402

# Where an instruction is from: the function, the file and the line.
Place = tuple[str, str, int]

CACHEGRIND = ["valgrind", "--tool=cachegrind", "--cache-sim=no"]
# The crates that a cycle runs, and the loop of a copy, in the names of functions.
LOOP = re.compile(r"\b(noc_(?:engine|cycles|counts|columns|route|packet))::|::cycle_loop$")
# What compilers add to the name of a function.
ADDED = re.compile(r"(?:::<[^<>]*>|::\{\{closure\}\})+$")


def name_of(function: str) -> str | None:
    """The crate and the short name of a function, the same for both compilers; none where no cycle runs it."""
    function = ADDED.sub("", function)
    found = LOOP.search(function)
    if found is None:
        return None
    owner, name = re.findall(r"\w+", function)[-2:]
    return f"{found[1] or 'plain'} {f'{owner}::{name}' if owner[0].isupper() else name}"


def instructions(program: str, load: Workload, cycles: int, folder: Path) -> Counter[Place]:
    """The instructions of a run of so many cycles, by where they are from."""
    config, traffic = texts_in(folder, load)
    Path(config).write_bytes(load.config(cycles).encode())
    written = folder / "counts"
    words = [*CACHEGRIND, f"--cachegrind-out-file={written}", str(Path(program).resolve()), "run", config, traffic]
    ran = subprocess.run(words, stdin=subprocess.DEVNULL, capture_output=True)
    if ran.returncode not in ENDED_WELL:
        sys.exit(f"count: {program} ended with status {ran.returncode}: {ran.stderr.decode(errors='replace')[-300:]}")
    counts: Counter[Place] = Counter()
    function = file = ""
    for line in written.read_text().splitlines():
        key, _, value = line.partition("=")
        if key == "fn":
            function = value
        elif key in ("fl", "fi", "fe"):
            file = value
        elif line[:1].isdigit():
            number, count = line.split()[:2]
            counts[function, file, int(number)] += int(count)
    return counts


def costs_of(program: str, load: Workload, cycles: list[int], folder: Path) -> dict[Place, float]:
    """The instructions of a router-cycle between two numbers of cycles, by where they are from."""
    first, last = (instructions(program, load, count, folder) for count in cycles)
    router_cycles = load.network.nodes * (cycles[1] - cycles[0])
    return {place: (count - first[place]) / router_cycles for place, count in last.items() if name_of(place[0])}


def show_table(columns: list[tuple[str, dict[Place, float]]], least: float) -> None:
    """Prints the table, the dearest functions first."""
    rows: defaultdict[str, list[float]] = defaultdict(lambda: [0.0] * len(columns))
    for index, (_, costs) in enumerate(columns):
        for (function, _, _), cost in costs.items():
            rows[name_of(function) or ""][index] += cost
    dear = sorted((name for name, cells in rows.items() if max(cells) >= least), key=lambda name: -sum(rows[name]))
    whole = [sum(cells) for cells in zip(*rows.values())]
    rest = [all_of_it - sum(rows[name][index] for name in dear) for index, all_of_it in enumerate(whole)]
    print("|", " | ".join(["function", *(head for head, _ in columns)]), "|")
    print("|---|" + "--:|" * len(columns))
    for name, cells in [*((name, rows[name]) for name in dear), ("the rest", rest), ("in all", whole)]:
        print("|", " | ".join([name, *(f"{cell:.1f}" for cell in cells)]), "|")


def show_lines(head: str, costs: dict[Place, float], asked: str, least: float) -> None:
    """Prints the lines of functions, the dearest first."""
    lines: defaultdict[tuple[Path, int], float] = defaultdict(float)
    for (function, file, number), cost in costs.items():
        if str(name_of(function)).endswith((f" {asked}", f"::{asked}")):
            lines[Path(file), number] += cost
    print(f"\n{head}\n")
    for (path, number), cost in sorted(lines.items(), key=lambda it: -it[1]):
        if cost >= least and number and path.is_file():
            text = path.read_text().splitlines()[number - 1].strip()
            print(f"{cost:7.2f}  {path.parent.name}/{path.name}:{number}  {text}")


def main() -> None:
    parser = argparse.ArgumentParser(description="Counts the instructions of a router-cycle by function.")
    parser.add_argument("program")
    parser.add_argument("--against", metavar="OTHER", help="a second program to compare with")
    parser.add_argument("--channels", type=int, metavar="N", help="virtual channels of each network")
    parser.add_argument("--only", nargs="+", metavar="NAME", help="these workloads alone")
    parser.add_argument("--cycles", nargs=2, type=int, metavar=("FROM", "TO"), default=[400, 1200],
                        help="the cycles of the two runs (400 1200)")
    parser.add_argument("--least", type=float, default=0.2, metavar="N", help="what a row takes at least (0.2)")
    parser.add_argument("--lines", metavar="FUNCTION", help="functions whose lines are shown too")
    asked = parser.parse_args()
    if shutil.which(CACHEGRIND[0]) is None:
        sys.exit("count: valgrind is not on the PATH")
    columns: list[tuple[str, dict[Place, float]]] = []
    with tempfile.TemporaryDirectory(prefix="noc-bench-") as folder:
        for load in chosen(asked.only, asked.channels):
            for head, program in ((load.name, asked.program), ("the other", asked.against)):
                if program:
                    columns.append((head, costs_of(program, load, asked.cycles, Path(folder))))
    show_table(columns, asked.least)
    if asked.lines:
        for head, costs in columns:
            show_lines(head, costs, asked.lines, asked.least)


if __name__ == "__main__":
    main()
