#!/usr/bin/env python3
"""Measures what the gate costs, crate by crate.

    gate_costs.py run SAMPLES [WORD..]      runs a command at the top of the repository, 'rt ci
                                            --anew' where none is named, and samples its processes
    gate_costs.py table SAMPLES [--write]   prints what they took, as a table

A sample is taken each second. It is a line of SAMPLES, a JSON list of the time in seconds and of
the processes that the command then has. Of each there is its number, that of its parent, the
seconds of processor time of itself and of those children that it waited for, and its command line
where it is new. Run it on a machine with nothing beside it.

The table has minutes of processor time. Of what rt does for a crate the proof is the check that
makes its library, tests are the checks of test functions and what is linked and run, and an edit is
one try. Where a crate has several edits, rt first proves it once more from nothing, to try them
over that, and after the last edit looks whether it still holds: these two are the seed. What is
charged to no crate is in the sum alone. With --write the table goes into docs/DEVELOPING.md.
"""
import argparse
import json
import os
import re
import subprocess
import sys
import time
from collections import Counter, defaultdict
from collections.abc import Sequence
from dataclasses import dataclass
from datetime import UTC, datetime
from pathlib import Path

TOP = Path(__file__).resolve().parent.parent
TICKS = os.sysconf("SC_CLK_TCK")
PAGE = "docs/DEVELOPING.md"
IN_PAGE = re.compile(r"(?<=<!-- made by bench/gate_costs.py -->\n).*?(?=<!-- end -->)", re.DOTALL)
# A check or a build of a crate; a program, or the tests of a crate, that are linked or run.
CHECK = re.compile(r"/bin/rattle (check|build) --crate-name (\w+) ")
MADE = re.compile(r"/bin/rattle-link .* out/(\w+)|/rt-run-\S+/bin/(\w+)")
KINDS = ("proof", "seed", "edits", "tests")
# By their indexes, the crates and the kinds of processes.
Kinds = dict[int, tuple[str, str]]
# A process in a sample: its number, that of its parent, its own seconds and those of its children
# that have ended, and its command line where it is new.
Seen = tuple[int, int, float, float, str]
NOBODY: Seen = 0, 0, 0.0, 0.0, ""


@dataclass
class Process:
    """A process as it was seen last: the index of its parent, its own seconds of processor time,
    and its command line."""

    parent: int | None
    seconds: float
    words: str


@dataclass
class Samples:
    """What was sampled: the first and the last time, the processes in the order in which they came,
    and the seconds of processor time of all."""

    first: float
    last: float
    processes: list[Process]
    whole: float


def times_of(number: int) -> tuple[int, float, float, int]:
    """The parent of a process, the seconds of itself and of its children that have ended, and when
    it began."""
    text = Path(f"/proc/{number}/stat").read_text().rpartition(")")[2].split()
    own, children = sum(map(int, text[11:13])), sum(map(int, text[13:15]))
    return int(text[1]), own / TICKS, children / TICKS, int(text[19])


def below(root: int) -> dict[int, tuple[int, float, float, int]]:
    """A process, and all that it and its children have begun, by their numbers."""
    found = {}
    for name in os.listdir("/proc"):
        try:
            if name.isdigit():
                found[int(name)] = times_of(int(name))
        except OSError:
            continue
    kept: set[int] = set()
    more = {root} & found.keys()
    while more:
        kept |= more
        more = {number for number, it in found.items() if it[0] in more}
    return {number: found[number] for number in [root, *sorted(kept - {root})] if number in found}


def run(path: Path, words: list[str]) -> int:
    """Runs a command and samples it; returns its status."""
    command = subprocess.Popen(words, cwd=TOP, stdin=subprocess.DEVNULL)
    known: set[tuple[int, int]] = set()
    with path.open("w") as samples:
        while command.poll() is None:
            line = []
            for number, (parent, own, children, begun) in below(command.pid).items():
                told = "" if (number, begun) in known else command_line(number)
                known.add((number, begun))
                line.append([number, parent, own, children, told])
            samples.write(f"{json.dumps([round(time.time(), 2), line])}\n")
            time.sleep(1)
    return command.returncode


def command_line(number: int) -> str:
    """The command line of a process, if it is still there."""
    try:
        return Path(f"/proc/{number}/cmdline").read_text(errors="replace").replace("\0", " ")
    except OSError:
        return ""


def taken_up(processes: list[Process], before: dict[int, int], line: list[Seen]) -> dict[int, int]:
    """Takes up the processes of a sample, and returns their indexes by their numbers. A number that
    comes back is another process."""
    here = {}
    for number, _, own, _, told in line:
        index = before.get(number)
        if index is None or told or own < processes[index].seconds:
            index = len(processes)
            processes.append(Process(None, own, told))
        here[number] = index
        processes[index].seconds = own
    for number, parent, *_ in line:
        it = processes[here[number]]
        it.parent = here.get(parent) if it.parent is None else it.parent
    return here


def settle(processes: list[Process], gone: set[int], seconds: float) -> None:
    """Charges children of the command that are gone with what they and theirs took after they were
    seen last. The seconds are those that the command waited for since the sample before."""
    for first, it in enumerate(processes):
        index: int | None = first
        while index is not None and index not in gone:
            index = processes[index].parent
        if index is not None:
            seconds -= it.seconds
    for index in gone:
        processes[index].seconds += max(0.0, seconds) / len(gone)


def read(path: Path) -> Samples:
    """Reads what was sampled."""
    processes: list[Process] = []
    times, whole, waited = [], 0.0, 0.0
    here: dict[int, int] = {}
    for text in path.read_text().splitlines():
        at, line = json.loads(text)
        times.append(at)
        before, here = here, taken_up(processes, here, line)
        # The command itself, whose parent is none of its own.
        number, _, own, children, _ = next((it for it in line if it[1] not in here), NOBODY)
        gone = {index for of, index in before.items()
                if processes[index].parent == here.get(number) and here.get(of) != index}
        if gone:
            settle(processes, gone, children - waited)
        waited, whole = max(waited, children), max(whole, own + children)
    return Samples(times[0], times[-1], processes, whole)


def is_check(samples: Samples, index: int | None) -> bool:
    """Whether a process is a check or a build of a crate."""
    return index is not None and bool(CHECK.search(samples.processes[index].words))


def kinds_of(samples: Samples) -> Kinds:
    """The processes that are charged to a crate with all that they begin: the crate and the kind."""
    found: Kinds = {}
    for index, it in enumerate(samples.processes):
        check, made = CHECK.search(it.words), MADE.search(it.words)
        if made:
            found[index] = (made[1] or made[2]).removesuffix("_tests"), "tests"
        elif check and not is_check(samples, it.parent):
            is_proof = check[1] == "build" or "src/main.rt" in it.words
            kind = "tests" if " --test " in it.words else "proof" if is_proof else "edits"
            found[index] = check[2], kind
    # The first of several proves the crate from nothing, and the last looks at it again.
    tries = defaultdict(list)
    for index, (crate, kind) in found.items():
        if kind == "edits":
            tries[crate].append(index)
    for crate, indexes in tries.items():
        if len(indexes) > 1:
            found[indexes[0]] = found[indexes[-1]] = crate, "seed"
    return found


def charged(samples: Samples, kinds: Kinds) -> dict[tuple[str, str], float]:
    """The seconds of each crate and kind."""
    seconds: dict[tuple[str, str], float] = defaultdict(float)
    for first, it in enumerate(samples.processes):
        index: int | None = first
        while index is not None and index not in kinds:
            index = samples.processes[index].parent
        if index is not None:
            seconds[kinds[index]] += it.seconds
    return seconds


def row(name: str, seconds: Sequence[float], edits: int, whole: float) -> str:
    """A line of the table: minutes, and what is less than half a tenth of one is left out."""
    proof, seed, tries, tests, all_of_it = (
        f"{it / 60:.1f}" if it >= 3 else "" for it in (*seconds, whole))
    cells = (name, proof, seed, tries, str(edits or ""), tests, all_of_it)
    return f"| {' | '.join(cells)} |\n".replace("|  |", "| |").replace("|  |", "| |")


def table(samples: Samples, crates: list[str]) -> str:
    """The table, with a sentence before it."""
    kinds = kinds_of(samples)
    seconds, edits = charged(samples, kinds), Counter(
        crate for crate, kind in kinds.values() if kind == "edits")
    clock, day = samples.last - samples.first, datetime.fromtimestamp(samples.first, UTC).date()
    text = (f"The gate took {clock / 60:.0f} minutes by the clock and {samples.whole / 60:.0f} of "
            f"processor time ({day}):\n\n"
            "| Crate | Proof | Seed | Edits | how many | Tests | all |\n|---|--:|--:|--:|--:|--:|--:|\n")
    for crate in crates:
        of_crate = [seconds[crate, kind] for kind in KINDS]
        text += row(f"`{crate}`", of_crate, edits[crate], sum(of_crate))
    sums = [sum(seconds[crate, kind] for crate in crates) for kind in KINDS]
    return text + row("all", sums, edits.total(), samples.whole)


def main() -> int:
    options = argparse.ArgumentParser(description=__doc__,
                                      formatter_class=argparse.RawDescriptionHelpFormatter)
    does = options.add_subparsers(dest="does", required=True)
    runs = does.add_parser("run")
    runs.add_argument("samples", type=Path)
    runs.add_argument("words", nargs=argparse.REMAINDER)
    shows = does.add_parser("table")
    shows.add_argument("samples", type=Path)
    shows.add_argument("--write", action="store_true")
    asked = options.parse_args()
    if asked.does == "run":
        return run(asked.samples, asked.words or ["rt", "ci", "--anew"])
    names = re.findall(r"^(\w+):", (TOP / "crates.txt").read_text(), re.MULTILINE)
    text = table(read(asked.samples), names)
    if asked.write:
        page = (TOP / PAGE).read_text()
        (TOP / PAGE).write_text(IN_PAGE.sub(lambda _: text, page))
    else:
        print(text, end="")
    return 0


if __name__ == "__main__":
    sys.exit(main())
