#!/usr/bin/env python3
"""Lists the functions of crates that cost most to check, dearest first.

    dear_functions.py [--most N] [--kept | --goals] [CRATE..]

Each crate is checked from nothing by one job in a copy, whose libraries are those of this checkout; with --kept
nothing is checked, and the last check from nothing is read, which has to have been by one job. A check keeps what it
has proved of a function in a few files as it goes, so what a file cost is the time since the one before it. A
function's seconds are those of its contract, its code, its goals and what was written of its proof; a file of lemmas
has a line of its own. The last line of a crate has the sum.

With --goals the last check from nothing is read too, by however many jobs, but only what the goals of each function
cost: the time from the file kept before them, of the same function, to theirs, answers included.

Where no crate is named, all of crates.txt are taken that have something to read.
"""
import argparse
import re
import shutil
import subprocess
import sys
import tempfile
from collections import defaultdict
from pathlib import Path

TOP = Path(__file__).resolve().parent.parent
# Two files of a function that are so many seconds apart are of two checks.
BETWEEN_CHECKS = 120


def function_of(module: str, crate: str) -> str:
    """The function, the type or the file of lemmas that a kept file is about."""
    name = module.removeprefix(f"Rattle-{crate}").lstrip(".-")
    parts = re.sub(r"^(proofs|specs\.contracts|specs\.declared|specs)\.?", "", name).split(".")
    known = ("Proof", "Answers", "Lts", "Kinds", "Code", "Key", "Tie", "Statement", "Met", "Named", "Symbol",
             "Layout", "Carried", "Given",
             "Invariants", "Goals", "View", "TheLink", "TheImpl", "TheVariants", "Reads", "Pair", "Paired", "Mir")
    while len(parts) > 1 and parts[-1].partition("-")[0] in known:
        parts.pop()
    return "::".join(it for it in parts if it) or "the crate's root"


def seconds_of(out: Path, crate: str) -> dict[str, float]:
    """What each function cost, by the times at which its files were kept."""
    kept = sorted((it.stat().st_mtime, it.stem) for it in out.glob("incremental/*/*.oantt"))
    cost: defaultdict[str, float] = defaultdict(float)
    for (before, _), (after, module) in zip(kept, kept[1:]):
        cost[function_of(module, crate)] += after - before
    return cost


def goals_of(out: Path, crate: str) -> dict[str, float]:
    """What the goals of each function cost, by the same times: a function is checked by one process, whatever the
    number of jobs."""
    kept: dict[str, list[tuple[float, str]]] = {}
    for it in out.glob("incremental/*/*.oantt"):
        module = it.stem.removesuffix(".decls")
        kept.setdefault(function_of(module, crate), []).append((it.stat().st_mtime, module.rpartition(".")[2]))
    cost: defaultdict[str, float] = defaultdict(float)
    for function, files in kept.items():
        files.sort()
        for (before, kind), (after, next_kind) in zip(files, files[1:]):
            is_goals = next_kind in ("Answers", "Proof") and kind in ("Tie", "View", "Goals", "Answers", "Named",
                                                                      "Layout")
            if is_goals and after - before < BETWEEN_CHECKS:
                cost[function] += after - before
    return cost


def checked(crate: str, room: str) -> Path:
    """Checks a copy of the crate from nothing, and returns its folder out/."""
    copy = Path(room) / "crates"
    shutil.copytree(TOP / "crates", copy, symlinks=True, ignore=shutil.ignore_patterns("must-fail"))
    for name in ("crates.txt", "HANDLES"):
        shutil.copy(TOP / name, room)
    shutil.rmtree(copy / crate / "out", ignore_errors=True)
    ran = subprocess.run(["rt", "check", "--jobs", "1"], cwd=copy / crate, stdin=subprocess.DEVNULL,
                         capture_output=True, text=True)
    if ran.returncode:
        sys.exit(f"{crate} is not proved:\n{ran.stdout[-2000:]}")
    return copy / crate / "out"


def crates_with_goals() -> list[str]:
    """The crates of which a check has kept something, in the order of crates.txt."""
    names = re.findall(r"^(\w+):", (TOP / "crates.txt").read_text(), re.MULTILINE)
    return [name for name in names if any((TOP / "crates" / name / "out").glob("incremental/*/*.oantt"))]


def show(rows: list[tuple[float, str, str]], crates: list[str], most: int) -> None:
    """Prints the dearest functions, and what each crate cost."""
    for seconds, crate, function in sorted(rows, reverse=True)[:most]:
        print(f"{seconds:7.1f} s  {crate}  {function}")
    for crate in crates:
        print(f"{sum(it[0] for it in rows if it[1] == crate):7.1f} s  {crate} in all")


def main() -> None:
    options = argparse.ArgumentParser(description=__doc__, formatter_class=argparse.RawDescriptionHelpFormatter)
    options.add_argument("crates", nargs="*", metavar="CRATE")
    options.add_argument("--most", type=int, default=60, help="how many functions to list (60)")
    options.add_argument("--kept", action="store_true", help="read what the last check kept")
    options.add_argument("--goals", action="store_true", help="read of it what goals cost, whatever the number of jobs")
    asked = options.parse_args()
    crates: list[str] = asked.crates or crates_with_goals()
    rows: list[tuple[float, str, str]] = []
    for crate in crates:
        kept = TOP / "crates" / crate / "out"
        with tempfile.TemporaryDirectory() as room:
            cost = goals_of(kept, crate) if asked.goals else seconds_of(kept if asked.kept else checked(crate, room),
                                                                        crate)
        rows += [(seconds, crate, function) for function, seconds in cost.items()]
    show(rows, crates, asked.most)


if __name__ == "__main__":
    main()
