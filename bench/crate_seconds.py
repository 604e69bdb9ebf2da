#!/usr/bin/env python3
"""Makes the builder's table of seconds, by which it orders crates, from the log of a build.

    crate_seconds.py [LOG] [--write | --beside]

The log is crates/noc/out/build.log where none is named. Its lines 'noc: seconds CRATE STAGE WALL PROCESSOR' count from
the beginning of a crate: STAGE is 'made' once its library or its object file is there. Of a program 'proved' is the
part of this that its proof took, and 'linked' comes after it. A crate's row gets its seconds of wall. Where its
processor time is less, others had the processors meanwhile, and the row gets that. A crate that the log does not have
keeps its row, and one that is not in crates.txt loses it.

The table is printed as it stands in builder/build.py; with --write it is put there. Take the log of a whole build on
four processors with nothing beside it.

With --beside a line is printed for each stretch of the build between a begin and an end: how many processors the crates
that were under way had, each as on the average of its time, and which these were. Lines 'noc: begun CRATE SECONDS' of
the log say when each was begun. So one sees where processors idled.
"""
import argparse
import re
import sys
import textwrap
from collections.abc import Iterator
from pathlib import Path

TOP = Path(__file__).resolve().parent.parent
TABLE = re.compile(r"(?<=^SECONDS = \{\n)[^}]*(?=^\}$)", re.MULTILINE)


def seconds_in(log: str) -> dict[str, int]:
    """The seconds of each crate that was made, what it was made of twice by the last time."""
    took: dict[str, dict[str, float]] = {}
    for crate, stage, wall, processor in re.findall(r"noc: seconds (\w+) (made|linked) ([\d.]+) ([\d.]+)$", log, re.M):
        took.setdefault(crate, {})[stage] = min(float(wall), float(processor))
    return {crate: max(1, round(sum(stages.values()))) for crate, stages in took.items() if "made" in stages}


def stretches(log: str) -> Iterator[str]:
    """The lines that tell which crates were beside each other."""
    begun = {crate: float(at) for crate, at in re.findall(r"noc: begun (\w+) ([\d.]+)$", log, re.M)}
    made = re.findall(r"noc: seconds (\w+) made ([\d.]+) ([\d.]+)$", log, re.M)
    spans = [(begun[crate], begun[crate] + float(wall), float(processor) / max(0.1, float(wall)), crate)
             for crate, wall, processor in made if crate in begun]
    cuts = sorted({at for begin, end, *_ in spans for at in (begin, end)})
    for first, last in zip(cuts, cuts[1:]):
        here = [it for it in spans if it[0] <= first and last <= it[1]]
        names = " ".join(crate for *_, crate in here)
        yield f"{first:6.0f} to {last:6.0f} s  {sum(share for _, _, share, _ in here):3.1f} processors  {names}\n"


def main() -> None:
    options = argparse.ArgumentParser(description=__doc__, formatter_class=argparse.RawDescriptionHelpFormatter)
    options.add_argument("log", nargs="?", type=Path, default=TOP / "crates/noc/out/build.log", metavar="LOG")
    options.add_argument("--write", action="store_true", help="put the table into builder/build.py")
    options.add_argument("--beside", action="store_true", help="print which crates were under way when")
    asked = options.parse_args()
    builder = TOP / "builder/build.py"
    log = asked.log.read_text(errors="replace") if asked.log.exists() else ""
    found = seconds_in(log)
    if not found:
        sys.exit(f"{asked.log} has no seconds of a crate, or is not there")
    if asked.beside:
        print("".join(stretches(log)), end="")
        return
    text = builder.read_text()
    kept = {crate: int(seconds) for crate, seconds in re.findall(r'"(\w+)": (\d+)', TABLE.findall(text)[0])}
    names = re.findall(r"^(\w+)", (TOP / "crates.txt").read_text(), re.MULTILINE)
    rows = [f'"{it}":_{found.get(it, kept.get(it))},' for it in names if it in found or it in kept]
    lines = textwrap.wrap(" ".join(rows), 116, break_long_words=False)
    table = "".join(f"    {line}\n" for line in lines).replace(":_", ": ")
    if asked.write:
        builder.write_text(TABLE.sub(table, text))
    else:
        print(table, end="")


if __name__ == "__main__":
    main()
