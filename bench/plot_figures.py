#!/usr/bin/env python3
"""Plots how many times as fast as the other program noc was, workload by workload, from day to day.

    plot_figures.py [FIGURES.csv] > FIGURES.svg

The file is bench/figures.csv where none is named. Its rows that compare the time of a workload
with that of "the other" program, and have a commit, are the points. Those of one day stand in the
order of the file. The workload in which nearly nothing happens is left out, since its time is
jumped over.
"""
import csv
import sys
from collections import defaultdict
from collections.abc import Iterable
from datetime import date
from pathlib import Path

TOP = Path(__file__).resolve().parent.parent
sys.path.append(str(TOP))
from noc_tools.curves import (  # noqa: E402
    STYLES, Curve, Frame, Point, axes_of, picture)

FIGURES = TOP / "bench/figures.csv"
OTHER, IDLE = "the other", "e_idle16"
X, Y = "days", "times as fast as the other program"
FRAMES = {"": "channels of the workload", "8": "eight channels"}
Row = dict[str, str]


def days_of(rows: Iterable[Row]) -> dict[tuple[str, str], float]:
    """Where each series of figures, known by its day and its commit, lies among the days."""
    series: dict[str, list[str]] = defaultdict(list)
    for row in rows:
        if row["commit"] not in series[row["date"]]:
            series[row["date"]].append(row["commit"])
    first = min(map(date.fromisoformat, series))
    return {
        (day, commit): (date.fromisoformat(day) - first).days + at / len(commits)
        for day, commits in series.items() for at, commit in enumerate(commits)
    }


def frame_of(name: str, rows: Iterable[Row], days: dict[tuple[str, str], float]) -> Frame:
    """The curves of the workloads of some rows."""
    points: dict[str, list[Point]] = defaultdict(list)
    for row in rows:
        at = days[row["date"], row["commit"]]
        points[row["workload"]].append(Point(at, float(row["ratio"]), True))
    named = zip(sorted(points.items()), STYLES)
    return Frame(name, [Curve(*curve, style) for curve, style in named])


def main() -> None:
    """Writes the picture to standard output."""
    path = Path(sys.argv[1]) if len(sys.argv) > 1 else FIGURES
    with path.open(newline="") as file:
        rows = [row for row in csv.DictReader(file)
                if (row["than"], row["measure"]) == (OTHER, "time") and row["before"] == ""
                and row["workload"] != IDLE and row["commit"]]
    days = days_of(rows)
    frames = [frame_of(name, [row for row in rows if row["channels"] == channels], days)
              for channels, name in FRAMES.items()]
    first = min(row["date"] for row in rows)
    told = f"Days are counted from {first}. A ratio above 1 means that noc was faster."
    sys.stdout.write(picture(frames, axes_of(frames, X, Y, None, ""), told))


if __name__ == "__main__":
    main()
