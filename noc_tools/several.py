"""Several runs of one load, each with a warm-up of its own that is left out, as one measurement."""
from collections.abc import Sequence
from dataclasses import replace
from typing import Any

from .measure import Measurement
from .statistics import Figures, Margins, Range, Spread, margin_over, step_of


def mean_of(numbers: Sequence[float | None]) -> float | None:
    """The mean of some numbers, where all are known."""
    known = [number for number in numbers if number is not None]
    return sum(known) / len(known) if 0 < len(known) == len(numbers) else None


def mean_part(parts: Sequence[Any]) -> Any:
    """The means of the fields of some spreads, ranges or margins; whole numbers stay whole."""
    means = {name: mean_of([getattr(part, name) for part in parts]) for name in parts[0]._fields}
    whole = Spread._fields[1:] if isinstance(parts[0], Spread) else ()
    return type(parts[0])(**{
        name: round(number) if name in whole and number is not None else number
        for name, number in means.items()
    })


def margins_of(runs: Sequence[Figures]) -> Margins:
    """How well the means over some runs are known."""
    def of(name: str) -> float | None:
        figures = [getattr(run.latency, name) for run in runs]
        own = [getattr(run.margins, name) for run in runs]
        return None if None in figures else margin_over(figures, own, step_of(name))

    return Margins(*map(of, Margins._fields))


def added_figures(runs: Sequence[Figures]) -> Figures:
    """The figures of some runs: counts add up, and all others are means over the runs, but for the
    greatest of all."""
    first = runs[0]
    parts = {
        name: mean_part([getattr(run, name) for run in runs])
        for name, value in vars(first).items() if isinstance(value, (Spread, Range))
    }
    for name, part in parts.items():
        tops = [getattr(run, name).max for run in runs] if isinstance(part, Spread) else []
        if tops and None not in tops:
            parts[name] = part._replace(max=max(tops))
    counts = {name: sum(getattr(run, name) for run in runs) for name in ("packets", "flits", "out")}
    sums = {name: sum(getattr(run, name) for run in runs) for name in ("offered", "accepted")}
    loads = {name: load / len(runs) for name, load in sums.items()}
    return replace(first, **counts, **loads, **parts, margins=margins_of(runs))


def added(runs: Sequence[Measurement]) -> Measurement:
    """Some runs as one, which is steady where most are, and as short as the shortest."""
    first = runs[0]
    if len(runs) == 1:
        return first
    steady = [run.is_steady for run in runs]
    return first._replace(
        ran=min(run.ran for run in runs), figures=added_figures([run.figures for run in runs]),
        is_steady=steady.count(False) < steady.count(True),
        is_stuck=any(run.is_stuck for run in runs), behind=max(run.behind for run in runs),
        own_time=sum(run.own_time for run in runs) / len(runs),
        asked=sum(run.asked for run in runs) / len(runs),
    )
