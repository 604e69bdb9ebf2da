"""The results of a study by combinations of settings, and its table: what each of these bears."""
from collections.abc import Iterable, Mapping, Sequence
from itertools import takewhile
from typing import NamedTuple

from ..files import csv_line
from ..measure import yes_or_no
from ..statistics import KEPT_UP, margin_of, margin_over, mean, step_of
from .plan import LOAD, NONE, SEED, SETTINGS, numbers_in, shown, worth_of_a_flit
from .results import value_of

Row = Mapping[str, str]
Value = str | float | None


class Line(NamedTuple):
    """The results at one load: those of all seeds."""

    rows: list[Row]

    def figures(self, name: str) -> list[float]:
        """A figure of each seed; none at all where a seed has a dash."""
        words = [row[name] for row in self.rows]
        return [] if NONE in words else [float(word) for word in words]

    def at(self, name: str) -> float | None:
        """The mean of a figure over the seeds."""
        return mean(self.figures(name))

    def margin(self, name: str) -> float | None:
        """Half the width of the 95 percent interval of confidence for this mean, where it is known."""
        words = [row.get(margin_of(name), NONE) for row in self.rows]
        own = [None if word == NONE else float(word) for word in words]
        return margin_over(self.figures(name), own, step_of(name))

    def least(self, name: str) -> float | None:
        """The least of a figure over the seeds, as far as all tell it."""
        return min(self.figures(name), default=None) if name in self.rows[0] else None

    def known(self, name: str) -> float:
        """That of a figure which each run has."""
        return self.at(name) or 0.0

    @property
    def load(self) -> float:
        """Its load."""
        return self.known(LOAD)

    @property
    def is_whole(self) -> bool:
        """Whether all measured packets came out, as far as this is told."""
        return all(row.get("packets") == row.get("out") for row in self.rows)

    @property
    def is_stuck(self) -> bool:
        """Whether a run stood still, as far as this is told."""
        return any(row.get("stuck") == "yes" for row in self.rows)

    @property
    def can_deadlock(self) -> bool:
        """Whether the network has no ranks, as far as this is told."""
        return any(row.get("deadlock_free") == "no" for row in self.rows)

    @property
    def is_steady(self) -> bool:
        """Whether most runs were; of a network that can deadlock none is."""
        steady = [row["steady"] == "yes" for row in self.rows]
        return not self.can_deadlock and steady.count(False) < steady.count(True)

    @property
    def keeps_up(self) -> bool:
        """Whether all measured packets came out, nearly all that was offered, which is no more than links and ports
        allow, and whether the packets of no source and no destination pile up. A network that can deadlock keeps up
        with no load."""
        is_taken = self.is_whole and KEPT_UP * self.known("offered") <= self.known("accepted")
        is_even = all(row.get("behind", "0") == "0" for row in self.rows)
        return is_taken and is_even and not self.is_above and not self.can_deadlock

    @property
    def is_above(self) -> bool:
        """Whether the load, or what was offered or accepted, is more than links and ports allow of the pattern; of a
        traffic file, whether one of them was asked for more than a flit in a cycle."""
        if self.least("bound") is None:
            return (self.least("asked") or 0.0) > 1
        pairs = [("load", "bound_load"), ("offered", "bound"), ("accepted", "bound")]
        return any((self.least(bound) or 0.0) < self.known(name) for name, bound in pairs)


class Combination(NamedTuple):
    """The results of a network and a traffic: a line for each load, the lowest first."""

    words: Row
    lines: list[Line]

    @property
    def can_deadlock(self) -> bool:
        """Whether a network has no ranks."""
        return any(line.can_deadlock for line in self.lines)

    @property
    def shortest(self) -> list[Row]:
        """The results of its shortest runs."""
        rows = [row for line in self.lines for row in line.rows]
        least = min(int(row["ran"]) for row in rows)
        return [row for row in rows if int(row["ran"]) == least]


def settings_in(row: Row) -> list[str]:
    """The settings of which some rows tell."""
    return [key for key in SETTINGS if key in row]


def combinations_of(rows: Iterable[Row], along: str = LOAD) -> list[Combination]:
    """The combinations of some results, each with its lines along a setting, which is the load where no other is
    meant."""
    groups: dict[tuple[str, ...], dict[str, list[Row]]] = {}
    for row in rows:
        apart = tuple(row[key] for key in settings_in(row) if key not in (along, SEED))
        groups.setdefault(apart, {}).setdefault(row.get(along, NONE), []).append(row)
    return [
        Combination(next(iter(lines.values()))[0], [Line(lines[word]) for word in sorted(lines, key=place_of)])
        for lines in groups.values()
    ]


def place_of(word: str) -> tuple[float, str]:
    """Numbers by their size, and words as in a dictionary."""
    try:
        return float(word), ""
    except ValueError:
        return 0.0, word


def varying(combinations: Sequence[Combination], along: str = LOAD) -> list[str]:
    """The settings by which combinations differ; but for one that has one value alone, and says nothing in others,
    where these differ by another."""
    keys = [key for key in settings_in(combinations[0].words) if key not in (along, SEED)]
    values = {key: {combination.words[key] for combination in combinations} for key in keys}
    keys = [key for key in keys if 1 < len(values[key])]
    several = [key for key in keys if 1 < len(values[key] - {NONE})]
    is_enough = len({tuple(each.words[key] for key in several) for each in combinations}) == len(combinations)
    return several if is_enough else keys


LATENCIES = ["mean", "p95", "p99", "queue_mean", "network_mean"]
WITH_MARGINS = LATENCIES[:3]
# The columns behind the settings, and how their numbers are written.
BORNE = {
    "slots": "d", "latency_load": "g", **{name: ".1f" if name.endswith("mean") else ".0f" for name in LATENCIES},
    "keeps_up_to": ".4f", "keeps_up_load": "g", "steady_to": ".4f", "steady_load": "g", "saturation": ".4f",
    "saturation_load": "g", "saturation_least": ".4f", "saturation_most": ".4f", "capacity": ".4f",
    "of_capacity": ".3f", "ran": "d", "steady": "", "deadlock_free": "", "stuck": "d", "seeds": "d",
    **{margin_of(name): ".1f" for name in WITH_MARGINS}, "saturation_margin": ".4f", "keeps_up_step": "g",
    "bound": ".4f", "bound_load": ".4f",
}


def capacity(kind: str, radix: Sequence[int]) -> float:
    """The flits per node and cycle of uniform traffic that the links across the middle allow, and the ports of the
    nodes, which take one in a cycle (Dally and Towles, chapter 3)."""
    k = max(radix)
    across = 4 * k / (k * k - k % 2)
    return min(1.0, 2 * across if kind == "torus" else across)


def reached(lines: Iterable[Line]) -> tuple[float | None, float | None]:
    """What is accepted at the last of these lines, and its load."""
    *_, last = None, *lines
    return (last.at("accepted"), last.load) if last else (None, None)


def latencies_at(lines: Sequence[Line], at: float | None) -> dict[str, Value]:
    """The latencies at a load, or at the lowest one."""
    there = line_at(lines, at)
    load = there.load if there else at
    return {"latency_load": load, **{name: there.at(name) if there else None for name in LATENCIES}}


def line_at(lines: Sequence[Line], at: float | None) -> Line | None:
    """The line of a load, or of the lowest one."""
    return next((line for line in lines if at in (None, line.load)), None)


def step_above(lines: Sequence[Line], kept: Sequence[Line]) -> float | None:
    """How far the next load is above the last with which a network keeps up; None where it keeps up with all."""
    if len(kept) == len(lines):
        return None
    return round(lines[len(kept)].load - (kept[-1].load if kept else 0.0), 9)


def well_known(lines: Sequence[Line], most: Line, at: float | None) -> dict[str, Value]:
    """Over how many seeds the figures are means, and how well they are known."""
    there = line_at(lines, at)
    row: dict[str, Value] = {"seeds": len(most.rows)}
    row.update({margin_of(name): there.margin(name) if there else None for name in WITH_MARGINS})
    row[margin_of("saturation")] = most.margin("accepted")
    return row


def row_of(combination: Combination, keys: Iterable[str], at: float | None) -> dict[str, Value]:
    """The settings by which a combination differs, and what it bears."""
    words, lines = combination.words, combination.lines
    most = max(lines, key=lambda line: line.known("accepted"))
    seeds, shortest = most.figures("accepted"), combination.shortest
    row: dict[str, Value] = {key: value_of(key, shown(words, key)) for key in keys}
    row["slots"] = int(words["channels"]) * int(words["buffer"])
    row.update(latencies_at(lines, at))
    kept = list(takewhile(lambda line: line.keeps_up, lines))
    row["keeps_up_to"], row["keeps_up_load"] = reached(kept)
    row["steady_to"], row["steady_load"] = reached(takewhile(lambda line: line.is_steady, lines))
    row["saturation"], row["saturation_load"] = reached([most])
    row["saturation_least"], row["saturation_most"] = min(seeds), max(seeds)
    allowed = capacity(words["kind"], numbers_in("radix", words["radix"]))
    worth = worth_of_a_flit(words)
    row["capacity"] = worth and worth * allowed
    row["of_capacity"] = worth and most.known("accepted") / (worth * allowed)
    row["ran"] = int(shortest[0]["ran"])
    row["steady"] = yes_or_no(all(run["steady"] == "yes" for run in shortest))
    row["deadlock_free"] = yes_or_no(not combination.can_deadlock)
    row["stuck"] = sum(run.get("stuck") == "yes" for line in lines for run in line.rows)
    row.update(well_known(lines, most, at))
    row["keeps_up_step"] = step_above(lines, kept)
    row["bound"], row["bound_load"] = most.least("bound"), most.least("bound_load")
    return row


def rows_of(combinations: Sequence[Combination], at: float | None = None) -> list[dict[str, Value]]:
    """A row for each combination."""
    keys = varying(combinations)
    return [row_of(combination, keys, at) for combination in combinations]


def words_of(row: Mapping[str, Value]) -> list[str]:
    """A row as fields of CSV."""
    return [NONE if value is None else format(value, BORNE.get(name, "")) for name, value in row.items()]


def table_text(rows: Sequence[Mapping[str, Value]]) -> str:
    """The rows as CSV."""
    return "".join(map(csv_line, [list(rows[0]), *map(words_of, rows)]))
