"""A study: the runs that a file names, the results of these, and what they show.

Of the modules `plan` has the file and the settings of a run, `results` its line, `combinations` what
each combination of settings bears, and `drawing` which curves stand in which frames.
"""
import os
from collections.abc import Callable, Iterable, Mapping
from contextlib import suppress
from dataclasses import replace
from pathlib import Path
from tempfile import TemporaryDirectory
from typing import TYPE_CHECKING, Any

from .. import shown
from ..errors import Refused
from ..files import put
from ..measure import check_network, told_of_short_runs, told_of_warm_up
from ..program import processors, program_digest
from ..traffic import Played
from .combinations import Combination, Value, combinations_of, rows_of, table_text
from .drawing import draw_study, pictures_in
from .plan import LOAD, Case, name_of, number_word, plan_of, read_plan
from .results import HEADER, RESULTS, Results, Row, line_of, make_all, value_of

if TYPE_CHECKING:
    import pandas

    from ..plots import Figure

__all__ = ["Study", "line_of"]
# The table of a study.
TABLE = "saturation.csv"
# The settings on which it rests whether a network has ranks.
OF_RANKS = ["kind", "radix", "rule", "table", "channels", "classes"]


def try_cases(cases: Iterable[Case]) -> None:
    """Refuses runs that cannot be made, before any is."""
    cases = list(cases)
    for case in {(case.network, case.table): case for case in cases}.values():
        try:
            check_network(case.network, case.table)
        except Refused as reason:
            keys = "kind", "radix", "rule", "channels", "buffer", "classes", "cycles"
            told = " ".join(f"{key}={case.words[key]}" for key in keys)
            raise Refused(f"noc takes no {told}: {reason.in_line}; 'cases' can do without it") from None
    for case in cases:
        case.experiment.check()


def told_of_deadlock(rows: Iterable[Row]) -> str | None:
    """In words which networks of some results can deadlock, and how many runs stood still."""
    stuck: dict[str, list[bool]] = {}
    for row in rows:
        if row["deadlock_free"] == "no":
            stuck.setdefault(name_of(row, OF_RANKS), []).append(row["stuck"] == "yes")
    if not stuck:
        return None
    told = "; ".join(f"{name} ({flags.count(True)} of {len(flags)} runs stood still)" for name, flags in stuck.items())
    networks = "1 network has" if len(stuck) == 1 else f"{len(stuck)} networks have"
    return f"{networks} no ranks, so packets can wait for one another in a circle: {told}"


def halfway(combination: Combination, within: float) -> str | None:
    """The load that is tried next between the last one with which a network keeps up and the first with which it does
    not; None where they are as near as wanted, or as two loads can be, or where it keeps up with all, and for one that
    can deadlock."""
    if combination.can_deadlock:
        return None
    kept = 0.0
    for line in combination.lines:
        if not line.keeps_up:
            middle = number_word(LOAD, (kept + line.load) / 2)
            return middle if within < line.load - kept and kept < float(middle) < line.load else None
        kept = line.load
    return None


def folder_of(path: str | Path, folder: str | Path | None = None) -> Path:
    """The folder of a study in a file: one that is named, or else that of its name."""
    if folder is None and Path(path).suffix != ".toml":
        raise Refused("a study that does not end in .toml needs --out FOLDER")
    return Path(folder) if folder else Path(path).with_suffix("")


def check_new(folder: Path) -> None:
    """Refuses a folder that has files of the names that a study writes, and no results."""
    there = [path for path in (folder / TABLE, *pictures_in(folder)) if os.path.lexists(path)]
    if there and not (folder / RESULTS).exists():
        raise Refused(f"{there[0]} is there, and no {RESULTS} beside it: name another folder with --out")


class Study:
    """The runs that a file of settings names, or a dict of them, and a folder with what was measured of them.

    One study has the folder at a time: from here until `close`, or the end of a `with`. Without a folder a file has the
    one of its name, and a dict one that goes with this object.
    """

    def __init__(self, settings: str | Path | Mapping[str, Any], folder: str | Path | None = None) -> None:
        if isinstance(settings, Mapping):
            self.plan = plan_of(settings, "study")
            self.own = TemporaryDirectory(prefix="noc-study-")
            self.folder = Path(folder or self.own.name)
        else:
            self.plan = read_plan(str(settings))
            self.folder = folder_of(settings, folder)
        check_new(self.folder)
        self.results = Results(self.folder / RESULTS)

    def __enter__(self) -> "Study":
        return self

    def __exit__(self, *details: object) -> None:
        self.close()

    def close(self) -> None:
        """Lets another study have the folder."""
        self.results.close()

    @property
    def cases(self) -> list[Case]:
        """Its runs: those that the file names, and behind them those by which loads are searched, as far as the
        results of the others say which they are."""
        groups: dict[tuple[str, ...], list[Case]] = {}
        for case in self.plan.cases:
            groups.setdefault(case.combination, []).append(case)
        searched = [case for group in groups.values() for case in self.searched(group)]
        return [*self.plan.cases, *searched]

    def searched(self, group: list[Case]) -> list[Case]:
        """The runs of a combination by which its load is searched, up to those that have no result yet."""
        found: list[Case] = []
        while self.plan.search and all(case.run in self.results.rows for case in [*group, *found]):
            (combination,) = combinations_of(self.rows_of([*group, *found]))
            load = halfway(combination, self.plan.search)
            if load is None:
                break
            seeds = {case.words["seed"]: case for case in group}
            found += [replace(case, words=case.words | {LOAD: load}) for case in seeds.values()]
        return found

    def rows_of(self, cases: Iterable[Case]) -> list[Row]:
        """The results of runs, as far as they are there."""
        return [self.results.row_of(case) for case in cases if case.run in self.results.rows]

    def open_cases(self) -> list[Case]:
        """The runs that have no result yet. Where loads are searched, more may follow when these have."""
        return [case for case in self.cases if case.run not in self.results.rows]

    def with_tables(self, cases: Iterable[Case]) -> list[Case]:
        """The runs with the tables of their rules, of which each is made once."""
        made: dict[tuple[object, ...], Case] = {}
        found = []
        for case in cases:
            shape = case.made_rule, replace(case.network, buffer=1, cycles=1)
            if shape not in made:
                made[shape] = case.with_table(self.folder / "tables")
            found.append(replace(case, made_table=made[shape].made_table))
        return found

    def ready(self, cases: Iterable[Case]) -> list[Case]:
        """The runs with what is made and asked once for each network, of which noc takes all."""
        found = self.with_tables(cases)
        try_cases(found)
        return [case.asked() for case in found]

    def make(self, jobs: int | None = None, step: Callable[[int], None] = lambda left: None) -> "Study":
        """Makes the runs that have no result yet, by default as many at a time as there are processors."""
        self.results.check_one_program(self.cases)
        while cases := self.open_cases():
            cases = self.ready(cases)
            self.results.check_program(self.cases)
            make_all(cases, jobs or processors(), self.results.file, self.results.add, step)
        return self

    def make_part(
        self, number: int, count: int, jobs: int, take: Callable[[list[str]], None], step: Callable[[int], None]
    ) -> None:
        """Makes the part with this number, from 1 on, of so many parts of the runs that have no result yet. The lines
        are given away and not kept."""
        cases = self.ready(self.open_cases()[number - 1::count])
        self.results.check_program(self.cases)
        make_all(cases, jobs, self.results.file, take, step)

    def finder(self) -> Callable[[str], Case | None]:
        """What gives a run by its name. A line that was taken may say by which run a load is searched next."""
        known: dict[str, Case] = {}

        def find(run: str) -> Case | None:
            if run not in known:
                known.update((case.run, case) for case in self.ready(self.cases))
            return known.get(run)

        return find

    def take(self, lines: Iterable[list[str]]) -> None:
        """Takes lines that `line_of` made of runs of the study, whatever called it and on whatever machine."""
        find = self.finder()
        for number, fields in enumerate(lines, 1):
            self.results.take(fields, find, f"line {number}")

    def collect(self, paths: Iterable[str]) -> None:
        """Takes the lines in these files, which must be all that are missing."""
        find = self.finder()
        for path in paths:
            self.results.collect(path, find)
        missing = len(self.open_cases())
        if missing:
            told = f"{missing} of {len(self.cases)} runs have no result yet"
            raise Refused(f"{told}: --part makes them, and --list prints their commands")

    def verify(self, count: int, jobs: int | None = None, step: Callable[[int], None] = lambda left: None) -> str:
        """Makes so many of the runs again, spread over all, and refuses a line that is not the same; in words how many
        are."""
        there = [case for case in self.cases if case.run in self.results.rows]
        if not 1 <= count <= len(there):
            raise Refused(f"{len(there)} runs have results: so many can be made again, and at least one")
        chosen = self.ready(there[place * len(there) // count] for place in range(count))

        def compare(fields: list[str]) -> None:
            row = self.results.rows[fields[0]]
            apart = [name for name, field in zip(HEADER, fields) if row[name] != field]
            if apart:
                raise Refused(f"{self.results.path}: run {fields[0]} made again has another {', '.join(apart)}")

        make_all(chosen, jobs or processors(), self.results.file, compare, step)
        return f"{count} of {len(there)} runs made again have the same bytes"

    def told_of_program(self) -> str | None:
        """In words that another program made the results, where one is here that may be another."""
        made = self.results.programs(self.cases)
        with suppress(Refused):
            present = program_digest()
            if made and made != [present]:
                told = f"{self.results.path} has results of the program {' and '.join(made)}, and this is {present}"
                return f"{told}: --verify N makes some of the runs again"
        return None

    def told_of_short_runs(self) -> str | None:
        """In words how many runs have fewer cycles than asked for."""
        return told_of_short_runs((int(row["ran"]), int(row["cycles"])) for row in self.rows_of(self.cases))

    def told_of_warm_up(self) -> str | None:
        """In words how many runs have a warm-up that is over before a packet may be out."""
        cases = [(case.experiment, self.results.rows.get(case.run)) for case in self.cases]
        return told_of_warm_up((one.warm_up(int(row["ran"])), one.longest) for one, row in cases if row)

    def told_of_silence(self) -> str | None:
        """In words in how many runs a traffic file is over well before the window is."""
        groups: dict[object, list[Case]] = {}
        for case in self.cases:
            if isinstance(case.traffic, Played):
                groups.setdefault((case.traffic, case.experiment.window, case.network.cycles), []).append(case)
        silent = [(group, ends) for group in groups.values() if (ends := group[0].experiment.silence)]
        if not silent:
            return None
        count, (first, (last, end)) = sum(len(group) for group, _ in silent), silent[0]
        told = f"in {count} runs the traffic file is over before the window, so the loads are too low"
        load = first[0].words["load"]
        return f"{told}: at the load {load} its last packet is due in cycle {last}, and the window ends at {end}"

    def told_of_deadlock(self) -> str | None:
        """In words which of its networks can deadlock, and how many of their runs stood still."""
        return told_of_deadlock(self.rows_of(self.cases))

    def told_of_room(self) -> str | None:
        """In words how many combinations no load saturates."""
        combinations = combinations_of(self.rows_of(self.cases))
        count = [all(line.keeps_up for line in each.lines) for each in combinations].count(True)
        if not count:
            return None
        return f"no load saturates {count} of {len(combinations)} combinations: they may take more than the table says"

    def rows(self) -> list[dict[str, Value]]:
        """The results in the order of the study, numbers as such, and None for a dash."""
        return [{name: value_of(name, word) for name, word in row.items()} for row in self.rows_of(self.cases)]

    def table(self) -> list[dict[str, Value]]:
        """What each combination of settings bears: a row of numbers, None where there is none."""
        return rows_of(combinations_of(self.rows_of(self.cases)), self.plan.at)

    def table_text(self) -> str:
        """The table as CSV."""
        return table_text(self.table())

    def draw(self, top: float | None = None) -> None:
        """Writes the pictures and the table into the folder; those of latency end at `top`."""
        draw_study(self.folder, self.rows_of(self.cases), self.plan.view, top)
        put(self.folder / TABLE, self.table_text())

    # ---- in a notebook

    def frame(self, of: str = "runs") -> "pandas.DataFrame":
        """A frame of pandas, which has to be installed: a row for each run that has a result, or with 'table' for each
        combination of settings."""
        from .. import frames
        return frames.of_study(self, of)

    def figure(self, y: str = "mean", x: str = "accepted", **how: Any) -> "Figure":
        """A figure of matplotlib, which has to be installed, for a column of a paper: the curves of one column of the
        results against another. `top` ends the axis of y, `width` is in inches (3.5), and `beside` frames stand side
        by side (1). `where` is a dict of settings that leaves some runs alone. `frames`, `colour`, `dash` and `along`
        are as in a study."""
        from .. import plots
        return plots.study_figure(self, y, x, **how)

    def __repr__(self) -> str:
        return f"<{shown.study_in_words(self)}>"

    def _repr_html_(self) -> str:
        return shown.study_as_table(self)
