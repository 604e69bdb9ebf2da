"""What a notebook asks of a network beside its runs: how much load it takes, and whether it can
deadlock."""
import csv
from collections.abc import Collection, Iterable, Mapping, Sequence
from dataclasses import replace
from itertools import islice
from pathlib import Path
from typing import Any

from .certificate import CERTIFICATE, copied, made_with_ranks, read_given, room, write_all
from .errors import Refused
from .measure import COLUMNS, Experiment, check_network, measured_side_by_side
from .network import Network
from .study.plan import load_range
from .program import processors, report
from .ranks import ADAPTIVE, RANK_COLUMNS, escape_choices, first_found, rank_file, ranks_found
from .relation import checked_relation
from .study.results import value_of
from .runs import Config, InputFile, config_file
from .several import added
from .statistics import middle_window, window_within
from .study.combinations import Value
from .traffic import UNIFORM, Demand
from .pool import check_jobs

# A row for each channel of a link: its router, output port and number, and its rank, None of an
# adaptive one.
RankRows = Sequence[Mapping[str, Any]]


def load(
    config: Config, length: int | tuple[int, ...], loads: str | Iterable[float],
    pattern: str = UNIFORM, table: str | Path | None = None, window: tuple[int, int] | None = None,
    runs: int = 1, jobs: int | None = None, **demand: Any,
) -> list[dict[str, Value]]:
    """Latency against load, as 'noc-tools load' measures it: a row for each load, with the names of
    its columns.

    Packets have so many flits, or one of several lengths. Loads are in flits per node and cycle; a
    text "A:B:STEP" stands for those from A up to B. The packets are measured that are due from the
    first cycle of `window` to before the second, by default in the middle third. Of each load
    `runs` are made, with the seeds from that of the demand on, and measured as one. `jobs` runs are
    made at a time, by default one for each processor. What else a `Demand` may have is given by
    name: seed, cycles, classes, spots, share, burst.
    """
    check_jobs(processors() if jobs is None else jobs)
    if runs < 1:
        raise Refused("at least one run is made of each load")
    file = config_file(config)
    network, path = Network.read(file.path), str(table) if table else None
    cycles = network.cycles
    span = window_within("{}:{}".format(*window), cycles) if window else middle_window(cycles)
    words: Iterable[Any] = load_range(loads) if isinstance(loads, str) else loads
    wanted = [float(word) for word in words]
    demands = [Demand(pattern, each, length, **demand) for each in wanted]
    check_network(network, path)
    for one in demands:
        one.check(network)
    several = [replace(one, seed=one.seed + more) for one in demands for more in range(runs)]
    experiments = [Experiment(network, one, span, path) for one in several]
    learnt = [one._replace(known=one.learnt()) for one in experiments]
    measured = measured_side_by_side(learnt, jobs or processors())
    rows = [[f"{each:.12g}", *added(list(islice(measured, runs))).words()] for each in wanted]
    names = ["load", *COLUMNS]
    return [{name: value_of(name, word) for name, word in zip(names, row)} for row in rows]


def ranks_of(
    config: Config, table: str | Path | None = None, escape: Collection[int] | None = None
) -> list[dict[str, Any]]:
    """Ranks of the channels of a network, a row for each: its router, output port and number, and
    its rank, or None where it is adaptive.

    Some numbers may be named as those of escape channels. Otherwise all channels have ranks if they
    can, or else the lowest ones of each class. Where there are none, what is raised says why: a
    circle of dependencies, step by step.
    """
    file = config_file(config)
    relation = checked_relation(file.path, str(table) if table else None)
    network = relation.channels.network
    if escape is None:
        found = ranks_found(relation)
    else:
        found = first_found(relation, escape_choices(network, set(escape)))
    rows = csv.DictReader(rank_file(relation.channels, found))
    return [{name: of_rank(name, word) for name, word in row.items()} for row in rows]


def of_rank(name: str, word: str) -> int | str | None:
    """A field of a rank file."""
    return word if name == "port" else None if word == ADAPTIVE else int(word)


def rank_word(value: int | str | None) -> str:
    """The same as it stands in the file."""
    return ADAPTIVE if value is None else str(value)


def ranks_file(ranks: str | Path | RankRows) -> InputFile:
    """A rank file: one that is there, or one of rows."""
    if isinstance(ranks, (str, Path)):
        return InputFile(ranks)
    rows = [[rank_word(row[name]) for name in RANK_COLUMNS] for row in ranks]
    return InputFile("ranks", "".join(",".join(fields) + "\n" for fields in [RANK_COLUMNS, *rows]))


def check(
    config: Config, ranks: str | Path | RankRows | None = None, table: str | Path | None = None
) -> str:
    """What 'noc check' answers: 'accepted' where these ranks show that no traffic can bring the
    network to a deadlock.

    Ranks are a file or rows as of `ranks_of`; without any they are those by the formula of the
    rule. Where noc does not accept them, its line and status are raised.
    """
    file, words = config_file(config), ["--table", str(table)] if table else []
    given = InputFile("ranks", report("ranks", file.path)) if ranks is None else ranks_file(ranks)
    return report("check", file.path, *words, "--ranks", given.path).rstrip("\n")


def certify(
    config: Config, folder: str | Path, ranks: str | Path | RankRows | None = None,
    table: str | Path | None = None, find: bool = False,
) -> Path:
    """Makes a certificate of deadlock freedom in a folder that is empty or not there, as
    'noc-tools certify' does, and returns its page.

    Ranks are as for `check`, or are found. Where noc does not accept them, or there are none, that
    is raised.
    """
    with room(str(folder)) as made:
        file, given = config_file(config), None if ranks is None else ranks_file(ranks)
        files = read_given(file.path, str(table) if table else None, given.path if given else None)
        with copied(files) as inputs:
            write_all(made_with_ranks(inputs, find), made)
    return Path(folder) / f"{CERTIFICATE}.html"
