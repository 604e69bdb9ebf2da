"""Results of a study that are kept: a line for each run as it comes, which an end at any moment leaves whole."""
import fcntl
import io
import os
import shlex
import signal
from collections.abc import Callable, Iterable, Iterator, Sequence
from contextlib import contextmanager
from operator import attrgetter
from pathlib import Path
from tempfile import TemporaryDirectory

from ..errors import Refused, refusing
from ..files import csv_line, csv_rows, put, read_bytes
from ..measure import COLUMNS, check_network, yes_or_no
from ..pool import Pool
from ..program import digest, digest_of, program_digest
from ..statistics import TOO_MUCH
from .plan import NONE, PATHS, SEPARATORS, SETTINGS, WORDS, Case

# The file in the folder of a study.
RESULTS = "results.csv"
DIGESTS = ["program_digest", "configuration_digest", "traffic_digest", "requests_digest", "table_digest"]
HEADER = ["run", *SETTINGS, *COLUMNS, *DIGESTS]
# The columns that are no numbers.
FLAGS = ["steady", "stuck", "deadlock_free"]
TEXTS = {"run", *WORDS, *SEPARATORS, "parts", *FLAGS, *DIGESTS}
LAUNCHER = Path(__file__).resolve().parents[2] / "noc-tools"
Row = dict[str, str]


def whole_lines(data: bytes) -> bytes:
    """What ends in a line feed, without a last line that was cut off."""
    return data[: data.rfind(b"\n") + 1]


def rows_in(data: bytes, name: str) -> list[list[str]]:
    """The lines of CSV, each as its fields."""
    return csv_rows(io.StringIO(data.decode(errors="surrogateescape"), newline="\n"), "file of results", name)


def value_of(name: str, word: str) -> str | float | None:
    """A field of the results as a number, where it is one, and None for a dash."""
    if word == NONE:
        return None
    # (several lengths are a text too)
    if name in TEXTS or name == "length" and not word.isdecimal():
        return word
    return int(word) if word.isdecimal() else float(word)


def checked_row(fields: Sequence[str], name: str) -> Row:
    """A line of results by the names of its columns, where each number is one."""
    if len(fields) != len(HEADER):
        raise Refused(f"{name} is not whole")
    row = dict(zip(HEADER, fields))
    for key, word in row.items():
        with refusing(ValueError, f"{name}: '{word}' of the column '{key}' is no number"):
            value = value_of(key, word)
            if isinstance(value, int | float) and not 0 <= value < TOO_MUCH:
                raise ValueError
    with refusing(ValueError, f"{name}: '{row['ran']}' of the column 'ran' is not 1 to {row['cycles']}"):
        if not 1 <= int(row["ran"]) <= int(row["cycles"]):
            raise ValueError
    return row


class Results:
    """The lines of results.csv by the names of their runs; one study has the file at a time."""

    def __init__(self, path: Path) -> None:
        self.path = path
        try:
            path.parent.mkdir(parents=True, exist_ok=True)
            if path.exists() and not path.is_file():
                raise Refused(f"{path} is no plain file")
            self.file = os.open(path, os.O_RDWR | os.O_CREAT | os.O_APPEND, 0o666)
            fcntl.flock(self.file, fcntl.LOCK_EX | fcntl.LOCK_NB)
        except BlockingIOError:
            os.close(self.file)
            raise Refused(f"another sweep is at work on {path}") from None
        except OSError as error:
            raise Refused(f"{error.filename or path}: {error.strerror}") from None
        try:
            self.rows = {row["run"]: row for row in self.read()}
        except Refused:
            self.close()
            raise

    def close(self) -> None:
        """Lets another study have the file."""
        os.close(self.file)

    def read(self) -> list[Row]:
        """The lines that are there. Of a file of a sweep a last one that was cut off is taken away: its run has no
        result."""
        data = self.path.read_bytes()
        whole = whole_lines(data)
        rows = rows_in(whole, str(self.path))
        header = rows.pop(0) if rows else None
        if header != HEADER and not (header is None and csv_line(HEADER).encode().startswith(data)):
            raise Refused(f"{self.path} holds other results than those of this sweep: name another folder with --out")
        found = [checked_row(row, f"{self.path}: line {number}") for number, row in enumerate(rows, 2)]
        os.ftruncate(self.file, len(whole))
        if header is None:
            self.write(HEADER)
        return found

    def write(self, fields: Iterable[str]) -> None:
        """One line in one write, so that a kill leaves whole lines."""
        data = csv_line(fields).encode(errors="surrogateescape")
        with refusing(OSError, f"{self.path}: "):
            written = os.write(self.file, data)
        if written < len(data):
            raise Refused(f"{self.path}: there is no room for a whole line")

    def add(self, fields: Sequence[str]) -> None:
        """Takes the line of a run."""
        row = dict(zip(HEADER, fields))
        self.write(fields)
        self.rows[row["run"]] = row

    def row_of(self, case: Case) -> Row:
        """The line of a run, whose settings are those of its name."""
        row = self.rows[case.run]
        check_settings(row, case, f"{self.path}: the line of the run {case.run}")
        return row

    def programs(self, cases: Iterable[Case]) -> list[str]:
        """The digests of the programs that made the results of runs."""
        return sorted({self.rows[case.run]["program_digest"] for case in cases if case.run in self.rows})

    def check_one_program(self, cases: Iterable[Case]) -> None:
        """Refuses results of several programs."""
        made = self.programs(cases)
        if 1 < len(made):
            told = f"{self.path} has results of the programs {' and '.join(made)}"
            raise Refused(f"{told}: name another folder with --out")

    def check_program(self, cases: Iterable[Case]) -> None:
        """Refuses to go on with results of another program."""
        present = program_digest()
        for case in cases:
            made = self.rows.get(case.run, {}).get("program_digest", present)
            if made != present:
                told = f"{self.path} has results of the program {made}, and this is {present}"
                raise Refused(f"{told}: name another folder with --out")

    def collect(self, path: str, find: Callable[[str], Case | None]) -> None:
        """Takes lines that commands of a study printed, of which `find` gives the run by its name; one that is cut off
        is none."""
        lines = rows_in(whole_lines(read_bytes(path)), path)
        for number, fields in enumerate(lines, 1):
            self.take(fields, find, f"{path}: line {number}")

    def take(self, fields: list[str], find: Callable[[str], Case | None], name: str) -> None:
        """Takes the line of a run that was made elsewhere, of which `find` gives the run by its name."""
        case = find(fields[0]) if len(fields) == len(HEADER) else None
        if case is None:
            raise Refused(f"{name} is no result of a run of this study")
        there = self.rows.get(fields[0])
        if there is None:
            check_origin(checked_row(fields, name), case, name)
            self.add(fields)
        elif list(there.values()) != fields:
            raise Refused(f"{name} is another result of a run that has one")


def check_settings(row: Row, case: Case, name: str) -> None:
    """Refuses a line that has other settings than its case; files may lie elsewhere."""
    for key, word in case.words.items():
        if key not in PATHS and row[key] != word:
            raise Refused(f"{name} has the {key} {row[key]}, and its run has {word}")


def check_origin(row: Row, case: Case, name: str) -> None:
    """Refuses a line that is not of the settings of its case, or of other things than these are here by their digests.

    The replies of a traffic are known by a run alone, and so is the traffic with them.
    """
    check_settings(row, case, name)
    if case.known is not None and row["deadlock_free"] != yes_or_no(case.known.is_free):
        raise Refused(f"{name} has '{row['deadlock_free']}' as 'deadlock_free', and here it is another")
    experiment = case.experiment
    made = digest_of(experiment.made.text.encode())
    own = {
        "program": program_digest(), "configuration": digest_of(experiment.config_text(int(row["ran"])).encode()),
        "table": case.table_digest, **({"requests": made} if experiment.replies else {"traffic": made}),
    }
    for key, found in own.items():
        given = row[f"{key}_digest"]
        if given != found:
            raise Refused(f"{name} is of another {key}: its digest is {given}, and here {found}")


# ---- one run


def line_of(case: Case, kept: Path | None = None) -> list[str]:
    """Makes a run and measures it; its files are kept where a folder is given."""
    with TemporaryDirectory(prefix="noc-sweep-") as name:
        folder = Path(name)
        case = case.with_table(folder)
        check_network(case.network, case.table)
        line = line_in(folder, case)
        if kept is not None:
            keep(folder, kept)
    return line


def keep(folder: Path, kept: Path) -> None:
    """Puts the files of a folder into another one, where each of them is not there, or is there already as it is."""
    kept.mkdir(parents=True, exist_ok=True)
    made = {kept / path.name: path.read_text(encoding="utf-8") for path in sorted(folder.iterdir())}
    for path, text in made.items():
        if os.path.lexists(path) and not (path.is_file() and path.read_bytes() == text.encode()):
            raise Refused(f"{path} is there, and is another file: name another folder with --files")
    for path, text in made.items():
        put(path, text)


def line_in(folder: Path, case: Case) -> list[str]:
    """The line of a run of a network that noc takes, whose files are written into a folder."""
    experiment = case.experiment
    files = experiment.files_in(folder)
    found = experiment.measured(files)
    requests = digest_of(experiment.made.text.encode()) if experiment.replies else NONE
    digests = [program_digest(), digest(files.config), digest(files.traffic), requests, case.table_digest]
    return [case.run, *case.words.values(), *found.words(), *digests]


def command_of(case: Case) -> list[str]:
    """The command that makes this run and prints its line, in whatever folder."""
    tools = [str(LAUNCHER)] if LAUNCHER.is_file() else ["-m", "noc_tools"]
    return ["python3", *tools, "sweep", "--one", *(f"{key}={word}" for key, word in case.words.items())]


@contextmanager
def interrupts_held() -> Iterator[Callable[[], bool]]:
    """Holds interrupts back until this is over, and tells whether one has come."""
    held = {signal.SIGINT}
    before = signal.pthread_sigmask(signal.SIG_BLOCK, held)
    try:
        yield lambda: bool(held & signal.sigpending())
    finally:
        signal.pthread_sigmask(signal.SIG_SETMASK, before)


def make_all(
    cases: Sequence[Case], jobs: int, locked: int, take: Callable[[list[str]], None], step: Callable[[int], None]
) -> None:
    """Makes runs side by side, takes the line of each, and says after each how many are left; after an interrupt those
    that have begun are ended and taken. The processes let go of the file that is locked."""
    failures: list[str] = []
    with interrupts_held() as is_interrupted, Pool(line_in, jobs, [locked], attrgetter("traffic")) as pool:
        for done, (number, line) in enumerate(pool.made(cases, is_interrupted), 1):
            if isinstance(line, Exception):
                failures.append(f"{shlex.join(command_of(cases[number]))}: {line}")
            else:
                take(line)
            step(len(cases) - done)
    if failures:
        raise Refused(f"{len(failures)} of {len(cases)} runs failed, the first: {failures[0]}")
