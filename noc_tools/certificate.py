"""The folder of a certificate, whose files are made of a configuration, a table and ranks.

Where a network has no ranks, and gets stuck, the folder shows a jam in the place of ranks. All is made of copies of
the files that were given, each of which is read once: so what is certified is what was checked, whatever is saved
meanwhile.
"""
import fcntl
import os
import re
from collections.abc import Iterator, Mapping
from contextlib import contextmanager, suppress
from dataclasses import dataclass
from pathlib import Path
from tempfile import TemporaryDirectory

from . import claims, page, replay
from .claims import GRAPH, REPLAY, TRAFFIC
from .dependencies import Graph, circle_picture
from .errors import Refused
from .files import read_bytes, write
from .jam import Jam
from .network import Network
from .page import Block
from .program import builder_of, program_file, report, sha256_of
from .ranks import rank_file, read_ranks, ranks_found
from .relation import checked_relation
from .runs import Run
from .traffic import traffic_text
from .waiting import Snapshot, waiting_lines

CONFIGURATION, TABLE, RANKS, ANSWER = "configuration.toml", "table.csv", "ranks.csv", "answer.txt"
CIRCLE, PROGRAM, SUMS = "circle.txt", "program.txt", "SHA256SUMS"
# The pages, without the ends of their names.
CERTIFICATE, COUNTEREXAMPLE = "certificate", "counterexample"
# What a folder is made of: ranks, or a circle and a traffic that gets stuck. All other files follow from these.
GIVEN = [CONFIGURATION, TABLE, RANKS, CIRCLE, TRAFFIC]
# The cycles that the replay of a jam shows after the last event.
STILL = 10
# What program.txt says: a few words for each of these.
VERSION_KEYS = ["noc", "formats", "kit", "built", "sha256"]
VERSION_WORDS = re.compile(r"[\w. -]{1,64}", re.ASCII)
Files = dict[str, bytes]
Version = dict[str, str]


@dataclass(frozen=True)
class Inputs:
    """The files of which a certificate is made, by the paths of their copies."""

    config: str
    table: str | None = None
    ranks: str | None = None
    # Of a folder that is there and shows a jam.
    circle: str | None = None
    traffic: str | None = None

    def files(self) -> Files:
        """Their bytes, by their names in the folder."""
        given = {CONFIGURATION: self.config, TABLE: self.table, RANKS: self.ranks}
        return {name: Path(path).read_bytes() for name, path in given.items() if path}

    def table_words(self, name: str | None = None) -> list[str]:
        """The table as words for noc, by its path or a name."""
        return ["--table", name or self.table] if self.table else []


@contextmanager
def copied(given: Files) -> Iterator[Inputs]:
    """Copies of the files that are given, by their names in the folder of a certificate."""
    with TemporaryDirectory(prefix="noc-") as name:
        paths = {each: str(Path(name) / each) for each in GIVEN if each in given}
        for each, path in paths.items():
            write(path, given[each])
        if CONFIGURATION not in paths:
            raise Refused(f"{CONFIGURATION} is missing")
        yield Inputs(paths[CONFIGURATION], *map(paths.get, GIVEN[1:]))


def read_given(config: str, table: str | None, ranks: str | None) -> Files:
    """The files that are given, by their names in the folder; each is read once."""
    paths = dict(zip(GIVEN, (config, table, ranks)))
    return {name: read_bytes(path) for name, path in paths.items() if path}


def version() -> Version:
    """What tells one program from another: what it says of its version, the kit that built it, and its digest."""
    said = dict(line.split(" ", 1) for line in report("--version").splitlines())
    digest = sha256_of(program_file().read_bytes())
    return {**said, "built": builder_of(program_file(), digest), "sha256": digest}


@dataclass(frozen=True)
class Content:
    """What is in a folder but for the program: its files, and of the page its name, title and blocks, and the lines of
    how to repeat it."""

    files: Files
    name: str
    title: str
    blocks: list[Block]
    repeated: list[str]


def certified(inputs: Inputs) -> Content:
    """What is in a certificate. What noc refuses it tells of itself."""
    assert inputs.ranks is not None
    relation = checked_relation(inputs.config, inputs.table)
    answer = report("check", inputs.config, *inputs.table_words(), "--ranks", inputs.ranks)
    graph = Graph(relation, read_ranks(relation.channels, inputs.ranks))
    files = {**inputs.files(), ANSWER: answer.encode(), GRAPH: graph.picture().encode()}
    words = " ".join(["$ noc check", CONFIGURATION, *inputs.table_words(TABLE), "--ranks", RANKS])
    blocks = claims.certificate(graph, TABLE if inputs.table else None)
    title = claims.title_of(claims.CERTIFIED, relation.channels.network)
    return Content(files, CERTIFICATE, title, blocks, [words, answer.rstrip("\n")])


def stuck(inputs: Inputs, jam: Jam) -> Content:
    """What is in a folder that shows a jam."""
    channels = checked_relation(inputs.config, inputs.table).channels
    lines = "".join(f"{dependency.line(channels)}\n" for dependency in jam.circle)
    files = {
        **Inputs(inputs.config, inputs.table).files(), CIRCLE: lines.encode(),
        TRAFFIC: traffic_text(jam.rows).encode(), GRAPH: circle_picture(channels, jam.circle).encode(),
    }
    with TemporaryDirectory(prefix="noc-") as folder:
        traffic = Path(folder) / TRAFFIC
        write(traffic, files[TRAFFIC])
        run = Run(inputs.config, traffic, inputs.table)
        # (the page tells these names, and no paths)
        run.config.name, run.traffic.name = CONFIGURATION, TRAFFIC
        last = min(run.network.cycles - 1, (run.counts["last_event"] or 0) + STILL)
        files[REPLAY] = replay.page(run, 0, last).encode()
        still_there = next(packet for packet in run.packets if packet.out is None)
        waiting = waiting_lines(Snapshot(run, run.network.cycles - 1), still_there)
    blocks = claims.counterexample(channels, jam, waiting, TABLE if inputs.table else None)
    words = " ".join(["$ noc run", CONFIGURATION, TRAFFIC, *inputs.table_words(TABLE), "--report summary > /dev/null"])
    title = claims.title_of(claims.STUCK, channels.network)
    return Content(files, COUNTEREXAMPLE, title, blocks, [words, "$ echo $?", str(run.status)])


def with_pages(content: Content, of_program: Version, known: Mapping[str, str] | None = None) -> Files:
    """All files of a folder that a program of this version makes: the page in two forms, and the digests of all. Of
    files whose digests are known otherwise these are told."""
    made = {**content.files, PROGRAM: version_text(of_program)}

    def digest(name: str) -> str:
        return (known or {}).get(name) or sha256_of(made[name])

    digests = [("noc", of_program["sha256"]), *((each, digest(each)) for each in sorted(made))]
    ends = [*claims.trusted(of_program), *claims.repeated(content.repeated), *claims.digest_block(digests)]
    made[f"{content.name}.html"] = page.html(content.title, [*content.blocks, *ends]).encode()
    made[f"{content.name}.md"] = page.markdown(content.title, [*content.blocks, *ends]).encode()
    made[SUMS] = "".join(f"{digest(each)}  {each}\n" for each in sorted(made)).encode()
    return made


def version_text(of_program: Version) -> bytes:
    """What program.txt says."""
    return "".join(f"{key} {value}\n" for key, value in of_program.items()).encode()


def version_in(text: bytes) -> Version | None:
    """What a program.txt says; None where it is none."""
    lines = (line.partition(" ") for line in text.decode(errors="replace").splitlines())
    found = {key: value for key, _, value in lines}
    is_whole = list(found) == VERSION_KEYS and all(map(VERSION_WORDS.fullmatch, found.values()))
    return found if is_whole and version_text(found) == text else None


# ---- making a folder


@contextmanager
def room(out: str) -> Iterator[Path]:
    """The folder for a certificate, which is made, or is there and empty. No other call has it meanwhile, and what is
    made of it is gone again where nothing comes into it."""
    folder = Path(out)
    made = [path for path in (folder, *folder.parents) if not path.exists()]
    if folder.exists() and not folder.is_dir():
        raise Refused(f"{out} is there, and is no empty folder")
    folder.mkdir(parents=True, exist_ok=True)
    handle = os.open(folder, os.O_RDONLY | os.O_DIRECTORY)
    try:
        with only_one(folder, handle):
            try:
                if any(folder.iterdir()):
                    raise Refused(f"{out} is there, and is no empty folder")
                yield folder
            finally:
                with suppress(OSError):
                    for path in made:
                        path.rmdir()
    finally:
        os.close(handle)


@contextmanager
def only_one(folder: Path, handle: int) -> Iterator[None]:
    """Holds a folder that is open, for one call at a time. A call that ended may have taken it away meanwhile."""
    try:
        fcntl.flock(handle, fcntl.LOCK_EX | fcntl.LOCK_NB)
        is_there = os.path.samestat(os.fstat(handle), folder.stat())
    except (BlockingIOError, FileNotFoundError):
        is_there = False
    if not is_there:
        raise Refused(f"another call makes {folder}")
    yield


def write_all(content: Content, folder: Path) -> None:
    """Puts the files into a folder."""
    for name, data in with_pages(content, version()).items():
        write(folder / name, data)


def made_with_ranks(inputs: Inputs, is_search: bool) -> Content:
    """What is in a certificate by ranks that are given, or by formula, or found; where there are none, NoRanks."""
    if inputs.ranks:
        return certified(inputs)
    relation = checked_relation(inputs.config, inputs.table)
    if is_search:
        lines = "".join(f"{line}\n" for line in rank_file(relation.channels, ranks_found(relation)))
    else:
        lines = by_formula(inputs, relation.channels.network)
    with copied({**inputs.files(), RANKS: lines.encode()}) as whole:
        return certified(whole)


def by_formula(inputs: Inputs, network: Network) -> str:
    """The ranks by formula of a rule that has some."""
    if network.rule == "table" or (network.rule == "dor" and network.kind == "torus"):
        rule = "a table has" if network.rule == "table" else "dor on a torus has"
        raise Refused(f"{rule} no ranks by formula: give --ranks F, or --find")
    return report("ranks", inputs.config)
