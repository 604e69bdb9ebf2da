"""Calls of noc: where the program is, which one runs, what it reports, and calls that run side by side."""
import hashlib
import os
import shutil
import subprocess
import sysconfig
from collections.abc import Iterable, Iterator, Sequence
from functools import cache
from itertools import chain
from pathlib import Path
from queue import SimpleQueue
from tempfile import TemporaryFile
from threading import Thread

from .errors import Refused, refusing
from .files import read_bytes

DONE, STUCK = 0, 5
# A joined text that noc takes.
SMALLEST = (
    'kind = "mesh"\nradix = [2]\nchannels = 1\nbuffer = 1\nclasses = 1\nrule = "dor"\ncycles = 1\n'
    "---\nsource,destination,class,length,due\n"
)
# The kit of a program of which nothing says which kit built it.
UNKNOWN = "unknown"
# How many digits of a digest tell one file from another here.
DIGITS = 16
# The most bytes that are taken from a pipe at once.
ROOM = 1 << 16


def places() -> Iterator[Path]:
    """Where noc stands that belongs to this package: beside it, where pip puts what may be run, for all or for one
    user, and where it does so with --target."""
    beside = Path(__file__).resolve().parent.parent
    yield beside / "noc"
    for scheme in (sysconfig.get_default_scheme(), sysconfig.get_preferred_scheme("user")):
        yield Path(sysconfig.get_path("scripts", scheme)) / "noc"
    yield beside / "bin/noc"


def found_program() -> Path:
    """The program of this package: that of $NOC, else the one that belongs to it, else noc on PATH."""
    own = next((str(place) for place in places() if place.is_file()), None)
    found = os.environ.get("NOC") or own or shutil.which("noc")
    if not found:
        raise Refused("there is no noc: it is looked for in $NOC, beside the folder of this package, where pip puts "
                      "programs, and on PATH")
    return Path(found).absolute()


def is_script(path: Path) -> bool:
    """Whether a file is a script, which calls another program."""
    with refusing(OSError, f"{path}: "), open(path, "rb") as file:
        return file.read(2) == b"#!"


def program() -> Path:
    """The program that runs."""
    return chosen_by(found_program())


@cache
def chosen_by(found: Path) -> Path:
    """What runs where this is called: of the script ./noc the program for this processor. Nothing is built here."""
    if not is_script(found):
        return found
    asked = asked_of(found, "--which")
    if asked.returncode:
        check_script(found)
        return found
    chosen = Path(os.fsdecode(asked.stdout.removesuffix(b"\n")))
    told = f"call {found} once, which proves and builds it in some half an hour, or set NOC to a program"
    if not chosen.is_file():
        raise Refused(f"no program is built, there is no {chosen}: {told}")
    if not is_current(found, chosen):
        raise Refused(f"{chosen} is not of the sources as they stand: {told}")
    return chosen


def asked_of(script: Path, words: str) -> subprocess.CompletedProcess[bytes]:
    """What a script answers to words that build and run nothing."""
    return subprocess.run([script, words], stdin=subprocess.DEVNULL, capture_output=True)


def check_script(script: Path) -> None:
    """Refuses a script that names no program, and runs none."""
    ready = subprocess.run([script], input=SMALLEST.encode(), stdout=subprocess.DEVNULL)
    if ready.returncode:
        raise Refused(f"{script} runs no program", ready.returncode)


def is_current(script: Path, chosen: Path) -> bool:
    """Whether a program is of the sources as they stand, as far as the script tells of sources: those of which it was
    made stand in a file beside it, which has its time."""
    asked = asked_of(script, "--sources")
    if asked.returncode or not asked.stdout:
        return True
    kept = chosen.with_name(f"{chosen.name}.sources")
    is_its_own = kept.is_file() and kept.stat().st_mtime_ns == chosen.stat().st_mtime_ns
    return is_its_own and kept.read_bytes() == asked.stdout


def sha256_of(data: bytes) -> str:
    """The SHA-256 of some bytes."""
    return hashlib.sha256(data).hexdigest()


def digest_of(data: bytes) -> str:
    """The first digits of the SHA-256 of some bytes."""
    return sha256_of(data)[:DIGITS]


def digest(path: str | Path) -> str:
    """That of what is in a file."""
    return digest_of(read_bytes(path))


@cache
def known_digest(path: Path, changed: int) -> str:
    """The digest of a file that was changed then."""
    return digest(path)


def program_file() -> Path:
    """The program that runs, which a script must name."""
    path = program()
    if is_script(path):
        raise Refused(f"{path} --which does not say which program it runs")
    return path


def program_digest() -> str:
    """The digest of the program that runs."""
    path = program_file()
    return known_digest(path, path.stat().st_mtime_ns)


def builder_of(program: Path, digest: str) -> str:
    """The line of the kit that built a program of this SHA-256. A file beside the program has both; where that is not
    there, or of another program, the kit is unknown."""
    try:
        built, of = Path(f"{program.resolve()}.kit").read_text(errors="replace").splitlines()
    except (OSError, ValueError):
        return UNKNOWN
    return built.removeprefix("built ") if of == f"sha256 {digest}" else UNKNOWN


def processors() -> int:
    """How many processors this process may use."""
    return len(os.sched_getaffinity(0))


def free_processors() -> int:
    """How many processors have nothing to do, as far as the system tells how many programs run now."""
    try:
        running = int(Path("/proc/loadavg").read_text().split()[3].split("/")[0]) - 1
    except OSError:
        running = 0
    return max(1, (os.cpu_count() or 1) - running)


def ended(status: int, error: str, words: Sequence[str]) -> None:
    """Refuses what noc refused of a call with these words: with its line and its status, and in a line behind it what
    that means for the files of the call, where this can be told."""
    if status not in (DONE, STUCK):
        from .faults import sentence
        line = error.rstrip("\n") or f"noc ended with the status {status}"
        raise Refused("\n".join(filter(None, [line, sentence(line, words)])), max(status, 1))


def called(words: Iterable[str], given: bytes | None = None) -> tuple[int, bytes]:
    """The status and what noc writes, as it is; where it refuses, its line is the reason."""
    words = list(words)
    # (one pipe is read at once, and two by turns, which takes far longer)
    with TemporaryFile() as error:
        ran = subprocess.run([program(), *words], input=given, stdout=subprocess.PIPE, stderr=error)
        error.seek(0)
        ended(ran.returncode, error.read().decode(errors="replace"), words)
    return ran.returncode, ran.stdout


def output(*words: str) -> bytes:
    """What noc writes, as it is."""
    return called(words)[1]


def call(*words: str, given: str | None = None) -> tuple[int, str]:
    """The status and what noc writes, as text."""
    status, written = called(words, None if given is None else given.encode())
    return status, written.decode(errors="replace")


def report(*words: str, given: str | None = None) -> str:
    """What noc writes, as text."""
    return call(*words, given=given)[1]


def start(*words: str) -> subprocess.Popen[bytes]:
    """A call of noc that is read while it runs."""
    return subprocess.Popen([program(), *words], stdout=subprocess.PIPE, stderr=subprocess.PIPE)


def error_of(noc: subprocess.Popen[bytes]) -> str:
    """What a call says of errors, which is a line at most."""
    assert noc.stderr is not None
    return noc.stderr.read().decode(errors="replace")


def whole_lines(chunks: Iterable[bytes]) -> Iterator[str]:
    """A text that comes in pieces as pieces of whole lines, without the last line feed of each."""
    rest = b""
    for chunk in chunks:
        whole, end, rest = (rest + chunk).rpartition(b"\n")
        if end:
            yield whole.decode()


def texts(*words: str) -> Iterator[str]:
    """What noc writes as it writes it, in whole lines; it is ended where nobody wants more of them."""
    with start(*words) as noc:
        assert noc.stdout is not None
        output = noc.stdout.fileno()
        try:
            yield from whole_lines(iter(lambda: os.read(output, ROOM), b""))
        except GeneratorExit:
            noc.kill()
            return
        error = error_of(noc)
    ended(noc.returncode, error, words)


def lines_in(texts: Iterable[str]) -> Iterator[str]:
    """The lines of these texts one by one."""
    return chain.from_iterable(text.split("\n") for text in texts)


class Process:
    """A call of noc beside others. What it writes is taken in as it comes, so that it never waits for its reader."""

    def __init__(self, *words: str) -> None:
        self.noc, self.words = start(*words), words
        self.chunks: SimpleQueue[bytes] = SimpleQueue()
        self.reader = Thread(target=self.take_in, daemon=True)
        try:
            self.reader.start()
        except RuntimeError:
            with self.noc:
                self.noc.kill()
            raise Refused("the system gives no further thread") from None

    def take_in(self) -> None:
        """Takes in all that it writes."""
        assert self.noc.stdout is not None
        while chunk := os.read(self.noc.stdout.fileno(), ROOM):
            self.chunks.put(chunk)
        self.chunks.put(b"")

    def lines(self) -> Iterator[str]:
        """Its lines, without their ends."""
        yield from lines_in(whole_lines(iter(self.chunks.get, b"")))
        error = error_of(self.noc)
        ended(self.noc.wait(), error, self.words)

    def end(self) -> None:
        """Ends it, where it still runs."""
        self.noc.kill()
        self.reader.join()
        with self.noc:
            pass
