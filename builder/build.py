#!/usr/bin/env python3
"""Proves and builds a program of crates/noc/out: noc_avx2 for processors with AVX2, or noc for all.

    build.py PROGRAM

./noc has this done where the program for its processor is not there, or is not of the sources as they stand. Each
library is proved from nothing, and what the crates above it can cite is kept in crates/noc/out/libs: its statements,
without its proofs. Then the program is proved over the libraries, compiled and linked. Crates run side by side as far
as processors and memory go. The libraries are the same for both programs. A build that was stopped goes on with the
crates that it had not ended. However it is stopped, no check goes on without it. A build reads the sources as they
stood when it began. A digest of all that a library is made of, the kit included, is kept for it beside its own digest,
and it is made anew where one of them is another one. PROGRAM.kit says which kit built a program. Standard error tells
how far the build is: on a terminal in one line that is written anew, elsewhere in a line for each crate. The log of the
build, crates/noc/out/build.log, has the seconds of each crate. The toolchain is the kit of $RT, or else of rt on PATH.
The exit status is 0 where the program is built, else 1.
"""
import fcntl
import hashlib
import os
import re
import shutil
import signal
import subprocess
import sys
import time
from collections.abc import Iterator
from contextlib import contextmanager
from functools import cache
from pathlib import Path
from typing import IO, Any

TOP = Path(__file__).resolve().parent.parent
OUT = TOP / "crates/noc/out"
LOG, LIBRARIES, DIGESTS, TEXTS = OUT / "build.log", OUT / "libs", OUT / "digests", OUT / "texts"
# The line of the kit of the last build.
LAST_KIT = OUT / "kit"
KIT = "rattle-kit-13f"
WITHOUT_KIT = f"""The simulator is proved and built by the Rattle kit ({KIT}), a folder that its makers hand out: put
its bin on PATH, or the path of its rt into RT. What works without it: a folder that './noc --install DIR' makes where
the kit is, NOC=PROGRAM before ./noc-tools, and, with no program at all, './noc-tools traffic', 'table', 'keys' and
'curves'."""
PARTS = ("src", "specs", "proofs")
# What the compiler is told for each program.
PROGRAMS: dict[str, list[str]] = {"noc": [], "noc_avx2": ["--cpu", "x86-64-v3"]}
DISK, MEMORY = 2 << 30, 2 << 30
# A command line.
Words = list[str | Path]
# So many seconds to spare are a step of priority less, and as many steps less is what begins beside something else.
STEP, BESIDE = 15, 10
# The seconds that each crate takes by itself on four processors. Only their shares count. bench/crate_seconds.py makes
# them from the log of a build.
SECONDS = {
    "noc_topo": 34, "noc_packet": 35, "noc_waiting": 16, "noc_times": 14, "noc_exchange": 35, "noc_ring": 37,
    "noc_steps": 20, "noc_route": 96, "noc_rank": 216, "noc_alloc": 72, "noc_vc": 25, "noc_view": 14,
    "noc_sets": 11, "noc_router": 317, "noc_theory": 102, "noc_theory_bits": 34, "noc_columns": 330,
    "noc_cycles": 170, "noc_counts": 60, "noc_theory_cycles": 45, "noc_queues": 20, "noc_engine": 130,
    "noc_workers": 140, "noc_wires": 30, "noc_net": 75, "noc_commands": 47, "noc_bytes": 20, "noc_files": 272,
    "noc_cli": 193, "noc_faults": 27, "noc_requests": 35, "noc_answers": 50, "noc_asked": 25, "noc_program": 55,
    "noc": 160,
}


class Failed(Exception):
    """Why there is no program, in one sentence."""


class Crate:
    """A crate of the repository, what is made of it, and the libraries that it stands on: those of the repository,
    and those of the kit."""

    def __init__(self, name: str, on: list["Crate"], of_kit: list[str], program: str | None):
        self.name, self.on, self.of_kit, self.program = name, on, of_kit, program
        self.folder = TOP / "crates" / name
        self.texts = TEXTS / name
        self.made = OUT / program if program else LIBRARIES / f"{name}.rlib"
        self.kept = DIGESTS / (program or name)
        self.seconds = SECONDS.get(name, 30)

    @cache
    def below(self) -> list["Crate"]:
        """All that it stands on, by one step or by many, lowest first."""
        return list(dict.fromkeys(it for crate in self.on for it in [*crate.below(), crate]))

    @cache
    def read(self, kit: "Kit") -> str:
        """Copies its files to where its check reads them, so that an edit under way changes nothing. Returns a digest
        of all that it is made of: the line of the kit, that of crates.txt, its files and what it stands on."""
        digest = hashlib.sha256(repr([kit.line, self.name, self.of_kit, [it.read(kit) for it in self.on]]).encode())
        for file in sorted(it for part in PARTS for it in (self.folder / part).rglob("*") if it.is_file()):
            text, name = file.read_bytes(), file.relative_to(self.folder)
            (self.texts / name).parent.mkdir(parents=True, exist_ok=True)
            (self.texts / name).write_bytes(text)
            digest.update(f"{name} {len(text)} ".encode() + text)
        return digest.hexdigest()

    def digest(self) -> str:
        """That of what was made: rt may put another program there, and a copy that was interrupted another library."""
        files = [self.made] if self.program else sorted(it for it in self.made.rglob("*") if it.is_file())
        digest = hashlib.sha256()
        for file in files:
            with file.open("rb") as text:
                digest.update(f"{file.relative_to(OUT)} {hashlib.file_digest(text, 'sha256').hexdigest()}".encode())
        return digest.hexdigest()

    def keep(self, kit: "Kit") -> None:
        """Keeps, once it is made, the digest of what it was made of, and its own."""
        self.kept.write_text(f"{self.read(kit)} {self.digest()}")

    def is_made(self, kit: "Kit") -> bool:
        """Whether it was made of what was read now, and is as it was then."""
        if not (self.made.exists() and self.kept.exists()):
            return False
        made_of, _, itself = self.kept.read_text().partition(" ")
        return made_of == self.read(kit) and itself == self.digest()

    def build(self, kit: Path, jobs: int) -> Words:
        """The command that proves it and makes its library, or the object file of the program."""
        words: Words = [kit / "bin/rattle", "build", "--crate-name", self.name,
                        "src/main.rt" if self.program else "src/lib.rt"]
        uses = [(it, kit / f"rlibs/{it}.rlib") for it in ["std", *self.of_kit]] + [(it.name, it.made) for it in self.on]
        words += [word for name, library in uses for word in ("--extern", f"{name}={library}")]
        words += ["-L", f"dependency={kit / 'rlibs'}", "-L", f"dependency={LIBRARIES}", "--jobs", str(jobs)]
        words += ["--antt-project", kit / "rattle/logic/antt-project.json", "--logic-built", kit / "logic_built"]
        if self.program:
            return [*words, *PROGRAMS[self.program], "--backend", "llvm", "--toolchain", kit / "toolchain", "-o",
                    f"{self.made}.o"]
        return [*words, "--statements", "-o", self.made]

    def link(self, kit: Path) -> Words:
        """The command that links the program."""
        words: Words = [kit / "bin/rattle-link", "--target", "x86_64-unknown-linux-gnu", "--toolchain",
                        kit / "toolchain", "-o", self.made]
        return [*words, f"{self.made}.o", kit / "c/libos_c.a", kit / "c/liblibc_c.a"]


def crates_for(program: str) -> list[Crate]:
    """The crate of the programs, and all that it stands on, lowest first."""
    known: dict[str, Crate] = {}
    for line in (TOP / "crates.txt").read_text().splitlines():
        if found := re.match(r"(\w+)[^:#]*:(.*)", line):
            words = found[2].split()
            on, of_kit = [known[it] for it in words if it in known], [it for it in words if it not in known]
            known[found[1]] = Crate(found[1], on, of_kit, program if found[1] == "noc" else None)
    return [*known["noc"].below(), known["noc"]]


class Kit:
    """The toolchain: its folder, and the line that 'rt version' prints. Where rt is not there, the folder is None and
    the line that of the last build."""

    def __init__(self) -> None:
        self.rt = os.environ.get("RT", "rt")
        self.folder: Path | None = None
        found = shutil.which(self.rt)
        if found:
            self.folder = Path(found).resolve().parent.parent
            said = subprocess.run([found, "version"], stdin=subprocess.DEVNULL, capture_output=True, text=True)
            self.line = said.stdout.strip()
        else:
            self.line = LAST_KIT.read_text() if LAST_KIT.exists() else ""

    def there(self) -> Path:
        """Its folder, where it has to be there."""
        if self.folder is None:
            raise Failed(f"{self.rt} is not there.\n{WITHOUT_KIT}")
        return self.folder

    def is_known(self) -> bool:
        """Whether it is the one that the sources are proved with. If not, it is told."""
        if KIT in self.line.split():
            return True
        of = self.line or "another kit"
        print(f"noc: {self.rt} is of {of}, and this is proved with {KIT}: the build may fail", file=sys.stderr)
        return False


def check_room() -> None:
    """Makes sure that a build has disk and memory."""
    free = shutil.disk_usage(OUT).free
    if free < DISK:
        raise Failed(f"a build takes some {DISK >> 30} GB of disk, and {OUT} has {free >> 20} MB left")
    if free_memory() < MEMORY:
        raise Failed(f"a build takes at least {MEMORY >> 30} GB of memory, and {free_memory() >> 20} MB are free")


def free_memory() -> int:
    """The bytes of memory that are free."""
    found = re.search(r"MemAvailable:\s+(\d+)", Path("/proc/meminfo").read_text())
    return 1024 * int(found[1]) if found else 0


def sources() -> bytes:
    """What ./noc compares in each call: the name, size and time of each file that a program is made of."""
    return subprocess.run([TOP / "noc", "--sources"], stdin=subprocess.DEVNULL, stdout=subprocess.PIPE).stdout


def in_minutes(seconds: float) -> str:
    return f"{int(seconds) // 60} min {int(seconds) % 60:02} s"


class Group:
    """A command under way. It and all that it begins are one process group, with a guard that ends the group once this
    process has ended in any way: its death closes what the guard reads. All groups are of one session, since Linux
    compares priorities within one."""

    GUARD = "trap '' HUP INT QUIT TERM; read -r _; kill -KILL 0"

    def __init__(self, words: Words, **how: Any):
        self.guard = subprocess.Popen(["sh", "-c", self.GUARD], stdin=subprocess.PIPE, process_group=0)
        self.run = subprocess.Popen(words, stdin=subprocess.DEVNULL, process_group=self.guard.pid, **how)

    def end(self) -> int:
        """Ends what is left of it; returns its status."""
        os.killpg(self.guard.pid, signal.SIGKILL)
        self.guard.communicate()
        return self.run.wait()


class Check(Group):
    """A command of the kit under way for the builder, whose log has what it says."""

    TICKS = os.sysconf("SC_CLK_TCK")

    def __init__(self, words: Words, folder: Path, lock: IO[str], jobs: int = 1, priority: int = 0):
        self.start, self.jobs, self.at = time.time(), jobs, LOG.stat().st_size
        self.proof: tuple[float, float] | None = None
        with LOG.open("a") as log:
            # The group keeps the lock too, so that no other build begins before it has ended.
            super().__init__(["nice", "-n", str(priority), *words], cwd=folder, stdout=log, stderr=log,
                             pass_fds=[lock.fileno()])

    def seconds(self) -> tuple[float, float]:
        """How long it has run, and how much processor time it took, with all that it began and that has ended."""
        times = Path(f"/proc/{self.run.pid}/stat").read_text().rpartition(")")[2].split()[11:15]
        return time.time() - self.start, sum(map(int, times)) / self.TICKS

    def wait(self, how: int = 0) -> bool:
        """Waits until it has ended, and returns whether it has. What Linux knows of its seconds stays until `end`."""
        return os.waitid(os.P_PID, self.run.pid, os.WEXITED | os.WNOWAIT | how) is not None

    def has_ended(self, is_program: bool) -> bool:
        """Whether it has ended. A program is compiled once the log has its verdict: its seconds until then are kept."""
        has_ended = self.wait(os.WNOHANG)
        if is_program and not self.proof and re.search(rb"^logic=proved .*target=", LOG.read_bytes()[self.at:], re.M):
            self.proof = self.seconds()
        return has_ended


class Beside:
    """What goes on beside a build, which is nothing here. answer.py has a look at the sources there."""

    def begin(self) -> None:
        """It is clear that this call has to wait for a build."""

    def go_on(self) -> None:
        """Called several times a second."""

    def is_under_way(self) -> bool:
        """Whether it wants a processor."""
        return False


class Build:
    """A build under way, of those crates that are left."""

    def __init__(self, kit: Kit, crates: list[Crate], left: list[Crate], lock: IO[str], beside: Beside):
        self.kit, self.crates, self.left, self.lock, self.start = kit, crates, left, lock, time.time()
        self.beside = beside
        self.whole = sum(it.seconds for it in self.left)
        self.running: dict[Crate, Check] = {}
        self.is_terminal = sys.stderr.isatty()
        # The longest chain of crates that begins with each, in seconds.
        self.chain: dict[Crate, int] = {}
        for crate in reversed(crates):
            self.chain[crate] = crate.seconds + max((self.chain[it] for it in self.chain if crate in it.on), default=0)

    def progress(self) -> str:
        """How far it is: what is left, by the shares of the crates that are not made, at the pace so far."""
        run = (min(0.9 * it.seconds, time.time() - check.start) for it, check in self.running.items())
        left = sum(it.seconds for it in self.left) - sum(run)
        taken, done = time.time() - self.start, self.whole - left
        is_known = done > 0.05 * self.whole and self.left
        rest = f", about {max(1, round(taken * left / done / 60))} min left" if is_known else ""
        at = len(self.crates) - len(self.left)
        names = f"; at {' '.join(it.name for it in self.running)}" if self.running else ""
        return f"noc: {at} of {len(self.crates)} crates proved in {in_minutes(taken)}{rest}{names}"

    def tell(self, is_news: bool) -> None:
        if self.is_terminal:
            width = shutil.get_terminal_size().columns - 1
            print(f"\r\033[K{self.progress()[:width]}", end="", file=sys.stderr, flush=True)
        elif is_news:
            print(self.progress(), file=sys.stderr, flush=True)

    def begin(self, crate: Crate, jobs: int) -> None:
        """Begins a crate. The more time it has to spare, the lower is its priority: so it takes of the processors
        what others leave. What goes on beside the build comes first."""
        spare = max(self.chain[it] for it in self.left) - self.chain[crate]
        priority = int(spare / STEP) + (BESIDE if self.beside.is_under_way() else 0)
        note("begun", crate, time.time() - self.start)
        words = crate.build(self.kit.there(), jobs)
        self.running[crate] = Check(words, crate.texts, self.lock, jobs, min(19, priority))

    def begin_what_can(self) -> None:
        """Begins the crates whose libraries are made, those with the longest chain behind them first. One waits for no
        crate with a shorter chain, which has a lower priority beside it. It has as many jobs, four at most, as those
        with a longer one and what goes on beside the build leave of the processors, where each of the others gets one.
        By more jobs than processors the same checks take half as much processor time again."""
        processors = len(os.sched_getaffinity(0))
        ready = [it for it in self.left if it not in self.running and not any(on in self.left for on in it.on)]
        ready.sort(key=self.chain.__getitem__, reverse=True)
        for behind, crate in zip(range(len(ready) - 1, -1, -1), ready):
            before = sum(check.jobs for it, check in self.running.items() if self.chain[it] >= self.chain[crate])
            before += self.beside.is_under_way()
            if self.running and (before >= processors or free_memory() < 2 * MEMORY):
                return
            self.begin(crate, max(1, min(4, processors - before - behind)))

    def end(self, crate: Crate) -> None:
        """Links a program, or tells why nothing was made. A check that was killed, most likely for memory, runs once
        more by one job."""
        check = self.running.pop(crate)
        seconds, linked, status = check.seconds(), None, check.end()
        if status == -signal.SIGKILL and check.jobs > 1:
            return self.begin(crate, 1)
        if status == 0 and crate.program:
            link = Check(crate.link(self.kit.there()), crate.texts, self.lock)
            link.wait()
            linked, status = link.seconds(), link.end()
        if status:
            if shutil.disk_usage(OUT).free < 64 << 20:
                raise Failed(f"the disk is full, so {crate.name} could not be built")
            told = f"{LOG} has all messages, of which the last are:\n{last_messages()}"
            raise Failed(f"{crate.name} could not be proved and built; {told}")
        for stage, took in (("proved", check.proof), ("made", seconds), ("linked", linked)):
            if took:
                note("seconds", crate, stage, *took)
        crate.keep(self.kit)
        self.left.remove(crate)

    def run(self) -> None:
        print(f"noc: proving and building {self.crates[-1].program}, {len(self.left)} crates (messages: {LOG})",
              file=sys.stderr)
        LOG.write_text("")
        for crate in self.left:
            crate.kept.unlink(missing_ok=True)
        try:
            self.begin_what_can()
            while self.left:
                time.sleep(0.2)
                self.beside.go_on()
                for crate in [it for it, check in self.running.items() if check.has_ended(is_program=bool(it.program))]:
                    self.end(crate)
                    self.begin_what_can()
                    self.tell(is_news=True)
                self.tell(is_news=False)
        finally:
            for check in self.running.values():
                check.end()
            if self.is_terminal:
                print(file=sys.stderr)
        print(f"noc: built in {in_minutes(time.time() - self.start)}", file=sys.stderr)


def note(what: str, crate: Crate, *more: str | float) -> None:
    """Writes down in the log what bench/crate_seconds.py reads of it."""
    words = (it if isinstance(it, str) else f"{it:.1f}" for it in more)
    with LOG.open("a") as log:
        log.write(f"noc: {what} {crate.name} {' '.join(words)}\n")


def last_messages() -> str:
    lines = [it for it in LOG.read_text(errors="replace").splitlines() if re.search(r"error|not proved|^rattle", it)]
    return "\n".join(it[:300] for it in lines[-12:])


def is_taken(lock: IO[str]) -> bool:
    """Takes the lock; returns whether another build has it."""
    try:
        fcntl.flock(lock, fcntl.LOCK_EX | fcntl.LOCK_NB)
    except BlockingIOError:
        return True
    return False


def take(lock: IO[str], beside: Beside) -> None:
    """Waits until no other build is under way."""
    if not is_taken(lock):
        return
    print("noc: another build is under way, and this waits for its end", file=sys.stderr)
    beside.begin()
    while is_taken(lock):
        time.sleep(0.2)
        beside.go_on()


def keep_sources(program: str, seen: bytes) -> None:
    """Keeps for ./noc the sources that a program was made of. The time is that of the program, which so is known to
    be still this one."""
    kept, time_of = OUT / f"{program}.sources", (OUT / program).stat()
    kept.write_bytes(seen)
    os.utime(kept, ns=(time_of.st_atime_ns, time_of.st_mtime_ns))


def keep_kit(program: str, kit: Kit) -> None:
    """Keeps which kit built a program, with the digest of the program."""
    digest = hashlib.sha256((OUT / program).read_bytes()).hexdigest()
    (OUT / f"{program}.kit").write_text(f"built {kit.line}\nsha256 {digest}\n")


def build(program: str, beside: Beside) -> None:
    """Builds a program where it is not there, or not of the sources as they stand."""
    for folder in (LIBRARIES, DIGESTS):
        folder.mkdir(parents=True, exist_ok=True)
    with (OUT / "build.lock").open("w") as lock:
        take(lock, beside)
        try:
            shutil.rmtree(TEXTS, ignore_errors=True)
            # Looked at before they are read: so an edit from here on is seen by the next ./noc.
            kit, seen, crates = Kit(), sources(), crates_for(program)
            for crate in crates:
                crate.read(kit)
            left = [it for it in crates if not it.is_made(kit)]
            if left:
                kit.there()
                check_room()
            is_known = kit.is_known()
            if left:
                LAST_KIT.write_text(kit.line)
                beside.begin()
                Build(kit, crates, left, lock, beside).run()
            keep_kit(program, kit)
            if is_known:
                keep_sources(program, seen)
            else:
                # So the next ./noc looks whether the right kit is there again.
                (OUT / f"{program}.sources").unlink(missing_ok=True)
        finally:
            shutil.rmtree(TEXTS, ignore_errors=True)


@contextmanager
def told() -> Iterator[None]:
    """In this, a build that fails or is stopped ends with a sentence and status 1."""
    for number in (signal.SIGTERM, signal.SIGHUP, signal.SIGQUIT):
        # As an interrupt; but nohup has a closed terminal ignored.
        if signal.getsignal(number) != signal.SIG_IGN:
            signal.signal(number, signal.default_int_handler)
    try:
        yield
    except Failed as why:
        sys.exit(f"noc: {why}")
    except OSError as why:
        sys.exit(f"noc: the program could not be built: {why}")
    except KeyboardInterrupt:
        sys.exit("noc: stopped; the next ./noc goes on from here")


if __name__ == "__main__":
    if len(sys.argv) != 2 or sys.argv[1] not in PROGRAMS:
        sys.exit(__doc__)
    with told():
        build(sys.argv[1], Beside())
