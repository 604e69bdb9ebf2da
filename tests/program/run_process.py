#!/usr/bin/env python3
"""Looks how a program ends on files, devices, words and memory that are not as they should be.

    run_process.py PROGRAM

Each call's status, standard output and standard error are given by the rules of docs/FORMATS.md, and never by what
PROGRAM said, but that runs by several workers are held against the run by one. The texts cut after each byte are held
against a reader of the formats in cut_texts.py. Each call that fails is shown, and the last line is 'N passed, M
failed'. The exit status is 0 where all passed, else 1.
"""
import array
import fcntl
import os
import re
import resource
import shutil
import signal
import socket
import subprocess
import sys
import tempfile
import termios
import time
import tomllib
from collections.abc import Sequence
from itertools import product
from math import prod
from pathlib import Path
from typing import Any

from cut_texts import cut_texts
from fault_lines import HEADERS, status_of
from refused_growth import refused_growths
from worked_inputs import worked_inputs
from worked_routes import worked_routes
from worked_texts import worked_texts

LIMIT = 67_108_864
NOBODY, ALONE = 65534, 65533
PIPE_SIZE = 4096
SECONDS = 600
# The status of a call that is ended for that.
NO_END = 1000
# A call that ended.
Ran = subprocess.CompletedProcess[bytes]
CASES = Path(__file__).resolve().parents[1] / "cases"
AMPLE = 1000
# The seconds of processor that a drain may take whose network is stuck.
SOON = 5
TABLE_HEADER, TRAFFIC_HEADER, REPORT_HEADER = (HEADERS[kind].encode() for kind in ("table", "traffic", "latency"))
EMPTY_CHANNELS = b"port,vc,verdict,packet,out\n+0,0,Empty,-,-\nlocal,0,Empty,-,-\n"
# Two routers with the routes of a table file, ranks that rise, and one packet, which is out after five cycles.
CONFIG = b'kind = "mesh"\nradix = [2]\nchannels = 1\nbuffer = 2\nclasses = 1\nrule = "table"\ncycles = 8\n'
PLAIN = CONFIG.replace(b"table", b"dor")
TABLE = TABLE_HEADER + b"0,0,local,0,1,+0,0\n0,1,-0,0,1,local,0\n0,1,local,0,0,-0,0\n0,0,+0,0,0,local,0\n"
RANKS = b"router,port,vc,rank\n0,+0,0,1\n1,-0,0,1\n"
TRAFFIC = TRAFFIC_HEADER + b"0,1,0,1,0\n"
REPORT = REPORT_HEADER + b"0,0,1,0,1,0,5,5\n"
FILES = {"config": CONFIG, "traffic": TRAFFIC, "table": TABLE, "ranks": RANKS}
# The stall report of two packets to the end of a line of three routers, after twenty cycles.
STALLS = b"""router,port,vc,empty,routed,granted,moved,no_flit,no_idle_channel,lost_channel,no_credit,\
lost_input,lost_switch
0,+0,0,20,0,0,0,0,0,0,0,0,0
0,local,0,17,1,1,1,0,0,0,0,0,0
1,+0,0,20,0,0,0,0,0,0,0,0,0
1,-0,0,15,1,1,1,0,2,0,0,0,0
1,local,0,17,1,1,1,0,0,0,0,0,0
2,-0,0,14,2,2,2,0,0,0,0,0,0
2,local,0,20,0,0,0,0,0,0,0,0,0
"""
# The trace of the one flit from node 0 to node 1.
TRACE = b"""cycle,router,port,vc,verdict,packet,out,permitted
0,0,local,0,Routed,0,-,-
1,0,local,0,Granted,0,+0.0,+0.0
2,0,local,0,Moved,0,+0.0,-
3,1,-0,0,Routed,0,-,-
4,1,-0,0,Granted,0,local.0,local.0
5,1,-0,0,Moved,0,local.0,-
"""
# Each command with the files that it takes, in the order in which their faults are looked for, and its answer.
OF_COMMANDS = {
    "run": ("run config traffic --table table --ranks ranks", "config table ranks traffic", REPORT),
    "explain": ("explain config traffic --cycle 7 --router 0 --table table", "config table traffic", EMPTY_CHANNELS),
    "trace": ("trace config traffic --table table", "config table traffic", TRACE),
    "check": ("check config --ranks ranks --table table", "config table ranks", b"accepted\n"),
    "ranks": ("ranks config --table table", "config table", b"fault rank 1 NoGenerated\n"),
}
COMMANDS = {name: (words.split(), files.split(), answer) for name, (words, files, answer) in OF_COMMANDS.items()}
# Words in one text stand apart by spaces.
NO_WORDS_OF_NOC: list[list[str | bytes]] = [[*text.split()] for text in (
    "walk", "run", "run plain", "run plain traffic ranks", "run plain traffic --cycle 1", "run plain traffic --workers",
    *(f"run plain traffic --workers {number}" for number in ("0", "17", "-1", "two", "1 --workers 1")),
    "run plain traffic --report all", "run plain traffic --report", "run plain traffic --table",
    "run plain traffic --ranks", "run plain traffic --wrong", "run -plain traffic", "explain plain traffic",
    "explain plain traffic --cycle 1", "explain plain traffic --router 1",
    *(f"explain plain traffic --router 0 --cycle {word}" for word in (str(1 << 64), "1.0", "1 --ranks ranks")),
    "trace plain", "trace plain traffic --ranks ranks", "trace plain traffic --from 1.0", "trace plain traffic --to",
    "trace plain traffic --router -1", "trace plain traffic --packet 18446744073709551616",
    "trace plain traffic --verdict Stalled", "trace plain traffic --verdict Moved,", "trace plain traffic --changes 1",
    "trace plain traffic --changes=1", "check plain", "check --ranks ranks", "check plain traffic --ranks ranks",
    "ranks", "ranks plain traffic", "ranks plain --ranks ranks", "--workers 1", "--help", "help", "run --help", "plain",
)]
NO_WORDS_OF_NOC += [
    ["run", "plain", "traffic", "--workers", ""], [""], ["run", b"\xff", "traffic"], [b"\xff"],
    ["explain", "plain", "traffic", "--cycle", " 1", "--router", "0"],
]


class Calls:
    """Calls of a program in a folder of files, and how many ended as they should."""

    def __init__(self, program: Path, folder: Path) -> None:
        self.program, self.folder = folder / "noc_avx2", folder
        shutil.copy(program, self.program)
        for path in (folder, self.program):
            path.chmod(0o755)
        self.put(plain=PLAIN, **FILES)
        self.passed = self.failed = 0

    def put(self, **texts: bytes) -> None:
        """Writes files."""
        for name, text in texts.items():
            (self.folder / name).write_bytes(text)

    def run(self, words: Sequence[str | bytes], given: bytes = b"", **how: Any) -> Ran:
        """Calls the program; `how` says what its streams are, and what is done before it starts."""
        how = {"stdout": subprocess.PIPE, "stderr": subprocess.PIPE, "timeout": SECONDS} | how
        if "stdin" not in how:
            how["input"] = given
        try:
            return subprocess.run([self.program, *words], cwd=self.folder, **how)
        except subprocess.TimeoutExpired:
            return subprocess.CompletedProcess(words, NO_END, b"", b"")

    def count(self, name: str, is_right: bool, ran: Ran) -> None:
        """Counts a call, and shows it where it did not end as it should."""
        self.passed += is_right
        self.failed += not is_right
        if not is_right:
            print(f"{name}: status {ran.returncode}, {(ran.stdout or b'')[:200]!r}, {(ran.stderr or b'')[:200]!r}")

    def answers(self, name: str, words: Sequence[str | bytes], answer: bytes, status: int = 0, **how: Any) -> None:
        """The answer is a report, or a fault line, with which the page's status comes."""
        ran = self.run(words, **how)
        is_fault = answer.startswith(b"fault ")
        wanted = (status_of(answer), b"", answer) if is_fault else (status, answer, b"")
        self.count(f"{name} {words}", (ran.returncode, ran.stdout or b"", ran.stderr or b"") == wanted, ran)


def as_user(number: int) -> None:
    """Where the tests run as root, which may read all, the call is another user's."""
    if os.geteuid() == 0:
        os.setgroups([])
        os.setgid(number)
        os.setuid(number)


def no_thread_more() -> None:
    """The call is of a user who may have one process, and so no thread more; where the tests run as root, of another
    user, who has none."""
    as_user(ALONE)
    resource.setrlimit(resource.RLIMIT_NPROC, (1, 1))


def inputs_that_cannot_be_read(calls: Calls) -> None:
    """A missing file, a folder and a file without the right to read, for each input of each command."""
    calls.put(locked=b"")
    (calls.folder / "locked").chmod(0)
    for name, (words, kinds, answer) in COMMANDS.items():
        calls.answers(f"{name} on whole files", words, answer)
        for kind in kinds:
            fault = f"fault {kind} 1 ReadFailed\n".encode()
            for other in ("missing", ".", "", "plain/file"):
                calls.answers(f"{name} on no {kind}", [other if word == kind else word for word in words], fault)
            locked = ["locked" if word == kind else word for word in words]
            calls.answers(f"{name} on a locked {kind}", locked, fault, preexec_fn=lambda: as_user(NOBODY))
    closed = b"fault joined 1 ReadFailed\n"
    calls.answers("standard input closed", [], closed, preexec_fn=lambda: os.close(0))
    folder = os.open(calls.folder, os.O_RDONLY)
    calls.answers("standard input is a folder", [], closed, stdin=folder)
    os.close(folder)
    with open("/dev/null", "wb") as written:
        calls.answers("standard input is for writing", [], closed, stdin=written)


def inputs_at_the_limit(calls: Calls) -> None:
    """A text with as many bytes as are allowed is read, and with one more it is not."""
    for name, kinds in (("run", ["config", "table", "ranks", "traffic"]), ("check", ["config", "table", "ranks"])):
        for kind in kinds:
            calls.put(long=b"")
            os.truncate(calls.folder / "long", LIMIT + 1)
            words = ["long" if word == kind else word for word in COMMANDS[name][0]]
            calls.answers(f"{name} on a long {kind}", words, f"fault {kind} 2 TooLong\n".encode())
    with open(calls.folder / "long", "rb") as long:
        calls.answers("a long joined text", [], b"fault joined 2 TooLong\n", stdin=long)
    calls.put(long=TRAFFIC + b"\n" * (LIMIT - len(TRAFFIC)))
    calls.answers("traffic at the limit", ["run", "plain", "long"], REPORT)
    with open(calls.folder / "long", "ab") as long:
        long.write(b"\n")
    calls.answers("traffic beyond the limit", ["run", "plain", "long"], b"fault traffic 2 TooLong\n")
    (calls.folder / "long").unlink()


def names(calls: Calls) -> None:
    """Names with spaces, line ends and dashes; `-` is a name like another."""
    given = {"two words": PLAIN, "-c": PLAIN, "-t": TRAFFIC, "--ranks": RANKS, "-": PLAIN, "a\nb": TRAFFIC,
             "ä": PLAIN, "=": RANKS}
    calls.put(**given)
    for words in (["two words", "traffic"], ["--", "-c", "-t"], ["./-c", "./-t"], ["-", "traffic"], ["--", "-", "-t"],
                  ["ä", "a\nb"], ["plain", "traffic", "--ranks", "./--ranks"], ["--ranks=./--ranks", "--", "-c", "-t"],
                  ["--ranks", "=", "-", "a\nb"], ["--ranks==", "plain", "traffic"]):
        calls.answers("a name", ["run", *words], REPORT)
    calls.answers("a name of standard input", ["run", "/dev/stdin", "traffic"], REPORT, given=PLAIN)
    calls.answers("a name of 5000 letters", ["run", "a" * 5000, "traffic"], b"fault config 1 ReadFailed\n")


def wrong_words(calls: Calls) -> None:
    """Words that make no sense, or ask for help: a text on standard error, whatever the files hold. It calls the
    program noc, which is the name of the launcher, and never by the name of its file."""
    for words in NO_WORDS_OF_NOC:
        ran = calls.run(words)
        is_text = not ran.stdout and ran.stderr.endswith(b"\n") and b"noc_avx2" not in ran.stderr
        calls.count(f"wrong words {words}", ran.returncode == 2 and is_text, ran)
    for text in ("run --help", "run plain", "explain --help", "trace plain", "check --help", "ranks"):
        ran = calls.run(text.split())
        calls.count(f"usage of {text}", f"\nUsage: noc {text.split()[0]} ".encode() in ran.stderr, ran)


def outputs_that_fail(calls: Calls) -> None:
    """Standard output closed, a full device, and a pipe that nobody reads: no byte of a report is taken."""
    nothing = b"fault write 1 WriteFailed written 0\n"
    stuck = PLAIN.replace(b"mesh", b"torus").replace(b"[2]", b"[4]")
    calls.put(stuck=stuck, ring=TRAFFIC_HEADER + b"0,2,0,64,0\n1,3,0,64,0\n2,0,0,64,0\n3,1,0,64,0\n",
              far=stuck.replace(b" 8", b" 60"))
    wanted: list[tuple[list[str], bytes]] = []
    wanted += [(words, answer if answer.startswith(b"fault") else nothing) for words, _, answer in COMMANDS.values()]
    wanted += [([], nothing), (["--version"], nothing), (["ranks", "plain"], nothing)]
    wanted += [(["run", "far", "ring"], nothing), (["run", "missing", "traffic"], b"fault config 1 ReadFailed\n")]
    for words, fault in wanted:
        given = PLAIN + b"---\n" + TRAFFIC
        calls.answers("output closed", words, fault, given=given, preexec_fn=lambda: os.close(1))
        with open("/dev/full", "wb") as full:
            calls.answers("a full device", words, fault, given=given, stdout=full)
        for_reading, for_writing = os.pipe()
        os.close(for_reading)
        calls.answers("a pipe without a reader", words, fault, given=given, stdout=for_writing)
        os.close(for_writing)
    ran = calls.run(["run", "far", "ring", "--report", "summary"])
    calls.count("the ring is stuck", ran.returncode == 5 and b"delivered 0\n" in ran.stdout and not ran.stderr, ran)
    for given_words, status in (("run missing traffic", 3), ("ranks far", 4), ("walk", 2)):
        ran = calls.run(given_words.split(), preexec_fn=lambda: os.close(2))
        calls.count(f"errors closed {given_words}", (ran.returncode, ran.stdout, ran.stderr) == (status, b"", b""), ran)


def late_packets(count: int) -> tuple[bytes, bytes]:
    """Packets that are due after the run of one cycle, and its report."""
    rows = [b"%d,%d,0,%d,9" % (number % 2, 1 - number % 2, 1 + number % 64) for number in range(count)]
    report = b"".join(b"%d,%s,-,-\n" % numbered for numbered in enumerate(rows))
    return TRAFFIC_HEADER + b"\n".join(rows) + b"\n", REPORT_HEADER + report


def trace_cycle_by_cycle(calls: Calls) -> None:
    """What a trace tells of a cycle goes out before the next cycle: a socket keeps apart what was written apart."""
    ours, theirs = socket.socketpair(socket.AF_UNIX, socket.SOCK_SEQPACKET)
    ran = subprocess.Popen([calls.program, "trace", "plain", "traffic"], cwd=calls.folder, stdout=theirs.fileno(),
                           stderr=subprocess.PIPE)
    theirs.close()
    pieces = []
    while piece := ours.recv(1 << 16):
        pieces.append(piece)
    error = ran.communicate(timeout=SECONDS)[1]
    told = [[line.split(b",")[0] for line in piece.splitlines() if not line.startswith(b"cycle")] for piece in pieces]
    cycles = [int(it[0]) for it in told if it]
    is_apart = all(len(set(it)) < 2 for it in told) and len(cycles) > 2 and cycles == sorted(set(cycles))
    ended = subprocess.CompletedProcess(ran.args, ran.returncode, b"".join(pieces), error)
    calls.count("a trace goes out cycle by cycle", is_apart and (ran.returncode, error) == (0, b""), ended)


def pipe_that_closes_early(calls: Calls) -> None:
    """The reader takes one byte of a full pipe and goes: the report's first bytes are out, as many as the pipe
    holds."""
    traffic, report = late_packets(1000)
    calls.put(late=traffic, short=PLAIN.replace(b" 8", b" 1"))
    calls.answers("late packets", ["run", "short", "late"], report)
    for_reading, for_writing = os.pipe()
    size = fcntl.fcntl(for_writing, fcntl.F_SETPIPE_SZ, PIPE_SIZE)
    ran = subprocess.Popen([calls.program, "run", "short", "late"], cwd=calls.folder, stdout=for_writing,
                           stderr=subprocess.PIPE)
    os.close(for_writing)
    held, until = array.array("i", [0]), time.monotonic() + SECONDS
    while held[0] < size and ran.poll() is None and time.monotonic() < until:
        time.sleep(0.001)
        fcntl.ioctl(for_reading, termios.FIONREAD, held)
    taken = os.read(for_reading, 1) if held[0] else b""
    os.close(for_reading)
    error = ran.communicate(timeout=SECONDS)[1]
    ended = subprocess.CompletedProcess(ran.args, ran.returncode, taken, error)
    wanted = f"fault write 1 WriteFailed written {size}\n".encode()
    calls.count("a pipe that closes early", (ran.returncode, taken, error) == (7, report[:1], wanted), ended)


def reports_cut_off(calls: Calls) -> None:
    """A file that takes so many bytes and no more: they are the report's first, and the fault counts them."""
    calls.put(three=PLAIN.replace(b"[2]", b"[3]").replace(b" 8", b" 20"),
              both=TRAFFIC_HEADER + b"0,2,0,1,0\n1,2,0,1,0\n")
    for words, report in ((["run", "three", "both", "--report", "stalls"], STALLS), COMMANDS["trace"][::2]):
        calls.answers("the whole report", words, report)
        for size in range(len(report)):
            with open(calls.folder / "taken", "w+b") as taken:
                # Python leaves the signal of a file that is too long ignored, and so does the call
                ran = calls.run(words, stdout=taken, restore_signals=False,
                                preexec_fn=lambda: resource.setrlimit(resource.RLIMIT_FSIZE, (size, size)))
                taken.seek(0)
                ended = (ran.returncode, taken.read(), ran.stderr)
            wanted = (7, report[:size], f"fault write 1 WriteFailed written {size}\n".encode())
            calls.count(f"a report cut off after {size} bytes", ended == wanted, ran)


def fault_lines_in_one_write(calls: Calls) -> None:
    """A fault's line goes out in one write, which a socket keeps apart from the next one; and where it can't, the
    status is the same."""
    for words, status, line in ((["run", "missing", "traffic"], 3, b"fault config 1 ReadFailed\n"),
                                (["ranks", "far"], 4, b"fault rank 1 NoGenerated\n")):
        for_reading, for_writing = socket.socketpair(socket.AF_UNIX, socket.SOCK_SEQPACKET)
        ran = calls.run(words, stderr=for_writing.fileno())
        for_writing.close()
        writes = list(iter(lambda: for_reading.recv(PIPE_SIZE), b""))
        for_reading.close()
        calls.count(f"writes of a fault {words} {writes}",
                    (ran.returncode, ran.stdout, writes) == (status, b"", [line]), ran)
        with open("/dev/full", "wb") as full:
            ran = calls.run(words, stderr=full)
        calls.count(f"errors to a full device {words}", (ran.returncode, ran.stdout) == (status, b""), ran)


def order_of_faults(calls: Calls) -> None:
    """Where several files are bad at once, the first in the page's order is told."""
    calls.put(bad=b"\xff", selfish=TRAFFIC_HEADER + b"1,1,0,1,0\n", wide=CONFIG.replace(b"[2]", b"[17]"),
              odd=CONFIG.replace(b"classes = 1", b"classes = 2"))
    for words, kinds, _ in COMMANDS.values():
        for number, kind in enumerate(kinds):
            missing = ["missing" if word in kinds[number:] else word for word in words]
            calls.answers("all missing from here on", missing, f"fault {kind} 1 ReadFailed\n".encode())
    files = ["--table", "missing", "--ranks", "missing"]
    calls.answers("the key before the table", ["run", "bad", "missing", *files], b"fault config 4 BadToml\n")
    calls.answers("the spare table before all", ["run", "plain", "missing", *files], b"fault option 5 SpareTable\n")
    calls.answers("the shape before the table", ["run", "wide", "missing", *files], b"fault shape 2 BadRadix\n")
    calls.answers("workers before the table", ["run", "config", "missing", *files, "--workers", "3"],
                  b"fault option 3 BadWorkers\n")
    calls.answers("the header before the relation", ["run", "odd", "missing", "--table", "ranks"],
                  b"fault table 9 BadHeader\n")
    calls.answers("the relation before the ranks", ["run", "odd", "missing", "--table", "table", "--ranks", "missing"],
                  b"fault relation 1 WrongShape\n")
    calls.answers("the ranks before the traffic", ["run", "plain", "bad", "--ranks", "traffic"],
                  b"fault ranks 9 BadHeader\n")
    calls.answers("the traffic's packets last", ["run", "plain", "selfish", "--ranks", "ranks"],
                  b"fault network 1 SelfPacket row 0\n")
    joined = {b"": b"joined 13 NoSplit", b"\xff": b"joined 13 NoSplit", b"\xff\n---\n\xff": b"config 4 BadToml",
              CONFIG + b"---\n\xff": b"option 4 NoTable", PLAIN + b"---\n\xff": b"traffic 9 BadHeader"}
    for text, fault in joined.items():
        calls.answers(f"joined {text[-9:]!r}", [], b"fault " + fault + b"\n", given=text)


def bytes_that_are_no_text(calls: Calls) -> None:
    """A byte that is no UTF-8 is no TOML, no header, no number and no port."""
    for at, fault in ((0, "config 4 BadToml"), (CONFIG.index(b"mesh"), "config 4 BadToml"),
                      (len(CONFIG), "config 4 BadToml")):
        calls.put(other=CONFIG[:at] + b"\xff" + CONFIG[at + 1:])
        calls.answers("a byte of the configuration", ["ranks", "other", "--table", "table"],
                      f"fault {fault}\n".encode())
    calls.put(other=PLAIN + b"# \xc3\x28\n")
    calls.answers("a byte of a comment", ["ranks", "other"], b"fault config 4 BadToml\n")
    places = {"table": [(0, "9 BadHeader"), (3, "11 BadNumber row 2 column 3"), (2, "12 BadPort row 2 column 2")],
              "ranks": [(0, "9 BadHeader"), (3, "11 BadNumber row 1 column 3"), (1, "12 BadPort row 1 column 1")],
              "traffic": [(0, "9 BadHeader"), (4, "11 BadNumber row 0 column 4")]}
    for kind, changes in places.items():
        for column, fault in changes:
            lines = FILES[kind].split(b"\n")
            row = int(fault.split()[3]) + 1 if "row" in fault else 0
            fields = lines[row].split(b",")
            fields[column] = b"\xff" + fields[column][1:]
            lines[row] = b",".join(fields)
            calls.put(other=b"\n".join(lines))
            words = ["other" if word == kind else word for word in COMMANDS["run"][0]]
            calls.answers(f"a byte of {kind}", words, f"fault {kind} {fault}\n".encode())


def rising_ranks(side: int) -> bytes:
    """Ranks of a square mesh by dimension order: along the first dimension, then along the second."""
    lines = ["router,port,vc,rank"]
    for router in range(side * side):
        for dimension, place in enumerate((router % side, router // side)):
            base = side * dimension
            lines += [f"{router},+{dimension},0,{base + place + 1}"] if place < side - 1 else []
            lines += [f"{router},-{dimension},0,{base + side - place}"] if place else []
    return "\n".join(lines).encode() + b"\n"


def bounded_memory(calls: Calls) -> None:
    """Under each bound on its memory the program answers, or says that memory or a thread was refused.

    Below 4 MB the loader itself may not find the room for the C library or for what a thread has of it, and says so
    before the program begins. Below 16 MB (FORMATS.md, "Limits in one place") the system may not find it for the stack,
    of which the program needs more than the bound leaves, and ends the program by a signal before it writes.
    """
    traffic, report = late_packets(20000)
    square = PLAIN.replace(b"[2]", b"[8, 8]")
    # Eight channels on each link, so each router has forty.
    many = PLAIN.replace(b"[2]", b"[2, 2]").replace(b"channels = 1", b"channels = 8")
    calls.put(late=traffic, short=PLAIN.replace(b" 8", b" 1"), square=square, rising=rising_ranks(8), many=many)
    wanted: list[tuple[list[str], bytes]] = [
        ([], REPORT), (COMMANDS["run"][0], REPORT), (["run", "short", "late"], report),
        (["run", "plain", "traffic", "--workers", "2"], REPORT),
        (["run", "many", "traffic", "--workers", "2"], REPORT),
        (["check", "square", "--ranks", "rising"], b"accepted\n"),
    ]
    for megabytes in (3, 3.1, 3.3, 3.6, 4, 5, 6, 8, 11, 16, 24, 40, 100, AMPLE):
        bound = (int(megabytes * 2**20), int(megabytes * 2**20))
        for words, answer in wanted:
            ran = calls.run(words, given=PLAIN + b"---\n" + TRAFFIC,
                            preexec_fn=lambda: resource.setrlimit(resource.RLIMIT_AS, bound))
            is_refused = (ran.returncode, ran.stdout) == (6, b"") and status_of(ran.stderr) == 6 and megabytes < AMPLE
            is_answer = (ran.returncode, ran.stdout, ran.stderr) == (0, answer, b"")
            is_said = any(it in ran.stderr for it in (b"while loading shared libraries", b"cannot allocate TLS data"))
            is_loader = (ran.returncode, ran.stdout) == (127, b"") and is_said and megabytes < 4
            is_stack = (ran.returncode, ran.stdout, ran.stderr) == (-signal.SIGSEGV, b"", b"") and megabytes < 16
            calls.count(f"{megabytes} MB {words}", is_refused or is_answer or is_loader or is_stack, ran)


def threads_refused(calls: Calls) -> None:
    """Where no thread may start, a run that wants one says so and writes nothing. All others are as ever: those by one
    worker, and those of networks of one block of routers, of which 64 are the most."""
    calls.put(many=PLAIN.replace(b"[2]", b"[2, 2]").replace(b"channels = 1", b"channels = 8"))
    for more in ((), ("--workers", "2"), ("--workers", "4")):
        calls.answers("no thread", ["run", "many", "traffic", *more], REPORT, preexec_fn=no_thread_more)
    calls.answers("no thread", ["run", "plain", "traffic"], REPORT, preexec_fn=no_thread_more)
    for side, workers in ((8, "4"), (9, "1")):
        calls.put(**busy_texts(side, 5000))
        alone = calls.run(["run", "whole", "busy"])
        calls.answers(f"no thread is wanted, {side} by {side}", ["run", "whole", "busy", "--workers", workers],
                      alone.stdout, preexec_fn=no_thread_more)
    for name, workers, drain in product(("whole", "started"), ("2", "3"), ((), ("--drain",))):
        if name == "whole" or drain:
            calls.answers("no thread", ["run", name, "busy", "--workers", workers, *drain], b"fault run 2 NoWorker\n",
                          preexec_fn=no_thread_more)


def busy_texts(side: int, cycles: int) -> dict[str, bytes]:
    """A mesh of so many by so many routers that all have something to send for so many cycles; `whole` runs for them,
    and `started` for one, so that a drain has all others."""
    nodes, most = side * side, min(20000, side * side * cycles // 64)
    packets = [b"%d,%d,0,64,%d" % (number % nodes, (number + 1 + number % (nodes - 1)) % nodes, number * cycles // most)
               for number in range(most)]
    mesh = f'kind = "mesh"\nradix = [{side}, {side}]\nchannels = 2\nbuffer = 4\nclasses = 1\nrule = "dor"\n'
    return {"whole": f"{mesh}cycles = {cycles}\n".encode(), "started": f"{mesh}cycles = 1\n".encode(),
            "busy": TRAFFIC_HEADER + b"\n".join(packets) + b"\n"}


def threads_of(calls: Calls, words: Sequence[str]) -> tuple[int, int, Ran]:
    """The most threads at a time that the system was seen to list of a call until it ended, how many it listed in all,
    and the call."""
    with tempfile.TemporaryFile() as out, tempfile.TemporaryFile() as errors:
        process = subprocess.Popen([calls.program, *words], cwd=calls.folder, stdout=out, stderr=errors)
        most, all_of_them = 0, set[str]()
        while process.poll() is None:
            try:
                now = os.listdir(f"/proc/{process.pid}/task")
            except FileNotFoundError:
                now = []
            most = max(most, len(now))
            all_of_them.update(now)
            time.sleep(0.0005)
        texts = []
        for text in (out, errors):
            text.seek(0)
            texts.append(text.read())
    return most, len(all_of_them), subprocess.CompletedProcess(words, process.returncode, *texts)


def threads_that_run(calls: Calls) -> None:
    """A run by workers has as many threads at a time as workers, the first one of the process among them, or as many
    as there are blocks of 64 routers. So it has where a drain runs up to the last due time. And they run free: they end
    after a millisecond at first and then after ever longer, so that each 20,000 cycles start no more than twelve times
    as many. Where one thread is faster, the others run so briefly that a look may miss them, and then it is looked
    again. How many cycles a drain has run is what its report says."""
    if not os.path.isdir("/proc/self/task"):
        print("threads are not looked for: there is no list of them (/proc/self/task)")
        return
    for side, blocks in ((8, 1), (9, 2), (16, 4)):
        calls.put(**busy_texts(side, 20000))
        for workers, words in product((1, 2, 4), (["whole"], ["started", "--drain"])):
            call = ["run", words[0], "busy", "--report", "summary", "--workers", str(workers), *words[1:]]
            tiles = min(workers, blocks)
            for _ in range(8):
                most, in_all, ran = threads_of(calls, call)
                if most == tiles:
                    break
            ran_for = re.match(rb"cycles (\d+)\n", ran.stdout)
            starts = 12 * -(-int(ran_for[1]) // 20000) if ran_for else 0
            right = most == tiles and in_all <= 1 + starts * (tiles - 1) and not ran.stderr
            calls.count(f"{most} threads, {in_all} in all {call}, {side} by {side}", right, ran)


def workers_of(words: Sequence[str]) -> int:
    """How many workers the words of a case ask for."""
    found = re.search(r"--workers[= ](\d+)", " ".join(words))
    return int(found[1]) if found else 1


def cases_by_workers(calls: Calls) -> None:
    """Each case by several workers starts a thread, where its network has more than one block of 64 routers. One thread
    runs the first 1,024 cycles, so a case that is shorter would pass without. `strace` counts the threads."""
    if shutil.which("strace") is None:
        print("threads of the cases are not counted: there is no strace")
        return
    for case in sorted(path.parent for path in CASES.glob("run-*/args")):
        words = (case / "args").read_text().split()
        network = tomllib.loads((case / "config.toml").read_text()) if workers_of(words) > 1 else {}
        if prod(network.get("radix", [1])) > 64:
            trace = ["strace", "-f", "-qq", "-e", "trace=clone,clone3", str(calls.program), *words]
            ran = subprocess.run(trace, cwd=case, capture_output=True, timeout=SECONDS)
            calls.count(f"{case.name} starts a thread", b"clone" in ran.stderr, ran)


def same_by_workers(calls: Calls, words: Sequence[str], what: str) -> None:
    """Whether a run by two and by three workers is reported as by one, in each report."""
    for report in ("latency", "stalls", "summary"):
        alone = calls.run([*words, "--report", report])
        for workers in ("2", "3"):
            ran = calls.run([*words, "--report", report, "--workers", workers])
            is_same = (ran.returncode, ran.stdout, ran.stderr) == (alone.returncode, alone.stdout, b"")
            calls.count(f"{report} by {workers} workers, {what}",
                        is_same and alone.returncode in (0, 5) and alone.stdout != b"", ran)


def reports_by_workers(calls: Calls) -> None:
    """Runs by several workers are reported as by one: on tori and in three dimensions, with ranks and without. Packets
    become due up to the last cycles. The last network is busy for more cycles than tiles run before they are joined."""
    networks = (("torus", "4, 4", 8, "dateline"), ("mesh", "3, 3, 2", 5, "dor"), ("torus", "8, 8", 7, "dor"),
                ("torus", "16, 8", 8, "dateline"), ("mesh", "5, 5, 4", 2, "dor"), ("torus", "9, 8", 2, "dor"))
    for (kind, radix, channels, rule), drain in product(networks, ((), ("--drain",))):
        nodes = prod(int(size) for size in radix.split(","))
        packets = [b"%d,%d,0,%d,%d\n" % (number % nodes, (number + 1 + number % (nodes - 1)) % nodes, number % 5 + 1,
                                         number * 5) for number in range(2000)]
        config = f'kind = "{kind}"\nradix = [{radix}]\nchannels = {channels}\nbuffer = 1\nclasses = 1\n'
        calls.put(many=f'{config}rule = "{rule}"\ncycles = 10000\n'.encode(), crowd=TRAFFIC_HEADER + b"".join(packets))
        ranks = calls.run(["ranks", "many"])
        calls.put(made=ranks.stdout)
        ranked = ["--ranks", "made"] if ranks.returncode == 0 else []
        same_by_workers(calls, ["run", "many", "crowd", *ranked, *drain], f"{kind} {radix} {rule} {drain}")
    calls.put(**busy_texts(16, 70000))
    same_by_workers(calls, ["run", "whole", "busy"], "70,000 cycles")


def crowd(is_far: bool, due: int) -> bytes:
    """20,000 packets of 64 flits in a network of 256 routers, of which the second half is due then: half way round the
    first of two dimensions, or round each of three."""
    lines = []
    for number in range(20000):
        x, y = number % 16, number // 16 % 16
        rest = (y % 4 + 2) % 4 + 4 * ((y // 4 + 2) % 4) if is_far else y
        lines.append(b"%d,%d,0,64,%d" % (number % 256, (x + 8) % 16 + 16 * rest, due if number >= 10000 else 0))
    return TRAFFIC_HEADER + b"\n".join(lines) + b"\n"


def drains_that_are_stuck(calls: Calls) -> None:
    """The drain of a jam comes to its limit, millions of cycles away, at once, in two dimensions and in three. So it
    does where packets become due in the jam."""
    for (radix, channels, hops), due in product((("16, 16", 1, 8), ("16, 4, 4", 6, 12)), (0, 1_000_000)):
        config = f'kind = "torus"\nradix = [{radix}]\nchannels = {channels}\nbuffer = 1\nclasses = 1\n'
        calls.put(jam=f'{config}rule = "dor"\ncycles = 300\n'.encode(), crowd=crowd(hops == 12, due))
        limit = due + 20000 * (64 * (3 * hops + 2) + 2 * (hops + 1))
        for workers in ("1", "3"):
            ran = calls.run(["run", "jam", "crowd", "--drain", "--report", "summary", "--workers", workers],
                            preexec_fn=lambda: resource.setrlimit(resource.RLIMIT_CPU, (SOON, SOON)))
            is_at_limit = ran.stdout.startswith(f"cycles {limit}\npackets 20000\n".encode())
            counts = sum(int(line.split()[1]) for line in ran.stdout.splitlines()[8:])
            is_whole = counts == limit * 256 * channels * (2 * radix.count(",") + 3)
            calls.count(f"a drain that is stuck, {radix}, due {due}, {workers} workers",
                        (ran.returncode, is_at_limit, is_whole, ran.stderr) == (5, True, True, b""), ran)


GROUPS = [inputs_that_cannot_be_read, inputs_at_the_limit, names, wrong_words, outputs_that_fail,
          pipe_that_closes_early, trace_cycle_by_cycle, reports_cut_off, fault_lines_in_one_write, order_of_faults,
          bytes_that_are_no_text, bounded_memory, threads_refused, threads_that_run, cases_by_workers,
          reports_by_workers, drains_that_are_stuck, refused_growths, cut_texts, worked_texts, worked_inputs,
          worked_routes]


def main() -> int:
    if len(sys.argv) != 2:
        print(__doc__)
        return 2
    os.umask(0o022)
    with tempfile.TemporaryDirectory() as name:
        calls = Calls(Path(sys.argv[1]).resolve(), Path(name))
        for group in GROUPS:
            group(calls)
    print(f"{calls.passed} passed, {calls.failed} failed")
    return 0 if calls.passed and not calls.failed else 1


if __name__ == "__main__":
    sys.exit(main())
