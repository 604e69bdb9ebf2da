#!/usr/bin/env python3
"""Gives cut, changed and mixed texts of all kinds to a program, and looks how each call ends.

    hostile.py PROGRAM [--count N] [--seed N] [--seconds N]

Each call has to end as docs/FORMATS.md says, and never by a signal: with a report alone (0, or 5 where the network is
stuck), with a text on standard error alone (2) exactly where a word is wrong, with one fault line of that page, its
status and nothing on standard output (3, 4), or with status 7 where standard output is a full device. The numbers of
a configuration are bounded, so that no run takes long. The inputs follow from the seed and their number alone; with
--seconds they go on for that long. Each call that fails is shown with its texts, and the last line is 'N passed, M
failed'. The exit status is 0 where all passed, else 1.
"""
import argparse
import re
import subprocess
import sys
import tempfile
import time
from collections.abc import Callable, Iterator, Sequence
from pathlib import Path
from random import Random

from fault_lines import HEADERS, TOP, status_of

LONGEST_RUN = 200
# How many inputs are tried where nothing is said.
COUNT = 2000
TABLE, TRAFFIC = HEADERS["table"].encode(), HEADERS["traffic"].encode()
TWO_RANKS = b"router,port,vc,rank\n0,+0,0,1\n1,-0,0,1\n"
TWO = b'kind = "mesh"\nradix = [2]\nchannels = 1\nbuffer = 2\nclasses = 1\nrule = "table"\ncycles = 8\n'
NUMBERS = [0, 1, 2, 3, 4, 5, 16, 17, 64, 65, 256, 1000, 1001, 2000, 4294967295, 4294967296, 2**63, 2**64, -1]
PIECES = [b"\n", b"\r\n", b"\r", b"---\n", b" ", b"\0", b"\xff", b"\xef\xbb\xbf", *(
    b", \" # = [ ] {a=1} ''' \\u00 +0 -0 +1 -2 local mesh torus dor dateline west-first adaptive table 1e9 0x10 "
    b"1979-05-27").split()]


def sets() -> Iterator[dict[str, bytes]]:
    """Files that go together: a configuration, its traffic, and a table and ranks where there are some."""
    example = {it.name: it.read_bytes() for it in (TOP / "examples").glob("*.*") if it.suffix in (".toml", ".csv")}
    for name in ("ring", "ring_dateline", "turns", "torus", "transpose", "blocked"):
        stem = name.split("_")[0]
        found = {"config": example[f"{name}.toml"], "traffic": example[f"{stem}.csv"]}
        extra = {"table": example.get(f"{stem}_table.csv"), "ranks": example.get(f"{stem}_ranks.csv", TWO_RANKS)}
        yield found | {kind: text for kind, text in extra.items() if text}
    table = TABLE + b"0,0,local,0,1,+0,0\n0,1,-0,0,1,local,0\n0,1,local,0,0,-0,0\n0,0,+0,0,0,local,0\n"
    traffic = TRAFFIC + b"0,1,0,1,0\n1,0,0,64,3\n"
    # Rows of words of 64 bits.
    wide = TWO.replace(b"table", b"dor").replace(b"[2]", b"[2, 2]").replace(b"channels = 1", b"channels = 8")
    yield {"config": wide, "traffic": traffic, "ranks": TWO_RANKS}
    yield {"config": TWO, "traffic": traffic, "table": table, "ranks": TWO_RANKS}
    yield {"config": TWO.replace(b"table", b"dor"), "traffic": traffic, "ranks": TWO_RANKS}
    adaptive = TWO.replace(b"table", b"adaptive").replace(b"channels = 1", b"channels = 2")
    yield {"config": adaptive, "traffic": traffic, "ranks": TWO_RANKS + b"0,+0,1,adaptive\n1,-0,1,adaptive\n"}


VERDICTS = ["Routed", "Moved,NoCredit", "Empty"]
SETS = list(sets())
TEXTS = [text for files in SETS for text in files.values()]


def changed(random: Random, text: bytes) -> bytes:
    """A text with one change."""
    at, end = sorted(random.randrange(len(text) + 1) for _ in range(2))
    lines = text.splitlines(keepends=True) or [b""]
    line = random.randrange(len(lines))
    numbers = list(re.finditer(rb"\d+", text))
    match random.randrange(10):
        case 0:
            return text[:at]
        case 1:
            return text[:at] + text[min(end, at + random.randrange(1, 20)):]
        case 2:
            return text[:at] + random.randbytes(1) + text[at + 1:]
        case 3 | 4:
            return text[:at] + random.choice(PIECES) + text[at + random.randrange(2):]
        case 5:
            return b"".join(lines[:line] + lines[line + 1:])
        case 6:
            return b"".join(lines[:line] + [random.choice(lines)] + lines[line:])
        case 7:
            return text[:at] + random.choice(TEXTS)[random.randrange(60):]
        case _ if numbers:
            number = random.choice(numbers)
            return text[:number.start()] + str(random.choice(NUMBERS)).encode() + text[number.end():]
    return b""


def bounded(config: bytes) -> bytes:
    """The configuration with no number of five to seven digits, so that no run takes long."""
    return re.sub(rb"(?<!\d)\d{5,7}(?!\d)", lambda number: number[0][:4], config)


def made_files(random: Random) -> dict[str, bytes]:
    """A set of files, one or two of them changed up to three times, and now and then one of another set."""
    files = dict(random.choice(SETS * 2 + SETS[-2:]))
    for kind in random.sample(sorted(files), min(len(files), random.choice([1, 1, 1, 2]))):
        if random.randrange(10) == 0:
            files[kind] = random.choice(SETS).get(kind, files[kind])
        for _ in range(random.choice([0, 1, 1, 1, 2, 3])):
            files[kind] = changed(random, files[kind])
    files["config"] = bounded(files["config"])
    return files


def made_words(random: Random, files: dict[str, bytes]) -> list[str]:
    """Words of a command on these files; none for a joined text."""
    command = random.choice(["", "run", "run", "explain", "trace", "check", "ranks"])
    words = [command, "config"] if command else []
    if command in ("run", "explain", "trace"):
        words.append("traffic")
    if command and "table" in files:
        words += ["--table", "table"]
    if command == "check" or command == "run" and random.randrange(3) == 0:
        words += ["--ranks", "ranks"]
    if command == "run":
        words += ["--workers", str(random.randrange(1, 4)), "--report", random.choice(["summary", "latency", "stalls"])]
        words += ["--drain"] if random.randrange(3) == 0 else []
    if command == "explain":
        words += ["--cycle", str(random.randrange(70)), "--router", str(random.randrange(6))]
    if command == "trace":
        for name, below in (("--from", 20), ("--to", 90), ("--router", 6), ("--packet", 6)):
            words += [name, str(random.randrange(below))] if random.randrange(3) == 0 else []
        words += ["--verdict", random.choice(VERDICTS)] if random.randrange(3) == 0 else []
        words += ["--changes"] if random.randrange(2) else []
    if command and random.randrange(40) == 0:
        words.append("--wrong")
    return words


def complaint(words: Sequence[str], is_full: bool, ran: subprocess.CompletedProcess[bytes]) -> str | None:
    """What is wrong with the end of a call, None where it's right."""
    status, out, error = ran.returncode, ran.stdout or b"", ran.stderr
    if ("--wrong" in words) != (status == 2):
        return "status 2 comes with wrong words and with no others"
    if status in (0, 5):
        if status == 5 and words and words[0] != "run":
            return "only a run is stuck"
        return None if out and not is_full and not error else "a report alone is expected"
    if out:
        return "standard output isn't empty"
    if status == 2:
        return None if error else "nothing is said"
    if status == 7 and (not is_full or error != b"fault write 1 WriteFailed written 0\n"):
        return "a fault in writing comes on a full device alone"
    return None if status in (3, 4, 7) and status_of(error) == status else "no fault line with this status"


def one_call(program: Path, folder: Path, seed: int, number: int) -> bool:
    """Makes an input, calls the program, and shows the call where it fails."""
    random = Random(f"{seed} {number}")
    files = made_files(random)
    words = made_words(random, files)
    is_full = random.randrange(25) == 0
    for kind, text in files.items():
        (folder / kind).write_bytes(text)
    divided = random.choice([b"---\n", b"---\n", b"\n---\r\n", b"----\n"])
    given = b"" if words else bounded(files["config"]) + divided + files["traffic"]
    with open("/dev/full", "wb") as full:
        try:
            ran = subprocess.run([program, *words], input=given, cwd=folder, timeout=LONGEST_RUN,
                                 stdout=full if is_full else subprocess.PIPE, stderr=subprocess.PIPE)
            found = complaint(words, is_full, ran)
            end = f"status {ran.returncode}, {ran.stderr[:200]!r}"
        except subprocess.TimeoutExpired:
            found, end = f"no end within {LONGEST_RUN} s", "killed"
    if found:
        print(f"seed {seed}, input {number}, words {words}, full device {is_full}: {found}; {end}")
        print(*(f"  {kind}: {text[:2000]!r}" for kind, text in files.items()), f"  given: {given[:2000]!r}", sep="\n")
    return not found


def options_of(description: str, count: int) -> argparse.Namespace:
    """The words of a call: the program, and how many inputs it is given, so many where nothing is said."""
    parser = argparse.ArgumentParser(description=description)
    parser.add_argument("program", type=Path)
    parser.add_argument("--count", type=int, default=count, help="how many inputs")
    parser.add_argument("--seed", type=int, default=1, help="what the inputs follow from")
    parser.add_argument("--seconds", type=float, help="go on for that long, whatever the count")
    return parser.parse_args()


def count_passed(options: argparse.Namespace, passes: Callable[[int], bool]) -> int:
    """Tries the inputs by their numbers, and says how many passed; returns the status."""
    start, passed, number = time.monotonic(), 0, 0
    while number < options.count if options.seconds is None else time.monotonic() - start < options.seconds:
        passed += passes(number)
        number += 1
    print(f"{passed} passed, {number - passed} failed")
    return 0 if number and passed == number else 1


def main() -> int:
    options = options_of("Gives cut, changed and mixed texts to a program.", COUNT)
    program = options.program.resolve()
    with tempfile.TemporaryDirectory() as name:
        def passes(number: int) -> bool:
            for kind in ("config", "traffic", "table", "ranks"):
                (Path(name) / kind).write_bytes(b"")
            return one_call(program, Path(name), options.seed, number)

        return count_passed(options, passes)


if __name__ == "__main__":
    sys.exit(main())
