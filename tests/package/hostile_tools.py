#!/usr/bin/env python3
"""Gives cut, changed and mixed files and words to the commands of noc-tools, and looks how each call ends.

    hostile_tools.py PROGRAM [--count N] [--seed N] [--seconds N]

Each call has to end with its output, or with a sentence: by what a command refuses, by the words that argparse refuses,
or by an error for which the command line has a sentence. It may leave no file that it made for itself, change none that
it was given, and take no minute. The inputs follow from the seed and their number alone; with --seconds they go on for
that long. Each call that fails is shown, and the last line is 'N passed, M failed'. The exit status is 0 where all
passed, else 1.
"""
import csv
import gc
import io
import os
import re
import resource
import shutil
import signal
import sys
import tempfile
import traceback
from collections.abc import Sequence
from contextlib import chdir, redirect_stderr, redirect_stdout
from pathlib import Path
from random import Random
from types import FrameType
from unittest.mock import patch

TOP = Path(__file__).resolve().parents[2]
sys.path[:0] = [str(TOP), str(TOP / "tests/program")]
from hostile import bounded, changed, count_passed, options_of  # noqa: E402
from noc_tools import Refused, cli  # noqa: E402
from noc_tools.program import output  # noqa: E402
from support import HEADER, IN_THE_WAY  # noqa: E402
from test_compare import GOOD, MAP, MODEL, MOVED, design  # noqa: E402

LONGEST = 60
# How many inputs are tried where nothing is said.
COUNT = 600
# More memory than that no call needs.
MOST_MEMORY = 4 << 30
CONFIG = 'kind = "mesh"\nradix = [3, 3]\nchannels = 4\nbuffer = 2\nclasses = 2\nrule = "adaptive"\ncycles = 60\n'
RING = 'kind = "torus"\nradix = [4]\nchannels = 1\nbuffer = 1\nclasses = 1\nrule = "dor"\ncycles = 60\n'
STUDY = (
    'kind = "mesh"\nradix = [2, 2]\nrule = ["dor", "adaptive"]\nchannels = 2\nbuffer = 2\nlength = "1+4"\n'
    "load = [0.1, 0.3]\ncycles = 90\nwindow = [30, 60]\n"
)
TRACE = "kind,bytes,time,source,destination,id,after\na,17,10,0,2,x,\nb,1040,13.5,2,1,y,x+4\nb,0,15,1,0,z,x y+1\n"
# What a call may be given, by names.
GIVEN = {
    "c": CONFIG, "t": HEADER + "".join(f"{n % 9},{(n + 2) % 9},{n % 2},{1 + n % 5},{n}\n" for n in range(20)),
    "ring": RING, "circle": HEADER + "".join(f"{n},{(n + 2) % 4},0,7,0\n" for n in range(4)), "line": IN_THE_WAY,
    "seen": TRACE, "plain": TRACE.replace("x+4", "").replace("x y+1", ""), "s.toml": STUDY,
    "after": "source,destination,class,length,due,after\n0,1,0,1,0,-\n1,0,1,2,0,0+4\n2,0,0,1,5,0 1+2\n",
    "model.vcd": MODEL, "d.vcd": design(GOOD), "map": MAP + MOVED,
}
EXAMPLES = ["turns.toml", "turns.csv", "turns_table.csv", "turns_ranks.csv", "mesh88.booksim"]
# What is called for a report that others read.
MADE = {
    "r": "noc run c t", "stalls": "noc run c t --report stalls", "curve": "load c 1 0.1 0.3 --jobs 1",
    "results": "sweep s.toml --out study --jobs 1",
}
# A call, and behind '<' the file that comes by standard input. Calls that make runs in other processes come seldom.
CALLS = [
    "ranks c", "ranks turns.toml --table turns_table.csv", "limit c t", "table c odd-even", "traffic c uniform 0.5 1",
    "traffic c hot-spot 0.2 1+4 --spots 1,2 --share 0.5 --seed 3 --burst 5:5 --classes 0,1", "stalls c < stalls",
    "stalls c --traffic t --window 5:30", "stalls c --links --top 50 < stalls", "replay c t --from 5 --to 30",
    "keys c channels=2", "timeline c t 2", "waves c t --router 1 --to 20", "why c t 2", "why c - 2 9 < t",
    "why c t --slowest 50% --class 1", "why turns.toml turns.csv 1 --table turns_table.csv --drain",
    "latency c r --by class --by source", "latency c --traffic t --by class --json --slowest 10% --window 0:20",
    "curves a=curve curve --y p99", "draw results --y p99 --colour rule --where load=0.1", "energy c < stalls",
    "packets c plain 16 --pace 0.5 --kind b=1 --from 1 --factor 2", "packets c seen 16 --kind a=0", "settle c after",
    "replies c t 2 1 --then 0:1:1", "replies c t 2 1", "booksim mesh88.booksim n.toml k=4", "memories c t hex",
    "assertions c --out out.sv --bind bind.sv", "certify c --out made", "certify --verify certificate",
    "certify ring --find --out made", "shrink ring --out jam", "shrink ring circle --out jam",
    "compare model.vcd d.vcd --map map", "sweep s.toml --out study --list", "sweep s.toml --out study --jobs 1",
    "load c 1+3 0.1:0.3:0.1 --jobs 1 --window 9:40",
]
SELDOM = ("sweep s.toml --out study --jobs", "load")
WORDS = [
    "-1", "0", "nan", "inf", "1e400", "9" * 30, "9" * 5000, "1:0", ":", ",", "", "x", "-", "\u00e9", "\udcff", "999999",
    "1+", "0.1:0.2:0", "101%", "nothing", ".", "/dev/null", "1=1", "--drain", "=", "0:5", "2",
]
NUMBERS = [b"9" * 30, b"9" * 5000, b"nan", b"inf", b"-1", b"1e400", b"1e300", b"-", b"", b"0", b"9223372036854775808"]
# What the command line has a sentence for.
TOLD = (OSError, MemoryError, RecursionError, UnicodeDecodeError, csv.Error)


class Late(BaseException):
    """A call that takes too long."""


def late(number: int, frame: FrameType | None) -> None:
    """Ends a call."""
    raise Late


def call(words: Sequence[str], given: bytes = b"") -> tuple[str | None, str]:
    """How a command ends: None where it is right, else what is wrong; and what it printed."""
    out, source = io.StringIO(), io.TextIOWrapper(io.BytesIO(given))
    signal.alarm(LONGEST)
    try:
        with redirect_stdout(out), redirect_stderr(io.StringIO()), patch("sys.stdin", source):
            cli.run_command(words[0], words[1:])
    except Refused as reason:
        return None if str(reason).strip() else "it refuses without a word", ""
    except (SystemExit, *TOLD):
        return None, ""
    except Late:
        return f"no end within {LONGEST} s", ""
    except Exception:
        return traceback.format_exc(), ""
    finally:
        signal.alarm(0)
    return None, out.getvalue()


def prepare(folder: Path) -> dict[str, bytes]:
    """Makes the files that calls are given, and returns their bytes by their names."""
    for name, text in GIVEN.items():
        (folder / name).write_text(text)
    for name in EXAMPLES:
        shutil.copy(TOP / "examples" / name, folder)
    with chdir(folder):
        for name, words in MADE.items():
            first, *rest = words.split()
            (folder / name).write_bytes(output(*rest) if first == "noc" else call(words.split())[1].encode())
        shutil.copy("study/results.csv", "results")
        call("certify turns.toml --table turns_table.csv --ranks turns_ranks.csv --out certificate".split())
        call("certify ring --find --out certificate".split())
    files = (path for path in folder.rglob("*") if path.is_file())
    return {str(path.relative_to(folder)): path.read_bytes() for path in files}


def damaged(random: Random, text: bytes) -> bytes:
    """A text with one change, which is often a number that none should be."""
    numbers = list(re.finditer(rb"\d+", text))
    if not text or not numbers or random.randrange(3):
        return changed(random, text) if text else b"x"
    number = random.choice(numbers)
    return text[:number.start()] + random.choice(NUMBERS) + text[number.end():]


def made_input(random: Random, files: dict[str, bytes]) -> tuple[list[str], dict[str, bytes], str]:
    """A call with its standard input, and the files that have changes."""
    chosen, _, given = random.choice([one for one in CALLS if not one.startswith(SELDOM)] * 4 + CALLS).partition(" < ")
    words = chosen.split()
    meant = {word.split("=")[-1] for word in [*words, given]}
    named = [name for name in files if meant & {name, name.split("/")[0]}]
    edits = {}
    for name in random.sample(named, min(len(named), random.choice([0, 1, 1, 1, 2]))):
        text = files[name]
        for _ in range(random.choice([1, 1, 1, 2, 3])):
            text = damaged(random, text)
        edits[name] = bounded(text) if name in ("c", "ring", "turns.toml", "s.toml") else text
    if random.randrange(3) == 0:
        words[random.randrange(1, len(words))] = random.choice(WORDS)
    return words, edits, given


def left_behind(folder: Path, before: dict[str, bytes]) -> list[str]:
    """What a call changed that it was given, or left of its own files."""
    changed_files = [name for name, data in before.items() if (folder / name).read_bytes() != data]
    gc.collect()
    return [*changed_files, *(path.name for path in (folder / "tmp").iterdir())]


def one_call(folder: Path, files: dict[str, bytes], seed: int, number: int) -> bool:
    """Makes an input and a call, and shows it where it fails."""
    random = Random(f"{seed} {number}")
    words, edits, given = made_input(random, files)
    for path in folder.iterdir():
        if path.name not in ("tmp", *(name.split("/")[0] for name in files)):
            shutil.rmtree(path) if path.is_dir() else path.unlink()
    before = files | edits
    for name, data in before.items():
        (folder / name).write_bytes(data)
    with chdir(folder):
        found, _ = call(words, before.get(given, b""))
    # (a study goes on with its results)
    kept = {name: data for name, data in before.items() if not name.startswith("study/")}
    left = left_behind(folder, kept)
    found = found or (f"it changed or left {', '.join(left)}" if left else None)
    if found:
        print(f"seed {seed}, input {number}, words {words}, standard input {given or 'none'}: {found}")
        print(*(f"  {name}: {data[:2000]!r}" for name, data in edits.items()), sep="\n")
        shutil.rmtree(folder / "tmp")
        (folder / "tmp").mkdir()
    return not found


def main() -> int:
    options = options_of("Gives cut, changed and mixed files and words to commands.", COUNT)
    os.environ["NOC"] = str(options.program.resolve())
    resource.setrlimit(resource.RLIMIT_AS, (MOST_MEMORY, MOST_MEMORY))
    signal.signal(signal.SIGALRM, late)
    with tempfile.TemporaryDirectory(prefix="hostile-") as name:
        folder = Path(name)
        files = prepare(folder)
        (folder / "tmp").mkdir()
        tempfile.tempdir = str(folder / "tmp")
        status = count_passed(options, lambda number: one_call(folder, files, options.seed, number))
        tempfile.tempdir = None
    return status


if __name__ == "__main__":
    sys.exit(main())
