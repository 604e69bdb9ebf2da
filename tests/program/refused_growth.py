"""Calls of the program in which one growth of its memory is refused: the first, the second, and so on, until none is
left to refuse.

Every call ends with want of memory, or of a thread, and nothing written, or with its whole answer. And a network that
was built grows no more: however many cycles it runs, and whatever is reported of it, the program asks for memory as
often.
"""
import os
import re
import shutil
import subprocess
import sys
from collections.abc import Sequence
from pathlib import Path
from typing import TYPE_CHECKING

from fault_lines import HEADERS

from noc_tools.network import Network

if TYPE_CHECKING:
    from run_process import Calls

MOST_GROWTHS = 5000
TRAFFIC_HEADER, REPORT_HEADER, TABLE_HEADER = (HEADERS[kind] for kind in ("traffic", "latency", "table"))
WANT = re.compile(rb"fault (\w+ \d+ Memory|run 2 NoWorker)\n")


def config(kind: str, radix: tuple[int, ...], channels: int, buffer: int, rule: str, cycles: int) -> str:
    return Network(kind, radix, channels, buffer, 1, rule, cycles).text()


def ring_ranks(size: int) -> str:
    """Ranks of a ring with two channels per link: along each way round, those of the low channel before those of the
    high one."""
    lines = ["router,port,vc,rank"]
    for router in range(size):
        for port, passed in (("+0", router), ("-0", size - 1 - router)):
            lines += [f"{router},{port},{channel},{channel * size + passed + 1}" for channel in (0, 1)]
    return "\n".join(lines) + "\n"


def adaptive_ranks(size: int) -> str:
    """The same for a ring with a third channel on each link, which is adaptive."""
    lines = ring_ranks(size).splitlines()
    return "\n".join(lines + [f"{router},{port},2,adaptive" for router in range(size) for port in ("+0", "-0")]) + "\n"


def report(*rows: tuple[str, int]) -> str:
    """Rows of packets, each out as many cycles after its due time 0 as stands last."""
    return REPORT_HEADER + "".join(f"{number},{packet},{out},{out}\n" for number, (packet, out) in enumerate(rows))


FILES = {
    "pair": config("mesh", (2,), 1, 2, "dor", 8), "one": TRAFFIC_HEADER + "0,1,0,1,0\n",
    "ring": config("torus", (4,), 2, 1, "dateline", 60),
    "round": TRAFFIC_HEADER + "0,2,0,4,0\n1,3,0,4,0\n2,0,0,4,0\n3,1,0,4,0\n",
    "ring_ranks": ring_ranks(4),
    "adaptive": config("torus", (4,), 3, 1, "adaptive", 20), "adaptive_ranks": adaptive_ranks(4),
    "tabled": config("mesh", (2,), 2, 2, "table", 8),
    "rows": TABLE_HEADER + "0,0,local,0,1,+0,0\n0,0,local,1,1,+0,0\n0,1,local,0,0,-0,0\n"
    "0,1,local,1,0,-0,0\n0,1,-0,0,1,local,0\n0,0,+0,0,0,local,0\n",
    "line": config("mesh", (3,), 1, 2, "dor", 20), "two": TRAFFIC_HEADER + "0,2,0,1,0\n1,2,0,1,0\n",
    # Five ports with eight channels each.
    "wide": config("mesh", (3, 2), 8, 2, "dor", 20),
    # Two blocks of routers, so that two workers have a tile each; packets go from the one to the other, for longer than
    # one thread runs before it is tried what two take.
    "blocks": config("mesh", (13, 5), 1, 2, "dor", 9000), "begun": config("mesh", (13, 5), 1, 2, "dor", 1),
    "across": TRAFFIC_HEADER + "".join(f"63,64,0,1,{due}\n" for due in range(0, 2000, 20)),
}
PAIR_REPORT = report(("0,1,0,1,0", 5))
RING_REPORT = report(("0,2,0,4,0", 24), ("1,3,0,4,0", 14), ("2,0,0,4,0", 44), ("3,1,0,4,0", 34))
LINE_REPORT = report(("0,2,0,1,0", 10), ("1,2,0,1,0", 5))
WIDE_REPORT = report(("0,2,0,1,0", 8), ("1,2,0,1,0", 5))
ACROSS_REPORT = REPORT_HEADER + "".join(f"{number},63,64,0,1,{due},{due + 5},5\n"
                                        for number, due in enumerate(range(0, 2000, 20)))
# Words with the text on standard input, the answer, and the families of which want of memory is told: of all that is
# read and made. Of runs by two workers it is told both ways, as run 1 where memory itself was short, and as run 2 where
# a thread could not be started for it.
ANSWERED: list[tuple[list[str], str, str, str]] = [
    ([], FILES["pair"] + "---\n" + FILES["one"], PAIR_REPORT, "joined config relation traffic network"),
    (["check", "ring", "--ranks", "ring_ranks"], "", "accepted\n", "config relation ranks rank"),
    (["check", "adaptive", "--ranks", "adaptive_ranks"], "", "accepted\n", "config relation ranks rank"),
    (["run", "ring", "round", "--ranks", "ring_ranks"], "", RING_REPORT, "config relation ranks rank traffic network"),
    (["run", "tabled", "one", "--table", "rows"], "", PAIR_REPORT, "config table relation traffic network"),
    (["ranks", "line"], "", "router,port,vc,rank\n0,+0,0,1\n1,+0,0,2\n1,-0,0,2\n2,-0,0,1\n", "config relation rank"),
    (["run", "line", "two"], "", LINE_REPORT, "config relation traffic network"),
    (["run", "line", "two", "--workers", "3"], "", LINE_REPORT, "config relation traffic network"),
    (["run", "wide", "two", "--workers", "2"], "", WIDE_REPORT, "config relation traffic network"),
    (["run", "blocks", "across", "--workers", "2"], "", ACROSS_REPORT,
     "config relation traffic network run1 run2"),
    (["run", "begun", "across", "--workers", "2", "--drain"], "", ACROSS_REPORT,
     "config relation traffic network run1 run2"),
]
REPORTS = [["--report", kind] for kind in ("summary", "latency", "stalls")]
FINDINGS = ["--cycle", "0", "--router", "0"]


class Growths:
    """Calls in which one growth is refused, by a library that stands before the program's own memory calls."""

    def __init__(self, calls: "Calls") -> None:
        self.calls = calls
        self.library, self.count = calls.folder / "refused_growth.so", calls.folder / "growths"
        source = Path(__file__).resolve().with_suffix(".c")
        compiler = shutil.which("cc") or shutil.which("gcc")
        subprocess.run([compiler, "-shared", "-fPIC", "-O1", "-o", self.library, source], check=True)

    def refusing(
            self, number: int, words: Sequence[str], given: bytes = b"",
    ) -> tuple[subprocess.CompletedProcess[bytes], int]:
        """The call with this growth refused (none where it is 0), and how many growths were asked for."""
        self.count.unlink(missing_ok=True)
        env = os.environ | {"LD_PRELOAD": str(self.library), "REFUSED_GROWTH": str(number),
                            "GROWTH_COUNT": str(self.count)}
        ran = self.calls.run(words, given=given, env=env)
        return ran, int.from_bytes(self.count.read_bytes(), sys.byteorder)


def family_of(line: str) -> str:
    """The family of a fault line that tells of a want, and its number where that says of what."""
    _, family, number, _ = line.split()
    return family + number if family == "run" else family


def each_growth_refused(growths: Growths) -> None:
    """Every growth refused in turn: want of memory with nothing written, or the whole answer; without a refusal the
    answer."""
    for words, given, answer, families in ANSWERED:
        wanted, told = (0, answer.encode(), b""), set()
        for number in range(1, MOST_GROWTHS):
            ran, asked = growths.refusing(number, words, given.encode())
            said = (ran.returncode, ran.stdout, ran.stderr)
            is_want = number <= asked and said[:2] == (6, b"") and WANT.fullmatch(said[2]) is not None
            if is_want:
                told.add(family_of(said[2].decode()))
            growths.calls.count(f"growth {number} refused {words}", said == wanted or is_want, ran)
            if asked < number:
                break
        growths.calls.count(f"want of memory is told {words} {told}",
                            told == set(families.split()) and said == wanted, ran)


def no_growth_after_building(growths: Growths) -> None:
    """The program asks for memory as often for one cycle as for a thousand, and for each report. So it does for
    findings, which no workers are asked for."""
    by_two = "--workers", "2"
    for name, traffic, more in (("pair", "one", ()), ("ring", "round", ()), ("line", "two", by_two),
                                ("wide", "two", by_two)):
        short, long = (FILES[name][:FILES[name].index("cycles")] + f"cycles = {cycles}\n" for cycles in (1, 1000))
        growths.calls.put(short=short.encode(), long=long.encode())
        asked = set()
        for text in ("short", "long"):
            findings = [] if more else [["explain", text, traffic, *FINDINGS]]
            for call in [*(["run", text, traffic, *more, *kind] for kind in REPORTS), *findings]:
                ran, number = growths.refusing(0, call)
                growths.calls.count(f"{name} {call}", ran.returncode == 0 and number > 0, ran)
                asked.add(number)
        growths.calls.count(f"growths of {name}: {asked}", len(asked) == 1, ran)


def refused_growths(calls: "Calls") -> None:
    calls.put(**{name: text.encode() for name, text in FILES.items()})
    growths = Growths(calls)
    each_growth_refused(growths)
    no_growth_after_building(growths)
