"""Studies: no run is lost or made twice, and what the table and the pictures say."""
import csv
import hashlib
import os
import re
import shlex
import shutil
import signal
import subprocess
import sys
import time
import unittest
import xml.etree.ElementTree as ElementTree
from dataclasses import replace
from pathlib import Path
from typing import Any

from support import LINE, PROGRAM, TOP, FolderTest, texts_of
from test_load import COLUMNS

from noc_tools import Demand, Network, Refused, Study
from noc_tools.study.combinations import Line, combinations_of
from noc_tools.measure import Experiment
from noc_tools.study.plan import SETTINGS, words_of
from noc_tools.study.results import HEADER, line_of
from noc_tools.statistics import Window
from noc_tools.study.combinations import capacity, row_of, words_of as table_words
from noc_tools.pool import Waiting

STUDY = """\
kind = "mesh"
radix = [8, 8]
rule = "dor"
channels = [1, 2]
buffer = [2, 4]
length = 4
load = [0.02, 0.05, 0.1, 0.2, 0.3]
seed = [1, 2, 3, 4, 5]
cycles = 150
"""
SMALL = """\
radix = [4, 4]
channels = 2
buffer = 2
length = 2
load = [0.6, 0.1]
seed = [1, 2]
cycles = 300
parts = true
cases = [{ kind = "mesh", rule = "dor" }, { kind = "torus", rule = "dateline" }]
"""
# Eight packets of one flit in each cycle of a network of 16 nodes are 20,000 after some 2,500 cycles.
SHORT = SMALL.replace("load = [0.6, 0.1]", "load = [0.02, 0.5]").replace("length = 2", "length = 1")
SHORT = SHORT.replace("cycles = 300", "cycles = 4000")
# Python reads this before it begins. Each process that makes a run says so in a file. Where a path is given at which
# there is no file yet, the one process that makes that file ends itself at once. Where so many runs are wanted at a
# time, a process says how many there are, and waits until they are so many or five minutes are over; it is done with a
# run when it traces it. Where so many are to go on, the others wait until there is a file. Traces are counted too.
AT_START = """
import os, signal, sys, time
from pathlib import Path

def watch(event, details):
    words = [str(word) for word in details[1]] if event == "subprocess.Popen" and "LOG" in os.environ else [""]
    log, wanted = Path(os.environ.get("LOG", "")), int(os.environ.get("WANTED", 0))
    own = log.with_suffix(".now") / str(os.getpid())
    if "run" in words and "--report" not in words:
        with open(log, "a") as file:
            file.write(f"{os.getpid()}\\n")
            file.flush()
            place = log.read_text()[:file.tell()].count("\\n")
        while int(os.environ.get("FIRST", place)) < place and not log.with_suffix(".go").exists():
            time.sleep(0.05)
        if "KILLED" in os.environ and is_made(os.environ["KILLED"]):
            os.kill(os.getpid(), signal.SIGKILL)
        if wanted:
            own.mkdir(parents=True)
            crowd(log, own.parent, wanted)
    elif "trace" in words:
        with open(log.with_suffix(".traced"), "a") as file:
            file.write("trace\\n")
        if own.exists():
            own.rmdir()

def is_made(path):
    try:
        os.close(os.open(path, os.O_CREAT | os.O_EXCL))
    except FileExistsError:
        return False
    return True

def crowd(log, runs, wanted):
    for _ in range(6000):
        there = len(list(runs.iterdir()))
        with open(log.with_suffix(".most"), "a") as file:
            file.write(f"{there}\\n")
        if wanted <= there:
            log.with_suffix(".full").touch()
        time.sleep(0.05)
        if log.with_suffix(".full").exists():
            break

sys.addaudithook(watch)
"""


def lines_of(path: Path) -> list[str]:
    """The lines of a file, if it is there."""
    return path.read_text().splitlines() if path.exists() else []


def rows_of(path: Path) -> list[dict[str, str]]:
    """The rows of a file of CSV by their names."""
    with open(path, newline="") as file:
        return list(csv.DictReader(file))


class SweepTest(FolderTest):
    """A test of studies in the folder."""

    FILES = {"study.toml": STUDY, "small.toml": SMALL, "short.toml": SHORT}

    def setUp(self) -> None:
        super().setUp()
        for path in self.folder.glob("*out"):
            shutil.rmtree(path)

    def sweep(self, *words: object, **given: Any) -> subprocess.CompletedProcess[str]:
        """How a sweep ends."""
        return self.called([sys.executable, "noc-tools", "sweep", *words], **given)

    def watched(self, log: str, **more: str) -> dict[str, str]:
        """The environment in which a run writes a line into a file."""
        (self.folder / "hooks").mkdir(exist_ok=True)
        self.put(**{"hooks/sitecustomize.py": AT_START})
        return self.environment | {"PYTHONPATH": str(self.folder / "hooks"), "LOG": str(self.folder / log)} | more

    def results(self, name: str) -> list[dict[str, str]]:
        """The rows of a folder's results."""
        return rows_of(self.folder / name / "results.csv")


class Runs(SweepTest):
    def stopped_after(self, count: int, number: int, log: str) -> tuple[int, list[str]]:
        """Starts the sweep, of which so many runs go on, and stops it by a signal as from a terminal when their lines
        are there; its status, and the lines that it left."""
        results, environment = self.folder / "study" / "results.csv", self.watched(log, FIRST=str(count))
        wanted = (len(lines_of(results)) or 1) + count
        started = subprocess.Popen(
            [sys.executable, "noc-tools", "sweep", "study.toml", "--jobs", "2"], cwd=self.folder, env=environment,
            stdout=subprocess.DEVNULL, stderr=subprocess.DEVNULL, start_new_session=True,
            preexec_fn=lambda: signal.signal(signal.SIGINT, signal.SIG_DFL),
        )
        late = time.monotonic() + 300
        while len(lines_of(results)) < wanted and time.monotonic() < late:
            time.sleep(0.01)
        os.killpg(started.pid, number)
        (self.folder / f"{log}.go").touch()
        return started.wait(300), lines_of(results)

    def test_a_sweep_goes_on_after_a_kill(self) -> None:
        """Of a hundred runs none is lost and none that has a line is made again, after a kill, an interrupt, by which
        those that have begun are ended, and a line cut off."""
        results = self.folder / "study" / "results.csv"
        killed, left = self.stopped_after(20, signal.SIGKILL, "first")
        interrupted, more = self.stopped_after(30, signal.SIGINT, "second")
        made = len(lines_of(self.folder / "second"))
        results.write_text("\n".join(more)[:-5])
        ended = self.sweep("study.toml", env=self.watched("third"))
        whole = lines_of(results)
        again = self.sweep("study.toml", env=self.watched("third"))
        calls = len(lines_of(self.folder / "third"))
        names = [line.split(",")[0] for line in whole[1:]]
        self.assertEqual((killed, interrupted, ended.returncode, again.returncode), (-9, 130, 0, 0))
        self.assertEqual(len(left), 21)
        self.assertIn(len(more), (51, 52, 53))
        self.assertEqual((more[:len(left)], whole[:len(more) - 1]), (left, more[:-1]))
        self.assertEqual((len(names), len(set(names))), (100, 100))
        self.assertEqual((made, calls), (len(more) - len(left), 101 - (len(more) - 1)))
        self.assertIn(more[-1], whole)
        self.assertTrue(ended.stdout)
        self.assertEqual(again.stdout, ended.stdout)

    def test_a_run_that_is_killed_is_named(self) -> None:
        """The others go on, and the next sweep makes it."""
        environment = self.watched("killed", KILLED=str(self.folder / "is_killed"))
        ran = self.sweep("small.toml", "--out", "killed.out", env=environment)
        left = self.sweep("small.toml", "--out", "killed.out", "--list").stdout
        self.assertRefused(ran, f"1 of 8 runs failed, the first: {left.rstrip()}: it ended with status -9", "sweep")
        self.assertEqual(len(self.results("killed.out")), 7)
        again = self.sweep("small.toml", "--out", "killed.out", env=environment)
        self.assertEqual((again.returncode, len(lines_of(self.folder / "killed"))), (0, 9))

    def test_all_processors_are_used(self) -> None:
        """As many runs at a time as processors that may be used, and with --jobs so many."""
        wanted = {"processors": len(os.sched_getaffinity(0)), "three": 3}
        seeds = list(range(max(wanted.values()) + 1))
        crowd = re.sub(r"(?m)^(channels|buffer|load) = .*", r"\1 = 1", STUDY)
        self.put(**{"crowd.toml": re.sub(r"(?m)^seed = .*", f"seed = {seeds}", crowd) + "parts = true\n"})
        for name, jobs in wanted.items():
            more = ["--jobs", 3] if name == "three" else []
            self.sweep("crowd.toml", "--out", f"{name}.out", *more, env=self.watched(name, WANTED=str(jobs)))
            self.assertEqual(max(map(int, lines_of(self.folder / f"{name}.most"))), jobs)

    def test_results_hold_what_was_run(self) -> None:
        """Eight runs; the digests are those of the program and of the files that --one keeps, whose figures `load`
        gives too."""
        self.assertEqual(self.sweep("small.toml", "--out", "one.out").returncode, 0)
        rows = self.results("one.out")
        pairs = {(row["kind"], row["rule"]) for row in rows}
        (row,) = [row for row in rows if (row["kind"], row["load"], row["seed"]) == ("torus", "0.6", "2")]
        settings = [f"{key}={word}" for key, word in list(row.items())[1:1 + len(SETTINGS)]]
        self.sweep("--one", *settings, "--files", "kept")
        digests = [row[f"{name}_digest"] for name in ("program", "configuration", "traffic", "table")]
        files = [self.folder / "noc", self.folder / "kept" / "config.toml", self.folder / "kept" / "traffic.csv"]
        expected = [hashlib.sha256(file.read_bytes()).hexdigest()[:16] for file in files]
        curve = self.said("load", "kept/config.toml", 2, 0.6, "--seed", 2).splitlines()[1].split(",")
        self.assertEqual((pairs, len(rows)), ({("mesh", "dor"), ("torus", "dateline")}, 8))
        self.assertEqual(digests, [*expected, "-"])
        self.assertEqual(curve[1:], [row[name] for name in COLUMNS[1:]])

    def test_commands_give_the_same_lines(self) -> None:
        """Each command of --list prints its line in whatever folder, and --collect takes them; one that is cut off
        stays to be made."""
        self.sweep("small.toml", "--out", "one.out")
        commands = self.sweep("small.toml", "--out", "two.out", "--list").stdout.splitlines()
        printed = [self.called(shlex.split(command)).stdout for command in commands]
        self.put(lines="".join(printed[:5]), rest="".join(printed[5:]), torn="".join(printed[5:])[:-9])
        part = self.sweep("small.toml", "--out", "two.out", "--collect", "lines", "torn")
        left = self.sweep("small.toml", "--out", "two.out", "--list").stdout.splitlines()
        whole = self.sweep("small.toml", "--out", "two.out", "--collect", "lines", "rest")
        one, two = (sorted(lines_of(self.folder / name / "results.csv")) for name in ("one.out", "two.out"))
        self.assertEqual((len(commands), left, whole.returncode, one), (8, commands[7:], 0, two))
        told = "1 of 8 runs have no result yet: --part makes them, and --list prints their commands"
        self.assertRefused(part, told, "sweep")

    def test_commands_run_in_whatever_folder(self) -> None:
        command = self.sweep("small.toml", "--list").stdout.splitlines()[0]
        printed = subprocess.run(shlex.split(command), cwd="/", env=self.environment, capture_output=True, text=True)
        self.assertEqual((printed.returncode, printed.stdout.count("\n")), (0, 1))

    def part(self, number: int, count: int, name: str, study: str = "small.toml",
             **given: Any) -> subprocess.CompletedProcess[str]:
        """How a part of a study ends that has no result in this folder but those that are there."""
        return self.sweep(study, "--out", name, "--jobs", "2", "--part", f"{number}/{count}", **given)

    def test_parts_give_the_same_lines(self) -> None:
        """Two runs of eight, and then the other six in four parts, two of them by a rule of tables. No part writes
        into the folder, which another study may have at that time."""
        self.put(**{"small.toml": SMALL.replace('"dateline" }', '"dateline-even" }')})
        self.sweep("small.toml", "--out", "one.out")
        self.put(lines=self.part(2, 4, "two.out").stdout)
        is_there = (self.folder / "two.out").exists()
        self.sweep("small.toml", "--out", "two.out", "--collect", "lines")
        before = lines_of(self.folder / "two.out" / "results.csv")
        with Study(self.folder / "small.toml", self.folder / "two.out"):
            parts = [self.part(number, 4, "two.out").stdout for number in (1, 2, 3, 4)]
        files = sorted(path.name for path in (self.folder / "two.out").iterdir())
        self.put(lines="".join(parts))
        ended = self.sweep("small.toml", "--out", "two.out", "--collect", "lines")
        one, two = (sorted(lines_of(self.folder / name / "results.csv")) for name in ("one.out", "two.out"))
        self.assertEqual((is_there, len(before), files), (False, 3, ["results.csv", "tables"]))
        self.assertEqual([part.count("\n") for part in parts], [2, 2, 1, 1])
        self.assertEqual((ended.returncode, one), (0, two))

    def test_lines_that_were_made_elsewhere_are_taken(self) -> None:
        """By whatever calls `line_of`; not one of another program, of another study, or that is cut off."""
        with Study(self.folder / "small.toml", self.folder / "taken.out") as study:
            made = [line_of(case) for case in study.open_cases()[:2]]
            study.take(made)
            self.assertEqual([row["run"] for row in study.rows()], [line[0] for line in made])
            study.take(made)
            line = line_of(study.open_cases()[0])
            place = HEADER.index("program_digest")
            for wrong, sentence in [
                ([*line[:place], "0" * 16, *line[place + 1:]], "line 1 is of another program"),
                (["0" * 16, *line[1:]], "line 1 is no result of a run of this study"),
                (line[:-1], "line 1 is no result of a run of this study"),
                ([*made[0][:-1], "0"], "line 1 is another result of a run that has one"),
            ]:
                with self.assertRaisesRegex(Refused, sentence):
                    study.take([wrong])
            self.assertEqual(len(study.rows()), 2)

    def test_a_part_names_a_run_that_is_killed(self) -> None:
        """The others of the part are printed."""
        environment = self.watched("part", KILLED=str(self.folder / "is_part_killed"))
        ran = self.part(1, 2, "part.out", env=environment)
        self.assertEqual((ran.returncode, ran.stdout.count("\n")), (1, 3))
        self.assertRegex(ran.stderr, r"1 of 4 runs failed, the first: .* --one .*: it ended with status -9\n$")

    def test_a_part_that_is_ended_leaves_nothing(self) -> None:
        """By the signal with which a cluster ends a job, while two runs are made."""
        room = self.folder / "room"
        room.mkdir()
        environment = self.watched("ended", FIRST="0", TMPDIR=str(room))
        words = [sys.executable, "noc-tools", "sweep", "small.toml", "--jobs", "2", "--part", "1/1"]
        started = subprocess.Popen(words, cwd=self.folder, env=environment, stdout=subprocess.PIPE)
        late = time.monotonic() + 300
        while len(lines_of(self.folder / "ended")) < 2 and time.monotonic() < late:
            time.sleep(0.01)
        self.assertNotEqual(list(room.iterdir()), [])
        started.terminate()
        said = started.communicate(timeout=300)[0]
        self.assertEqual((started.returncode, said, list(room.iterdir())), (143, b"", []))

    def test_words_that_are_no_part(self) -> None:
        for words in ("0/2", "3/2", "1", "a/b", "1/-2", ""):
            ran = self.sweep("small.toml", "--part", words)
            self.assertEqual((ran.returncode, ran.stdout), (2, ""))
            self.assertIn(f"'{words}' is no K/N with K from 1 to N, as 3/8", ran.stderr)
        for more in (["--list"], ["--collect", "c"], ["--verify", "1"], ["--top", "9"]):
            ran = self.sweep("small.toml", "--part", "1/2", *more)
            self.assertRefused(ran, "--part takes --out and --jobs, and nothing else", "sweep")
        self.assertRefused(self.sweep("--one", "kind=mesh", "--part", "1/2"), "--one takes --files and", "sweep")

    def test_a_notebook_has_the_rows(self) -> None:
        """Numbers where the files have them, and None for a dash."""
        with Study(self.folder / "small.toml", self.folder / "rows.out") as study:
            rows, table = study.make().rows(), study.table()
        (first,) = [row for row in self.results("rows.out") if row["run"] == rows[0]["run"]]
        numbers = [rows[0][name] for name in ("load", "seed", "mean", "queue_mean", "hops_max", "table")]
        self.assertEqual(len(rows), 8)
        self.assertEqual(numbers, [0.6, 1, *(float(first[name]) for name in ("mean", "queue_mean", "hops_max")), None])
        self.assertEqual([(row["kind"], row["ran"]) for row in table], [("mesh", 300), ("torus", 300)])


class Loads(SweepTest):
    def test_a_range_has_both_ends(self) -> None:
        """As sums of tenths and hundredths that no binary number is; with a last step that does not fit, without it."""
        for words, loads in {
            "0.05:0.3:0.05": ["0.05", "0.1", "0.15", "0.2", "0.25", "0.3"], "0.1:0.1:1": ["0.1"],
            "0:0.7:0.3": ["0", "0.3", "0.6"], "0:0.999:0.001": [f"{n / 1000:g}" for n in range(1000)],
        }.items():
            self.assertEqual(words_of("load", words), loads)
        self.assertEqual(words_of("load", [0.02, "0.1:0.2:0.1"]), ["0.02", "0.1", "0.2"])

    def test_what_is_no_range(self) -> None:
        for words in "0.1 1:2 a:b:c 0.2:0.1:0.1 0:1:0 0:1:-1 -1:1:1 0:inf:1 nan:1:1 0:1:0.001".split():
            with self.subTest(words=words), self.assertRaisesRegex(Refused, "loads are A:B:STEP, .*, not"):
                words_of("load", words)

    def test_a_study_and_a_curve_take_a_range(self) -> None:
        self.put(**{"range.toml": SMALL.replace("load = [0.6, 0.1]", 'load = "0.1:0.6:0.25"'), "c": LINE})
        self.assertEqual(self.sweep("range.toml", "--list").stdout.count("\n"), 12)
        loads = [line.split(",")[0] for line in self.said("load", "c", 1, "0.02", "0.1:0.2:0.1").splitlines()]
        self.assertEqual(loads, ["load", "0.02", "0.1", "0.2"])
        self.assertRefused(self.tool("load", "c", 1, "0.1:0.2"), "loads are A:B:STEP", "load")


class Kept(unittest.TestCase):
    def test_a_traffic_is_made_once(self) -> None:
        """For a torus that of a mesh is taken, and for another seed, radix or end another one is made."""
        mesh = Network("mesh", (4, 4), 2, 2, 1, "dor", 300)
        torus, demand = replace(mesh, kind="torus", rule="dateline"), Demand("uniform", 0.2, 2)
        made = [Experiment(network, demand, Window(10, 90)).made for network in (mesh, torus)]
        others = [
            (mesh, replace(demand, seed=2)), (replace(mesh, radix=(2, 8)), demand), (replace(mesh, cycles=99), demand),
        ]
        self.assertIs(*made)
        for network, asked in [(mesh, demand), *others]:
            found = Experiment(network, asked, Window(10, 90)).made
            self.assertEqual((found.text, found.cycles), (asked.traffic(network), network.cycles))

    def test_a_process_gets_what_shares_something(self) -> None:
        """Of words by their first letter: the others of its letter first, then a letter that none has had, then any."""
        waiting = Waiting(["ant", "bee", "ape", "cow", "bat"], lambda word: word[0])
        asked = [None, "a", None, "a", "b"]
        self.assertEqual([waiting.next(last) for last in asked], [
            (0, "ant"), (2, "ape"), (1, "bee"), (3, "cow"), (4, "bat"),
        ])
        self.assertEqual(waiting.groups, {})


class Table(unittest.TestCase):
    def row(self, stays: float, unsteady: float, at: Any = None, seeds: Any = (0,), **said: str) -> Any:
        """The row of a network of two channels that accepts 0.28 of 0.3, and nearly all of other loads. At one load a
        packet stays, and one is not steady. A seed accepts so much more than the others. Each line says more too."""
        words = {"kind": "mesh", "radix": "4x4", "channels": "2", "buffer": "3", "flit_bytes": "-"}
        pairs = (0.1, 0.1), (0.2, 0.19), (0.3, 0.28), (0.4, 0.4), (0.5, 0.49)
        rows = [
            words | {
                "load": str(load), "seed": str(more), "ran": str(round(300 - load * 10)), "packets": "9",
                "out": "8" if load == stays else "9", "steady": "no" if load == unsteady else "yes",
                "offered": str(load), "accepted": str(accepted + more), "mean": str(load * 100), "p95": "-",
                "p99": "9", "queue_mean": "1.0", "network_mean": "2.0", **said,
            }
            for load, accepted in pairs for more in seeds
        ]
        (combination,) = combinations_of(rows)
        return row_of(combination, ["channels"], at)

    def test_it_is_that_of_the_lines(self) -> None:
        row = self.row(stays=0.5, unsteady=0.2)
        self.assertEqual(row, {
            "channels": 2, "slots": 6, "latency_load": 0.1, "mean": 10, "p95": None, "p99": 9, "queue_mean": 1,
            "network_mean": 2, "keeps_up_to": 0.19, "keeps_up_load": 0.2, "steady_to": 0.1, "steady_load": 0.1,
            "saturation": 0.49, "saturation_load": 0.5, "saturation_least": 0.49, "saturation_most": 0.49,
            "capacity": 1, "of_capacity": 0.49, "ran": 295, "steady": "yes", "deadlock_free": "yes", "stuck": 0,
            "seeds": 1, "mean_margin": None, "p95_margin": None, "p99_margin": None, "saturation_margin": None,
            "keeps_up_step": 0.1, "bound": None, "bound_load": None,
        })
        self.assertEqual(",".join(table_words(row)), (
            "2,6,0.1,10.0,-,9,1.0,2.0,0.1900,0.2,0.1000,0.1,0.4900,0.5,0.4900,0.4900,1.0000,0.490,295,yes,yes,0,"
            "1,-,-,-,-,0.1,-,-"
        ))

    def test_a_packet_that_stays_does_not_keep_up(self) -> None:
        names = ("keeps_up_to", "keeps_up_load", "steady_load")
        self.assertEqual([self.row(stays=0.2, unsteady=0.1)[name] for name in names], [0.1, 0.1, None])

    def test_latencies_are_at_the_load_that_is_asked_for(self) -> None:
        """At 0.4 the mean is 40, and at 0.35 there is none."""
        for at, mean in (0.4, 40), (0.35, None):
            row = self.row(stays=0.5, unsteady=0.5, at=at)
            self.assertEqual((row["latency_load"], row["mean"], row["steady"]), (at, mean, "no"))

    def test_seeds_have_a_spread(self) -> None:
        row = self.row(stays=0.5, unsteady=0.5, seeds=(0, 0.02))
        found = [round(row[name], 9) for name in ("saturation", "saturation_least", "saturation_most")]
        self.assertEqual(found, [0.5, 0.49, 0.51])

    def test_nothing_keeps_up_above_the_bound(self) -> None:
        """With 0.2 of which 0.19 is accepted it does where the bound is 0.2, and not where it is less in load, in what
        is offered or in what is accepted. Where there is none, a link may be asked for a flit in a cycle."""
        fits = {"bound": "0.2", "bound_load": "0.2", "asked": "1.0001"}
        for more, load in (
            (dict[str, str](), 0.2), ({"bound_load": "0.1999"}, 0.1), ({"bound": "0.1999"}, 0.1),
            ({"bound": "0.15"}, 0.1), ({"bound": "-", "bound_load": "-"}, None),
            ({"bound": "-", "bound_load": "-", "asked": "1.0"}, 0.2),
        ):
            row = self.row(stays=0.5, unsteady=0.5, **(fits | more))
            self.assertEqual(row["keeps_up_load"], load, more)
        self.assertEqual((row["keeps_up_step"], row["bound"], self.row(0.5, 0.5, **fits)["bound"]), (0.1, None, 0.2))

    def test_most_seeds_decide_what_is_steady(self) -> None:
        """Two of three at a load of 0.2, and one of two."""
        for steady, found in ((["yes", "no", "yes"], 0.2), (["yes", "no"], 0.1)):
            rows = [{"load": load, "steady": "yes" if load == "0.1" else flag} for load in ("0.1", "0.2")
                    for flag in steady]
            lines = [Line([row for row in rows if row["load"] == load]) for load in ("0.1", "0.2")]
            self.assertAlmostEqual(max(line.load for line in lines if line.is_steady), found)

    def test_margins_are_of_batches_or_of_seeds(self) -> None:
        """Of up to four seeds the squares of the runs' own margins add up: half of what four alike have. The loads of
        five are 0, 1, .. 4 apart, so their variance is 2.5, and the margin 2.776 times the root of 2.5 / 5."""
        margins = {"mean_margin": "3.0"}
        self.assertEqual(self.row(0.5, 0.5, **margins)["mean_margin"], 3)
        self.assertEqual(self.row(0.5, 0.5, seeds=range(4), **margins)["mean_margin"], 1.5)
        five = self.row(0.5, 0.5, seeds=range(5), **margins)
        self.assertAlmostEqual(five["saturation_margin"], 2.776 * 0.5 ** 0.5)
        self.assertEqual((five["mean_margin"], five["seeds"]), (0, 5))

    def test_the_margin_of_a_percentile_is_not_below_a_step(self) -> None:
        """Of three cycles, or of the runs' own margins where these are less."""
        cases = ("4.0", 4, 3), ("2.0", 4, 2), ("4.0", 5, 3), ("8.0", 4, 4), ("-", 5, 3), ("4.0", 1, 4)
        for own, seeds, expected in cases:
            row = self.row(0.5, 0.5, seeds=range(seeds), p99_margin=own, p95_margin="0.0")
            self.assertEqual((row["p99_margin"], row["p95_margin"]), (expected, None))

    def test_capacity_is_that_of_the_book(self) -> None:
        """Of k nodes in a row, as many rows as there may be: 4/k where k is even, and for uniform traffic of an odd k
        4k/(k^2 - 1); twice that on a torus; and a node takes one flit in a cycle."""
        for kind, radix, expected in [
            ("mesh", (8, 8), 0.5), ("torus", (8, 8), 1), ("mesh", (16, 4), 0.25), ("torus", (16,), 0.5),
            ("mesh", (5, 5), 20 / 24), ("mesh", (2, 2), 1), ("torus", (4, 4), 1),
        ]:
            self.assertEqual(capacity(kind, radix), expected, (kind, radix))


class Shown(SweepTest):
    def picture(self, path: str) -> list[str]:
        """The words of a picture."""
        return texts_of(ElementTree.parse(self.folder / path).getroot())

    def test_the_table_says_what_a_network_bears(self) -> None:
        """Its figures are means over two seeds: of the latency at the lower load, and of what is accepted at the load
        at which this is most."""
        said = list(csv.DictReader(self.sweep("small.toml", "--out", "one.out").stdout.splitlines()))
        rows = self.results("one.out")
        self.assertEqual(len(said), 2)
        for line in said:
            pairs = {load: [row for row in rows if (row["kind"], row["load"]) == (line["kind"], load)] for load in
                     ("0.1", "0.6")}
            accepted = {load: sum(float(row["accepted"]) for row in pair) / 2 for load, pair in pairs.items()}
            mean, most = sum(float(row["mean"]) for row in pairs["0.1"]) / 2, max(accepted, key=accepted.get)
            expected = ["0.1", f"{mean:.1f}", most, f"{accepted[most]:.4f}", "300"]
            names = ("latency_load", "mean", "saturation_load", "saturation", "ran")
            self.assertEqual([line[name] for name in names], expected)
        for name in ("latency", "p95", "p99", "accepted"):
            self.assertLessEqual({"mesh, dor", "torus, dateline"}, set(self.picture(f"one.out/{name}.svg")))

    def test_a_shortened_run_is_told(self) -> None:
        """In the table, in the pictures and on standard error; a study of which no run is shortened is silent."""
        whole, short = (self.sweep(f"{name}.toml", "--out", f"{name}.out") for name in ("small", "short"))
        rows = [row for row in self.results("short.out") if row["ran"] != "4000"]
        least = {kind: min(int(row["ran"]) for row in rows if row["kind"] == kind) for kind in ("mesh", "torus")}
        shortest = min(least.values())
        told = "noc-tools sweep: noc takes 20000 packets, so 4 of 8 runs had fewer cycles than asked"
        self.assertEqual((whole.stderr, short.stderr), ("", f"{told}: the shortest had {shortest} of 4000\n"))
        table = {line["kind"]: int(line["ran"]) for line in csv.DictReader(short.stdout.splitlines())}
        self.assertEqual((table, len(rows)), (least, 4))
        self.assertLess(shortest, 2700)
        self.assertNotIn("shortest run", self.picture("small.out/latency.svg")[1])
        self.assertTrue(self.picture("short.out/latency.svg")[1].endswith(f"; shortest run: {shortest} cycles"))

    def test_names_count_rightly(self) -> None:
        """One channel, one slot and one flit, and of others more."""
        plural = SHORT.replace("channels = 2", "channels = [1, 2]").replace("buffer = 2", "buffer = 1")
        plural = plural.replace(', { kind = "torus", rule = "dateline" }', "")
        self.put(**{"plural.toml": plural.replace("4000", "400")})
        self.sweep("plural.toml", "--out", "plural.out")
        texts = self.picture("plural.out/latency.svg")
        subtitle = "mesh, 4x4, dor, 1 slot, uniform, 1 flit, 400 cycles, window 133:266; mean over 2 seeds"
        self.assertEqual(texts[1], subtitle)
        self.assertLessEqual({"1 channel", "2 channels"}, set(texts))


def put_program(clone: Path, name: str, behind: bytes) -> None:
    """Puts the program with some bytes behind it in the place of a built one, with what a build keeps beside it."""
    built = clone / "crates" / "noc" / "out" / name
    built.write_bytes(PROGRAM.read_bytes() + behind)
    built.chmod(0o755)
    listed = subprocess.run([clone / "noc", "--sources"], stdout=subprocess.PIPE).stdout
    built.with_name(f"{name}.sources").write_bytes(listed)
    for path in (built, built.with_name(f"{name}.sources")):
        os.utime(path, ns=(0, 10**18))


class Programs(SweepTest):
    def clone(self) -> Path:
        """A clone with both programs built, which differ by their names behind them."""
        clone = self.folder / "clone"
        (clone / "crates" / "noc" / "out").mkdir(parents=True)
        shutil.copytree(TOP / "noc_tools", clone / "noc_tools")
        (clone / "release").mkdir()
        for name in ("noc", "noc-tools", "release/choose.sh"):
            shutil.copy2(TOP / name, clone / name)
        (clone / "crates.txt").touch()
        for name in ("noc", "noc_avx2"):
            put_program(clone, name, name.encode())
        return clone

    def test_digests_are_of_the_program_that_runs(self) -> None:
        """The launcher of a clone runs one of two programs. A sweep goes on with the same one, and not where it has
        changed."""
        clone = self.clone()
        studies = [clone / name for name in ("small.toml", "larger.toml")]
        studies[0].write_text(SMALL)
        studies[1].write_text(SMALL.replace("seed = [1, 2]", "seed = [1, 2, 3]"))
        command = [sys.executable, "noc-tools", "sweep"]
        given: Any = {"cwd": clone, "env": self.environment, "capture_output": True, "text": True}
        for _ in range(2):
            first = subprocess.run([*command, studies[0], "--out", "one"], **given)
            self.assertEqual(first.returncode, 0, first.stderr)
            studies[0].write_text(SMALL.replace("load = [0.6, 0.1]", "load = [0.6, 0.1, 0.2]"))
        which = subprocess.run(["./noc", "--which"], **given).stdout.removesuffix("\n")
        digest = hashlib.sha256(Path(which).read_bytes()).hexdigest()[:16]
        put_program(clone, Path(which).name, b"another")
        second = subprocess.run([*command, studies[1], "--out", "one"], **given)
        self.assertEqual([row["program_digest"] for row in rows_of(clone / "one" / "results.csv")], [digest] * 12)
        self.assertEqual(second.returncode, 1)
        self.assertIn(f"results of the program {digest}", second.stderr)

    def test_a_script_that_names_no_program_is_refused(self) -> None:
        """In the place of the program, one that passes the word on to a program that does not know it."""
        environment = self.in_place_of_the_program('#!/bin/bash\nexec "$PROGRAM" "$@"\n')
        ran = self.sweep("small.toml", "--out", "unnamed.out", env=environment)
        self.assertRefused(ran, "--which does not say which program it runs", "sweep")

    def test_results_of_another_program_are_refused(self) -> None:
        self.sweep("small.toml", "--out", "one.out")
        lines = lines_of(self.folder / "one.out" / "results.csv")
        path = self.folder / "other.out" / "results.csv"
        path.parent.mkdir()
        digest = hashlib.sha256(PROGRAM.read_bytes()).hexdigest()[:16]
        path.write_text("\n".join([lines[0], *(line.replace(digest, "0" * 16) for line in lines[1:4])]) + "\n")
        ran = self.sweep("small.toml", "--out", "other.out")
        self.assertRefused(ran, "results of the program 0000000000000000", "sweep")
        self.assertEqual(len(lines_of(path)), 4)
