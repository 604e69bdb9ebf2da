"""Latency against load: what is measured, that nothing is left of it, and its pictures."""
import os
import re
import signal
import sys
import time
from collections.abc import Callable
from dataclasses import replace
from pathlib import Path
from subprocess import PIPE, Popen, TimeoutExpired
from typing import Any

from support import LINE, SQUARE, SVG, FolderTest, texts_of
from test_statistics import FIGURES, MARGINS, PARTS

BEHIND = ["behind", "own_time", "asked", "bound", "bound_load", "stuck", "deadlock_free"]
COLUMNS = ["load", "ran", *FIGURES, "steady", *PARTS, *MARGINS, *BEHIND]


class Curves(FolderTest):
    FILES = {"c": SQUARE, "line": LINE}

    def lines(self, *words: object) -> list[list[str]]:
        """The lines of a curve as fields."""
        return [line.split(",") for line in self.said("load", *words).splitlines()]

    def by_hand(self, load: Any, length: Any, options: Any, first: int, end: int) -> list[str]:
        """The first figures of a load of 400 cycles, and the means of queue and network, from the packets of `traffic`
        and the reports of the program."""
        words = [word for option in options for word in option]
        self.put(made=self.said("traffic", "c", *words[:1], load, length, *words[1:]))
        rows = self.report("run", "c", "made")
        heads = self.report("trace", "c", "made", "--changes")
        heads = [row for row in heads if (row["port"], row["verdict"]) == ("local", "Routed")]
        came_in = {row["packet"]: int(row["cycle"]) for row in heads}
        measured = [row for row in rows if first <= int(row["due"]) < end]
        flits, places = sum(int(row["length"]) for row in measured), 64 * (end - first)
        arrived = [row for row in measured if row["out"] != "-"]
        outs = [row for row in rows if row["out"] != "-" and first <= int(row["out"]) < end]
        amounts: list[Callable[[dict[str, str]], int]] = [
            lambda row: came_in[row["packet"]] - int(row["due"]),
            lambda row: int(row["out"]) - came_in[row["packet"]],
            lambda row: int(row["latency"]),
        ]
        queue, network, latency = (sum(map(amount, arrived)) / len(arrived) for amount in amounts)
        loads = [f"{flits / places:.4f}", f"{sum(int(row['length']) for row in outs) / places:.4f}"]
        counts = ["400", len(measured), flits, len(arrived), *loads]
        return [str(load), *map(str, counts), *(f"{number:.1f}" for number in (latency, queue, network))]

    def assertMeasured(self, line: list[str], *asked: Any) -> None:
        """A line has what is worked out by hand."""
        names = [*COLUMNS[:8], "queue_mean", "network_mean"]
        self.assertEqual([line[COLUMNS.index(name)] for name in names], self.by_hand(*asked))

    def test_they_are_of_the_window(self) -> None:
        """The middle third of 400 cycles, or as asked for."""
        header, low, high = self.lines("c", 8, 0.05, 0.1)
        self.assertEqual(header, COLUMNS)
        _, other = self.lines("c", 8, 0.1, "--window", "50:300")
        self.assertMeasured(low, 0.05, 8, [("uniform",)], 133, 266)
        self.assertMeasured(high, 0.1, 8, [("uniform",)], 133, 266)
        self.assertMeasured(other, 0.1, 8, [("uniform",)], 50, 300)

    def test_they_take_the_options_of_the_traffic(self) -> None:
        self.put(c=replace(SQUARE, channels=2, classes=2))
        options = [("--seed", "5"), ("--cycles", "350"), ("--classes", "1"), ("--spots", "3,60"), ("--share", "0.5")]
        _, line = self.lines("c", 4, 0.05, "--pattern", "hot-spot", *(word for option in options for word in option))
        self.assertMeasured(line, 0.05, 4, [("hot-spot",), *options], 133, 266)

    def test_a_run_is_shortened(self) -> None:
        """It ends where one cycle more would have more packets than noc takes, and a line says so."""
        self.put(c=replace(SQUARE, cycles=3000))
        curve = self.tool("load", "c", 1, 0.48)
        row = curve.stdout.splitlines()[1].split(",")
        ran = int(row[1])
        enough, too_many = (self.tool("traffic", "c", "uniform", 0.48, 1, "--cycles", ran + more) for more in (0, 1))
        due = [int(line.split(",")[4]) for line in enough.stdout.splitlines()[1:]]
        self.assertEqual((enough.returncode, too_many.returncode), (0, 1))
        self.assertLess(ran, 3000)
        self.assertEqual(int(row[2]), sum(ran // 3 <= cycle < 2 * ran // 3 for cycle in due))
        told = "noc-tools load: noc takes 20000 packets, so 1 of 1 runs had fewer cycles than asked"
        self.assertEqual(curve.stderr, f"{told}: the shortest had {ran} of 3000\n")

    def test_a_short_warm_up_is_told(self) -> None:
        """From corner to corner are 14 hops, so a packet of four flits may take 42 + 1 + 4 cycles."""
        for window, told in ("46:200", "in 1 of 1 runs the warm-up is shorter than a packet may take alone: 46 cycles, "
                             "and 47"), ("47:200", None):
            ran = self.tool("load", "c", 4, 0.02, "--window", window)
            self.assertEqual(ran.stderr, f"noc-tools load: {told}\n" if told else "")

    def test_an_overloaded_network_is_not_steady(self) -> None:
        """A tenth to a fifth less comes out than is offered, in the middle third and in a window from a third to
        half."""
        self.put(c=replace(SQUARE, channels=8, cycles=8000))
        for window in ((), ("--window", "2666:4000")):
            _, *lines = self.lines("c", 20, 0.1, 0.34, 0.36, 0.4, *window)
            self.assertEqual([line[COLUMNS.index("steady")] for line in lines], ["yes", "no", "no", "no"])

    def test_what_a_link_does_not_carry_is_not_steady(self) -> None:
        """Seven nodes of a transpose send over one link: at a load of 0.16 more than a flit in a cycle, at 0.12 less,
        though all comes out and halves of the window are alike."""
        self.put(c=replace(SQUARE, channels=8, buffer=4, cycles=3000))
        _, *lines = self.lines("c", "1+5", 0.12, 0.16, "--pattern", "transpose")
        found = [[line[COLUMNS.index(name)] for name in ("steady", "packets")] for line in lines]
        self.assertEqual([steady for steady, _ in found], ["yes", "no"])
        self.assertEqual([line[COLUMNS.index("out")] for line in lines], [packets for _, packets in found])

    def test_what_grows_slowly_is_not_steady(self) -> None:
        """Packets of 20 flits by eight channels of two slots, of which all come out, and whose mean latency grows with
        the cycles of a run."""
        means = []
        for cycles in (3000, 12000):
            self.put(c=replace(SQUARE, channels=8, cycles=cycles))
            _, line = self.lines("c", 20, 0.3)
            self.assertEqual(line[COLUMNS.index("steady")], "no")
            self.assertGreater(int(line[COLUMNS.index("own_time")]), cycles // 3)
            means.append(float(line[COLUMNS.index("mean")]))
        self.assertLess(*means)

    def test_they_take_a_table(self) -> None:
        words = ["examples/turns.toml", 2, 0.1]
        self.assertEqual(len(self.lines(*words, "--table", "examples/turns_table.csv")), 2)
        self.assertRefusedByNoc("load examples/turns.toml 2 0.1", 3, "fault option 4 NoTable")

    def test_what_is_refused(self) -> None:
        self.assertEachRefused([
            ("load c 1 much", "a load is a number, not 'much'"),
            ("load c 1 nan", "a load is 0 or more"),
            ("load c 0 0.1", "a length is 1 to 64"),
            ("load c 1 0.1 --window 1", "a window is A:B with A below B"),
            ("load c 1 0.1 --jobs 0", "at least one job is needed"),
            ("load line 1 0.1 --pattern shuffle", "3 nodes are no power of two"),
        ])


# Stands for the program, and with packets waits for ten minutes.
SLOW = """#!/bin/bash
[ -f "$3" ] && [ "$(wc -l < "$3")" -gt 1 ] || exec "$PROGRAM" "$@"
echo "$$ $PPID" >> "$LOG"
exec sleep 600
"""


class Ends(FolderTest):
    FILES = {"c": SQUARE}

    def setUp(self) -> None:
        super().setUp()
        self.environment = self.in_place_of_the_program(SLOW)

    def ended_by(self, number: signal.Signals, log: Path) -> tuple[int, bytes]:
        """How it ends by a signal while two runs are at work, and what it says; a failure where something of it goes
        on, so that its standard error does not end."""
        started = Popen(
            [sys.executable, "noc-tools", "load", "c", "1", "0.1", "0.2", "0.3", "--jobs", "2"], cwd=self.folder,
            env=self.environment | {"LOG": str(log)}, stdout=PIPE, stderr=PIPE,
            preexec_fn=lambda: signal.signal(signal.SIGINT, signal.SIG_DFL),
        )
        late = time.monotonic() + 300
        while not (log.exists() and log.read_text().count("\n") == 2) and time.monotonic() < late:
            time.sleep(0.01)
        started.send_signal(number)
        try:
            said = started.communicate(timeout=300)[1]
        except TimeoutExpired:
            for process in {int(word) for word in log.read_text().split()}:
                os.kill(process, signal.SIGKILL)
            self.fail(f"something goes on after {number.name}")
        return started.returncode, said

    def test_nothing_is_left_behind(self) -> None:
        """A kill and an interrupt end the workers and their runs too, and the folder of their files goes."""
        for number, status in (signal.SIGTERM, 143), (signal.SIGKILL, -9), (signal.SIGINT, 130):
            with self.subTest(signal=number.name):
                temporary = self.folder / f"temporary {number.name}"
                temporary.mkdir()
                self.environment["TMPDIR"] = str(temporary)
                self.assertEqual(self.ended_by(number, self.folder / number.name), (status, b""))
                self.assertEqual(list(temporary.iterdir()), [])


# Asks for runs while it has another child, and ends after the first.
ASKS = """
import multiprocessing, time
from noc_tools import Demand, Network
from noc_tools.measure import Experiment, measured_side_by_side
from noc_tools.statistics import Window
child = multiprocessing.Process(target=time.sleep, args=(60,))
child.start()
network = Network.read("c")
asked = [Experiment(network, Demand("uniform", load, 1), Window(0, 400)) for load in (0.1, 0.1, 0.2)]
found = measured_side_by_side(asked, 2)
first = next(found)
found.close()
print(first.ran, len(multiprocessing.active_children()), child.is_alive())
child.kill()
"""


class InALibrary(FolderTest):
    def test_other_children_go_on(self) -> None:
        """Where not all runs are wanted, the workers end, and no other process."""
        self.put(c=SQUARE)
        ran = self.called([sys.executable, "-c", ASKS])
        self.assertEqual((ran.stdout, ran.stderr), ("400 1 True\n", ""))


# ---- pictures

# The mean of each part is half of the latency's.
ROWS = [
    "0.1,99,50,50,50,0.1000,0.1000,20.0,19,30,40,41,yes,10.0,0,2,3,4,10.0,19,28,37,37",
    "0.2,99,90,90,90,0.2000,0.2000,30.0,25,50,60,61,yes,15.0,5,9,9,9,15.0,20,41,51,52",
    "0.4,99,90,90,80,0.4000,0.2500,60.0,55,-,-,-,no,30.0,5,-,-,-,30.0,50,-,-,-",
]
LAST = ",5.3,5,9,9,9,0.1,0.2,0.3,2.0,-,3.0,-,0,40,0.5,0.45,0.5,no,yes"
CURVE = "".join(f"{line}\n" for line in [",".join(COLUMNS), *(f"{row}{LAST}" for row in ROWS)])


class Pictures(FolderTest):
    FILES = {"curve": CURVE}

    def marks(self, *words: object) -> list[tuple[float, float, bool]]:
        """The marks of the first curve, and whether each is filled."""
        (group,) = [group for group in self.drawn("curves", *words).iter(f"{SVG}g") if group.get("id") == "curve-0"]
        circles = group.iter(f"{SVG}circle")
        return [(float(mark.get("cx")), float(mark.get("cy")), mark.get("fill") != "#ffffff") for mark in circles]

    def test_axes_have_names_and_numbers_at_their_ends(self) -> None:
        """Upwards four times 20 cycles, or what was asked for: 47.5 is between 30 and 60 at a load of 0.317, so 0.35 is
        the other end."""
        default, given = (texts_of(self.drawn("curves", "a=curve", *more)) for more in ((), ("--top", "47.5")))
        named = {"mean latency, in cycles", "load, in flits per node and cycle", "0.4", "80"}
        self.assertLessEqual(named, set(default))
        self.assertLessEqual({"47.5", "0.35"}, set(given))
        self.assertFalse({"0.4", "80"} & set(given))

    def test_figures_lie_at_their_places(self) -> None:
        """Accepted 0.1, 0.2 and 0.25: the second step is half as long as the first, and each mark at its mean."""
        one, two, three = self.marks("a=curve", "--x", "accepted")
        self.assertAlmostEqual(two[0] - one[0], 2 * (three[0] - two[0]), delta=0.1)
        self.assertAlmostEqual(two[1] - three[1], 3 * (one[1] - two[1]), delta=0.1)
        self.assertEqual((one[2], three[2], len(self.marks("a=curve", "--y", "p95"))), (True, False, 2))
        loads = self.marks("a=curve", "--x", "offered", "--y", "accepted")
        rises = [one[1] - two[1] for one, two in zip(loads, loads[1:])]
        self.assertAlmostEqual(rises[0], 2 * rises[1], delta=0.1)

    def test_parts_of_the_latency_are_drawn(self) -> None:
        """The queue as far as it goes, and the network as far as four times its least, 40. At their mean they are
        alike."""
        names = {
            "queue_mean": ("Mean queue latency against load", "mean queue latency, in cycles", "30"),
            "network_mean": ("Mean network latency against load", "mean network latency, in cycles", "40"),
            "queue_p99": ("99th percentile of queue latency, in cycles", "10"),
            "hops_max": ("Maximum of hops against load", "maximum of hops, to the destination", "10"),
            "sources_least": ("least accepted load of a source, in flits per cycle", "0.1"),
        }
        for figure, words in names.items():
            texts = set(texts_of(self.drawn("curves", "a=curve", "--y", figure)))
            self.assertLessEqual(set(words), texts)
            self.assertEqual("40" in texts, figure == "network_mean", figure)
        queue, network = (self.marks("a=curve", "--y", f"{part}_mean", "--top", 40) for part in ("queue", "network"))
        self.assertEqual((queue, len(queue)), (network, 3))

    def test_long_names_are_whole(self) -> None:
        """At 13 points a letter of these fonts is 8.2 wide on average at most."""
        name = "a torus of eight by eight routers with a dateline, four channels of two slots, transpose"
        root = self.drawn("curves", f"{name}=curve")
        (text,) = [text for text in root.iter(f"{SVG}text") if text.text == name]
        self.assertLessEqual(float(text.get("x")) + 8.2 * len(name), float(root.get("width")))

    def test_curves_that_leave_do_not_empty_the_picture(self) -> None:
        """The curve leaves the picture between the loads 0.2 and 0.4, so the axis ends before 0.4."""
        texts = texts_of(self.drawn("curves", "a=curve", "--top", "35"))
        shown = [word for word in texts if re.fullmatch(r"0\.\d+", word)]
        self.assertEqual(len(self.marks("a=curve", "--top", "35")), 2)
        self.assertTrue(0.2 < max(map(float, shown)) < 0.3, shown)

    def test_marks_are_explained_that_are_there(self) -> None:
        """The hollow mark at a mean of 60 is not where the picture ends at 35, and none is where it ends at 15."""
        hollow, empty = "hollow: not all measured packets were", "without a point here: 1 of 1 curves"
        for words, told in ((), {hollow}), (("--top", 35), set()), (("--top", 15), {empty}):
            self.assertEqual({hollow, empty} & set(texts_of(self.drawn("curves", "a=curve", *words))), told)

    def test_bars_are_intervals(self) -> None:
        """Two cycles around means of 20, 30 and 60, which are a tenth of the first."""
        root = self.drawn("curves", "a=curve")
        bars = [(float(bar.get("y1")), float(bar.get("y2"))) for bar in root.iter(f"{SVG}line")
                if bar.get("stroke-width") == "1.2"]
        marks = [y for _, y, _ in self.marks("a=curve")]
        cycles = (marks[0] - marks[1]) / 10
        self.assertEqual([round((low - high) / cycles, 1) for low, high in bars], [4, 4, 4])
        self.assertEqual([round((low + high) / 2, 1) for low, high in bars], [round(y, 1) for y in marks])

    def test_a_curve_that_goes_on_has_an_arrow(self) -> None:
        """Behind the second of two points whose p95 is known; and the mean is known of all."""
        for figure, count in ("p95", 1), ("mean", 0):
            root = self.drawn("curves", "a=curve", "--y", figure)
            arrows = [path for path in root.iter(f"{SVG}path") if path.get("class") == "goes-on"]
            self.assertEqual(len(arrows), count)
            self.assertEqual("arrow: the next point is not known" in texts_of(root), bool(count))

    def test_the_bound_is_a_line(self) -> None:
        """At an accepted load of 0.45, beyond all points, it is not in the picture; at 0.15 between two of them it
        is."""
        self.put(low=CURVE.replace("0.5,0.45,0.5", "0.5,0.15,0.2"))
        one, two, _ = self.marks("a=low", "--x", "accepted")
        seen: dict[str, list[float]] = {"curve": [], "low": [(one[0] + two[0]) / 2]}
        for name, places in seen.items():
            root = self.drawn("curves", f"a={name}", "--x", "accepted")
            found = [float(line.get("x1")) for line in root.iter(f"{SVG}line") if line.get("class") == "bound"]
            self.assertEqual([round(x) for x in found], [round(x) for x in places])

    def test_a_shortened_run_is_told(self) -> None:
        """One line has the cycles of the shortest and of the longest run."""
        self.put(short=CURVE.replace("0.4,99", "0.4,88"))
        for words, span in (["a=short"], "88 to 99"), (["a=short", "b=curve"], "88 to 99"), (["b=curve"], "99"):
            told = f"Of the packets that were measured, in runs of {span} cycles."
            self.assertEqual(texts_of(self.drawn("curves", *words))[1], told)

    def test_what_is_refused(self) -> None:
        old = "load,ran,packets,flits,out,offered,accepted,mean,median,p95,p99,max,steady\n"
        old += "0.1,99,50,50,50,0.1000,0.1000,20.0,19,30,40,41,yes\n"
        last = f"{ROWS[-1]}{LAST}\n"
        many = " ".join(["a=curve"] * 33)
        self.assertEachRefused((f"curves {words}", {"curve": text}, sentence) for words, text, sentence in [
            ("a=curve", old, "curve is no curve of noc-tools load with all its columns"),
            ("a=curve", CURVE + "0.5,99,90\n", "curve: line 5 has not the 42 fields of the header"),
            ("a=curve", CURVE + last.replace("60.0", "much"), "curve: could not convert string to float: 'much'"),
            ("a=curve", CURVE + last.replace("60.0", "nan"), "curve: 'nan' is no number of a curve"),
            ("a=curve", CURVE.splitlines()[0] + "\n", "curve has no 'mean' that is a number"),
            ("a=curve", CURVE + last.replace("60.0", "1e300"), "curve: '1e300' is no number of a curve"),
            *((f"a=curve --top {top}", CURVE, "--top is a number above 0") for top in ("0", "1e300", "nan")),
            ("a=missing", CURVE, "missing: No such file or directory"),
            (many, CURVE, "a picture has at most 32 curves"),
        ])
