"""What a notebook finds in the package: values by hand and beside the commands, frames, figures,
and the example."""
import csv
import json
import os
import subprocess
import sys
import unittest
from contextlib import chdir
from dataclasses import asdict, replace
from importlib.util import find_spec
from typing import Any

from support import IN_THE_WAY, LINE, PROGRAM, TOP, FolderTest
from test_waves import AT_ROUTER_1

import noc_tools
from noc_tools import Demand, Network, Packet, Refused, Study
from noc_tools.findings import COLUMNS

HAS_JUPYTER = all(map(find_spec, ("nbclient", "ipykernel", "pandas", "matplotlib")))
SETTINGS: dict[str, Any] = {
    "kind": "mesh", "radix": (4, 4), "rule": ["dor", "adaptive"], "channels": 2, "buffer": 2, "length": 2,
    "load": "0.1:0.5:0.2", "seed": (1, 2), "cycles": 200,
}
AS_A_FILE = """\
kind = "mesh"
radix = [4, 4]
rule = ["dor", "adaptive"]
channels = 2
buffer = 2
length = 2
load = "0.1:0.5:0.2"
seed = [1, 2]
cycles = 200
"""
# In a process of its own, where nothing has these libraries.
WITHOUT = """
import sys
sys.modules["pandas"] = sys.modules["matplotlib"] = None
import noc_tools
one = {"channels": 1, "buffer": 1, "length": 1, "load": 0.1}
study = noc_tools.Study({"kind": "mesh", "radix": [2], "rule": "dor", **one})
for wanted in (study.frame, study.figure, noc_tools.run("c", "t").frame):
    try:
        wanted()
    except noc_tools.Refused as reason:
        print(reason)
"""


class Number(int):
    """A number as another library has it, which is no integer of Python's own to those who look
    at the type."""

    def tolist(self) -> int:
        return int(self)


class Values(FolderTest):
    FILES = {"c": LINE, "t": IN_THE_WAY, "study.toml": AS_A_FILE}

    def setUp(self) -> None:
        super().setUp()
        self.run_made = noc_tools.run(self.folder / "c", self.folder / "t")

    def test_a_network_has_defaults(self) -> None:
        self.assertEqual(Network(), Network("mesh", (8, 8), 2, 4, 1, "dor", 3000))
        radix: Any = [3]
        self.assertEqual(Network(radix=radix, channels=1, buffer=2, cycles=20), LINE)
        self.assertEqual(replace(LINE, buffer=Number(2), radix=[Number(3)]).text(), LINE.text())
        self.assertEqual(noc_tools.run(Network(), Demand("uniform", 0.001, 1)).status, 0)

    def test_a_latency_is_a_field(self) -> None:
        """So it is a column of a table of packets, and stays right in a changed one."""
        packet = self.run_made.packets[2]
        self.assertEqual((packet.latency, asdict(packet)["latency"]), (17, 17))
        self.assertEqual((replace(packet, out=9).latency, Packet(0, 1, 2, 0, 1, 5).latency), (9, None))

    def test_a_run_is_shown(self) -> None:
        """Latencies of 10, 5 and 17 cycles; a run that was not made calls no program."""
        self.assertEqual(repr(self.run_made), "<Run of a mesh of 3, dor: 3 packets, 3 out, mean latency 10.67>")
        shown = self.run_made._repr_html_()
        values = "".join(f"<td>{value}</td>" for value in (3, 3, "10.67", 10, 17, 17, 17, "done"))
        self.assertIn("<th>p99 latency</th>", shown)
        self.assertIn(values, shown)
        unmade = noc_tools.Run(LINE, self.folder / "t")
        self.assertEqual(repr(unmade), "<Run of a mesh of 3, dor: 3 packets, not made yet>")
        self.assertNotIn("<table>", unmade._repr_html_())
        ring = noc_tools.run(TOP / "examples/ring.toml", TOP / "examples/ring.csv")
        self.assertEqual(repr(ring), "<Run of a torus of 4, dor: 4 packets, 0 out, stuck>")
        self.assertIn("<td>stuck</td>", ring._repr_html_())

    def test_figures_are_of_a_window(self) -> None:
        """Five flits for three nodes in twenty cycles. Packet 0 waits for none, and packet 2 for
        it to come in."""
        figures = self.run_made.figures()
        self.assertEqual((figures.packets, figures.flits, figures.offered), (3, 5, 5 / 60))
        self.assertEqual((figures.latency.mean, figures.latency.p99, figures.hops.max), (32 / 3, 17, 2))
        self.assertEqual(self.run_made.figures((0, 5)).offered, 5 / 15)
        self.assertEqual(self.run_made.figures((1, 20)).packets, 0)
        by_source = self.run_made.grouped("source")
        self.assertEqual({node: each.flits for node, each in by_source.items()}, {0: 4, 1: 1})
        self.assertEqual({hops: each.packets for hops, each in self.run_made.grouped("distance").items()}, {1: 1, 2: 2})
        for window in (5, 3), (0, 21), (-1, 3):
            with self.assertRaisesRegex(Refused, "a window is A:B with A below B"):
                self.run_made.figures(window)

    def test_figures_are_those_of_the_command(self) -> None:
        """Of a run that drained too."""
        for drain in False, True:
            run = noc_tools.run(replace(LINE, cycles=8), self.folder / "t", drain=drain)
            self.put(c=replace(LINE, cycles=8))
            said = self.said("latency", "c", "--traffic", "t", "--by", "source", *["--drain"] * drain, "--json")
            found = {each.pop("group"): each for each in json.loads(said)["figures"]}
            self.assertEqual(found.pop("all"), run.figures((0, 8)).columns())
            grouped = {f"source {node}": each.columns() for node, each in run.grouped("source", (0, 8)).items()}
            self.assertEqual(found, grouped)

    def test_each_channel_is_counted(self) -> None:
        """Router 1 by port -0, cycle by cycle as its life is worked out in test_waves."""
        (row,) = [row for row in self.run_made.stalls if (row["router"], row["port"]) == (1, "-0")]
        says = [(0, "Empty"), *((cycle, verdict) for cycle, verdict, *_ in AT_ROUTER_1), (20, "")]
        expected = dict.fromkeys(list(row)[3:], 0)
        for (first, verdict), (end, _) in zip(says, says[1:]):
            expected[COLUMNS[verdict]] += end - first
        self.assertEqual(row, {"router": 1, "port": "-0", "vc": 0, **expected})
        self.assertEqual(sum(expected.values()), 20)


class Questions(FolderTest):
    def test_a_load_curve(self) -> None:
        """Of two routers a packet alone takes five cycles. The rows are those of the command."""
        pair = Network(radix=(2,), cycles=400)
        self.assertEqual(noc_tools.load(pair, 1, [0.01], jobs=1)[0]["max"], 5)
        self.put(c=replace(LINE, channels=2, cycles=300))
        words = ["load", "c", "1+4", "0.1:0.5:0.2", "--seed", 7, "--pattern", "tornado", "--window", "50:250"]
        given = list(csv.DictReader(self.said(*words, "--runs", 2).splitlines()))
        how: dict[str, Any] = {"window": (50, 250), "runs": 2, "jobs": 2, "seed": 7}
        found = noc_tools.load(self.folder / "c", (1, 4), "0.1:0.5:0.2", "tornado", **how)
        self.assertEqual([list(row) for row in found], [list(row) for row in given])
        for row, expected in zip(found, given, strict=True):
            for name, value in row.items():
                word = expected[name]
                number = isinstance(value, (int, float))
                self.assertEqual(value, float(word) if number else None if word == "-" else word, name)

    def test_what_a_load_curve_refuses(self) -> None:
        cases: list[tuple[dict[str, Any], str]] = [
            ({"loads": [9]}, "a load is 0 or more, and at most the length of a packet"),
            ({"loads": [0.1], "pattern": "wave"}, "there is no pattern 'wave'"),
            ({"loads": [0.1], "window": (9, 3)}, "a window is A:B"), ({"loads": [0.1], "jobs": 0}, "one job"),
            ({"loads": [0.1], "runs": 0}, "at least one run is made of each load"),
        ]
        for given, sentence in cases:
            with self.assertRaisesRegex(Refused, sentence):
                noc_tools.load(LINE, 4, **given)

    def test_ranks_are_found_and_checked(self) -> None:
        """Those of the command, also as escape channels; noc refuses others, by its line and
        status."""
        adaptive = Network("mesh", (3, 3), 3, 2, 1, "adaptive", 100)
        cases: list[tuple[Network, str, dict[str, Any]]] = [
            (LINE, "", {}), (adaptive, "--escape 0", {"escape": (0,)}), (adaptive, "--escape", {"escape": ()}),
        ]
        for network, words, given in cases:
            self.put(c=network)
            rows = list(csv.DictReader(self.said("ranks", "c", *words.split()).splitlines()))
            found = noc_tools.ranks_of(network, **given)
            self.assertEqual([{name: "adaptive" if value is None else str(value) for name, value in row.items()}
                              for row in found], rows)
            self.assertEqual(noc_tools.check(network, found), "accepted")
        self.assertEqual(noc_tools.ranks_of(adaptive), noc_tools.ranks_of(adaptive, escape=()))
        self.assertEqual(noc_tools.check(LINE), "accepted")
        with self.assertRaises(Refused) as caught:
            noc_tools.check(LINE, [{**row, "rank": 1} for row in noc_tools.ranks_of(LINE)])
        self.assertRegex(str(caught.exception), "^fault rank 2 NotRising")
        with self.assertRaisesRegex(Refused, "there are no ranks: these steps close a circle"):
            noc_tools.ranks_of(TOP / "examples/ring.toml")

    def test_a_table_is_taken(self) -> None:
        """That of four left turns has a circle."""
        files = TOP / "examples/turns.toml", TOP / "examples/turns_table.csv"
        with self.assertRaisesRegex(Refused, "close a circle"):
            noc_tools.ranks_of(*files)
        with self.assertRaisesRegex(Refused, "fault rank"):
            noc_tools.check(files[0], TOP / "examples/turns_ranks.csv", files[1])

    def test_a_certificate_is_that_of_the_command(self) -> None:
        """By formula, found, and by ranks that are given; a folder with files is refused."""
        self.put(c=LINE)
        cases: list[tuple[str, str, dict[str, Any]]] = [
            ("formula", "", {}), ("found", "--find", {"find": True}),
            ("given", "--ranks ranks.csv", {"ranks": noc_tools.ranks_of(LINE)}),
        ]
        for name, words, given in cases:
            (self.folder / "ranks.csv").write_text(self.said("ranks", "c"))
            self.said("certify", "c", "--out", name, *words.split())
            page = noc_tools.certify(LINE, self.folder / f"{name}.too", **given)
            here, there = self.folder / name, self.folder / f"{name}.too"
            self.assertEqual(page, there / "certificate.html")
            self.assertEqual({path.name: path.read_bytes() for path in there.iterdir()},
                             {path.name: path.read_bytes() for path in here.iterdir()})
        with self.assertRaisesRegex(Refused, "is there, and is no empty folder"):
            noc_tools.certify(LINE, self.folder / "found")


class Studies(FolderTest):
    FILES = {"c": LINE, "t": IN_THE_WAY, "study.toml": AS_A_FILE}

    def test_a_dict_is_a_study(self) -> None:
        """With tuples, and numbers of other libraries, as in a file; its folder goes with it, or
        is one that is named."""
        with Study(self.folder / "study.toml", self.folder / "file.out") as study:
            rows = study.make(2).rows()
        settings = {**SETTINGS, "channels": Number(2), "seed": [Number(1), Number(2)]}
        made = Study(settings).make(2)
        folder = made.folder
        self.assertEqual((made.rows(), (folder / "results.csv").exists()), (rows, True))
        self.assertEqual(repr(made), f"<Study of 12 runs, 12 with results in {folder}>")
        self.assertEqual(made._repr_html_().count("<tr>"), 3)
        made.close()
        del made
        self.assertFalse(folder.exists())
        with Study(SETTINGS, self.folder / "file.out") as study:
            self.assertEqual(study.open_cases(), [])
        self.assertEqual(settings["seed"], [1, 2])

    def test_files_that_a_dict_names_lie_here(self) -> None:
        """In the folder where it is made, and what is wrong is said of the study."""
        with chdir(self.folder):
            network = {name: SETTINGS[name] for name in ("kind", "radix", "channels", "buffer", "cycles")}
            study = Study({**network, "rule": "dor", "traffic": "t"})
        self.assertEqual([case.words["traffic"] for case in study.cases], [str((self.folder / "t").resolve())])
        unknown: tuple[dict[str, Any], str] = {"lode": 1}, "study has an unknown setting 'lode'"
        for wrong, sentence in unknown, ({"seed": 0.5}, "study: 'seed'"):
            with self.assertRaisesRegex(Refused, sentence):
                Study({**SETTINGS, **wrong})

    def test_libraries_are_wanted_only_where_they_are_called(self) -> None:
        ran = self.called([sys.executable, "-c", WITHOUT], env={**self.environment, "NOC": str(PROGRAM)})
        told = "{} needs {}, which the extra 'plots' of noc_tools brings"
        self.assertEqual(ran.stdout.splitlines(), [
            told.format("a frame", "pandas"), told.format("a figure", "matplotlib"), told.format("a frame", "pandas"),
        ], ran.stderr)


@unittest.skipUnless(find_spec("pandas"), "there is no pandas here")
class Frames(FolderTest):
    def setUp(self) -> None:
        super().setUp()
        self.run_made = noc_tools.run(self.folder / "c", self.folder / "t")

    def test_packets_are_rows(self) -> None:
        frame = self.run_made.frame()
        self.assertEqual(list(frame.columns), "source destination class length due out latency hops".split())
        self.assertEqual(frame.values.tolist(), [
            [0, 2, 0, 1, 0, 10, 10, 2], [1, 2, 0, 1, 0, 5, 5, 1], [0, 2, 0, 3, 0, 17, 17, 2],
        ])
        cut = noc_tools.run(replace(LINE, cycles=6), self.folder / "t").frame()
        self.assertEqual((cut.latency.isna().tolist(), cut.latency.sum()), ([True, False, True], 5))

    def test_channels_are_rows(self) -> None:
        frame = self.run_made.frame("stalls")
        rows = frame.reset_index().to_dict("records")
        self.assertEqual(rows, self.run_made.stalls)
        self.assertEqual(frame.loc[1, "-0", 0].sum(), 20)

    def test_a_trace_is_rows(self) -> None:
        """Those of the findings, a missing value for what is none."""
        frame = self.run_made.frame("trace", router=1, first=4, last=6)
        found = list(self.run_made.trace(router=1, first=4, last=6))
        rows = [
            (row.cycle, row.router, f"{row.port}.{row.vc}", row.verdict, None if row.packet is NOTHING else row.packet)
            for row in frame.astype(object).where(frame.notna(), NOTHING).itertuples()
        ]
        self.assertEqual(rows, [tuple(each)[:5] for each in found])
        self.assertEqual(len(frame.verdict.cat.categories), 10)
        with self.assertRaisesRegex(Refused, "a frame is of packets, stalls, trace, not of 'runs'"):
            self.run_made.frame("runs")

    def test_a_study_is_rows(self) -> None:
        """Numbers are numbers, also where all of them are missing."""
        study = Study(SETTINGS).make(2)
        frame, table = study.frame(), study.frame("table")
        self.assertEqual((len(frame), len(table)), (12, 2))
        self.assertEqual(frame["mean"].tolist(), [row["mean"] for row in study.rows()])
        self.assertEqual({str(frame[name].dtype) for name in ("load", "mean", "queue_mean", "share")}, {"float64"})
        self.assertEqual(frame.groupby("rule")["load"].count().to_dict(), {"dor": 6, "adaptive": 6})


NOTHING = object()


@unittest.skipUnless(find_spec("matplotlib"), "there is no matplotlib here")
class Figures(FolderTest):
    def setUp(self) -> None:
        super().setUp()
        self.study = Study(SETTINGS).make(2)

    def test_a_figure_fits_a_column(self) -> None:
        """3.5 inches, and each letter of 8 points; two curves at the means over the seeds, and a
        legend of both."""
        figure = self.study.figure()
        self.assertEqual(figure.get_size_inches()[0], 3.5)
        texts = [each for each in figure.findobj(lambda part: hasattr(part, "get_fontsize")) if each.get_text()]
        self.assertEqual({each.get_fontsize() for each in texts}, {8})
        names = [each.get_text() for each in figure.legends[0].get_texts()]
        (place,) = figure.axes
        lines = [line for line in place.lines if len(line.get_xdata()) > 1 and line.get_gid() != "bound"]
        self.assertEqual((names, len(lines)), (["dor", "adaptive"], 2))
        for name, line in zip(names, lines):
            rows: list[dict[str, Any]] = [row for row in self.study.rows() if row["rule"] == name]
            means = [sum(row["mean"] for row in rows if row["load"] == load) / 2 for load in (0.1, 0.3, 0.5)]
            self.assertEqual(list(line.get_ydata()), means)
        self.assertTrue(figure.caption.startswith("Latency against accepted load: mesh, 4x4, 2 channels"))

    def test_a_point_is_hollow_where_packets_are_left(self) -> None:
        """In the runs of one of its seeds at least."""
        marks = [line for line in self.study.figure(top=9999).axes[0].lines if len(line.get_xdata()) == 1]
        rows: list[dict[str, Any]] = self.study.rows()
        left = {(row["rule"], row["load"]) for row in rows if row["out"] < row["packets"]}
        points = [(rule, load) for rule in SETTINGS["rule"] for load in (0.1, 0.3, 0.5)]
        self.assertEqual([mark.get_markerfacecolor() == "white" for mark in marks], [point in left for point in points])
        self.assertIn(len(left), range(1, 6))

    def test_the_bound_of_a_pattern_is_shown(self) -> None:
        """Of the 16 nodes of a mesh 8 send 8 of 15 packets over the four links across the
        middle."""
        figure = Study({**SETTINGS, "load": [0.1, 0.5, 1]}).make(2).figure("accepted", "offered")
        bounds = [line.get_xdata()[0] for line in figure.axes[0].lines if line.get_gid() == "bound"]
        self.assertEqual(bounds, [round(4 / (8 * 8 / 15), 4)])
        self.assertIn("Upright: the bound of the pattern.", figure.caption)

    def test_a_point_says_how_well_it_is_known(self) -> None:
        """An interval, and an arrow where percentiles are not known from the next load on."""
        study = Study({**SETTINGS, "load": [0.1, 0.5, 1], "cycles": 900}).make(2)
        figure = study.figure("p95", "load", top=1000)
        unknown = {row["rule"] for row in study.rows() if row["p95"] is None}
        arrows = [text for text in figure.axes[0].texts if text.arrow_patch]
        self.assertEqual((len(arrows), len(unknown)), (2, 2))
        self.assertIn("Arrow: the next point is not known.", figure.caption)
        bars = [bar for bar in figure.axes[0].collections if len(bar.get_segments()) == 1]
        self.assertTrue(bars)
        self.assertIn("Bar: 95 percent interval of confidence.", figure.caption)

    def test_a_network_that_can_deadlock_is_named(self) -> None:
        """A ring by dimension order stands still under much traffic: its points are crosses."""
        ring = {"kind": "torus", "radix": [6], "rule": "dor", "channels": 1, "load": 0.9, "length": 16, "cycles": 1500}
        study = Study({**SETTINGS, **ring}).make(1)
        figure = study.figure("accepted", "offered")
        self.assertEqual([row["stuck"] for row in study.rows()], ["yes", "yes"])
        self.assertEqual([each.get_text() for each in figure.legends[0].get_texts()], ["all (can deadlock)"])
        self.assertIn("x", [line.get_marker() for line in figure.axes[0].lines])

    def test_letters_of_a_file_are_text(self) -> None:
        """Fonts of Type 3 are refused by many a publisher. The same curves give the same bytes."""
        paths = [self.folder / name for name in ("one.pdf", "two.pdf", "one.svg", "two.svg", "one.png")]
        for path in paths:
            self.study.figure(top=50).savefig(path)
        pdf, again, svg, same, png = [path.read_bytes() for path in paths]
        self.assertEqual((pdf, svg), (again, same))
        self.assertIn(b"/FontFile2", pdf)
        self.assertNotIn(b"/Type3", pdf)
        self.assertIn(b"/MediaBox [ 0 0 252 ", pdf)
        self.assertIn(b">adaptive</text>", svg)
        self.assertTrue(png.startswith(b"\x89PNG") and self.study.figure()._repr_png_().startswith(b"\x89PNG"))

    def test_some_curves_are_chosen(self) -> None:
        """By a setting, with frames beside one another over a page."""
        figure = self.study.figure("p95", "offered", where={"rule": "dor"}, width=7.16)
        self.assertEqual([each.get_text() for each in figure.legends[0].get_texts()], ["all"])
        both = self.study.figure(frames=["rule"], beside=2, width=7.16)
        self.assertEqual([place.get_title(loc="left") for place in both.axes], ["dor", "adaptive"])
        self.assertEqual(both.get_size_inches()[0], 7.16)
        wrong: list[dict[str, Any]] = [{"y": "mien"}, {"where": {"rule": "west-first"}}]
        for how in wrong:
            with self.assertRaisesRegex(Refused, "there is nothing to draw"):
                self.study.figure(**how)


@unittest.skipUnless(HAS_JUPYTER, "there is no Jupyter here")
class Example(FolderTest):
    def test_the_notebook_shows_what_it_shows(self) -> None:
        """Each cell runs, and its words are those that the file holds; pictures are there,
        whatever their bytes."""
        path = self.folder / "examples/notebook.ipynb"
        environment = {**self.environment, "NOC": str(PROGRAM)}
        environment["PYTHONPATH"] = os.pathsep.join([str(self.folder), os.environ.get("PYTHONPATH", "")])
        words = [sys.executable, str(TOP / "tests/package/notebook.py"), str(path)]
        ran = subprocess.run(words, env=environment, capture_output=True)
        self.assertEqual(ran.returncode, 0, ran.stderr.decode())
        made, kept = json.loads(ran.stdout), json.loads(path.read_text())
        self.assertEqual(shown_by(made), shown_by(kept))
        self.assertTrue(any("image/png" in kinds for kinds, _ in shown_by(kept)))


def shown_by(notebook: Any) -> list[tuple[list[str], str]]:
    """What the cells of a notebook show: the kinds of each output, and its words.

    Neighbouring words of one stream count as one output, since a kernel sends them in as
    many pieces as the time between two of them makes."""
    found: list[tuple[list[str], str]] = []
    for cell in notebook["cells"]:
        before = None
        for output in cell.get("outputs", []):
            data = output.get("data", {})
            words = "".join(data.get("text/plain", output.get("text", [])))
            stream = output.get("name")
            if stream is not None and stream == before:
                found[-1] = ([], found[-1][1] + words)
            else:
                found.append((sorted(data), words))
            before = stream
    return found
