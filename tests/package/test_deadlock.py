"""Deadlock is named wherever a figure is made: by commands, in results, tables and pictures."""
import csv
import unittest
import xml.etree.ElementTree as ElementTree
from dataclasses import replace

from support import SVG, FolderTest, texts_of
from test_sweep import SweepTest, lines_of

from noc_tools import Network
from noc_tools.deadlock import has_formula, has_ranks, is_deadlock_free
from noc_tools.ranks import table_file
from noc_tools.relation import Channels, Relation, of_table_rule
from noc_tools.rules import table_rule

TORUS = Network("torus", (8, 8), 1, 4, 1, "dor", 1000)
MESH = replace(TORUS, kind="mesh")
NO_RANKS = (
    "this network can deadlock: no ranks are found, and 'noc-tools ranks' shows a circle of channels\n"
)
STOOD_STILL = (
    "runs stood still: packets wait for one another in a circle, so the figures are those of a "
    "deadlock\n"
)
STUDY = """\
kind = "torus"
radix = [8, 8]
rule = ["dor", "dateline"]
channels = 2
buffer = 4
length = 8
load = [0.1, 0.3, 0.6]
cycles = 1500
search = 0.05
"""
# By a table a packet of the first turn of a circle may go on by the last one too: the column before
# the row.
TABLES = """\
kind = "mesh"
radix = [4, 4]
rule = "table"
table = ["right.csv", "wrong.csv"]
channels = 1
buffer = 2
length = 4
load = 0.1
seed = [1, 2]
cycles = 300
"""


class Answers(unittest.TestCase):
    def test_a_rule_with_a_formula_has_ranks(self) -> None:
        """Of each rule of noc that is said to have one, on networks of several sizes, the search
        finds ranks too."""
        networks = [
            Network("mesh", (3, 4), 2, 1, 2, "dor", 1),
            Network("mesh", (4, 4), 1, 1, 1, "west-first", 1),
            Network("torus", (5, 3), 2, 1, 1, "dateline", 1),
            Network("mesh", (3, 3), 4, 1, 2, "adaptive", 1),
            Network("torus", (4, 4), 3, 1, 1, "adaptive", 1),
        ]
        self.assertEqual([has_formula(network) for network in networks], [True] * 5)
        self.assertEqual([has_ranks(network, None, 0) for network in networks], [True] * 5)

    def test_dimension_order_on_a_torus_has_a_formula_nowhere(self) -> None:
        """Of three routers in a ring each is one hop from the others, so no packet goes on from a
        channel to the next; of four, packets over two hops close the ring."""
        three, four = (replace(TORUS, radix=(k,)) for k in (3, 4))
        self.assertEqual([has_formula(network) for network in (three, four)], [False] * 2)


class Commands(FolderTest):
    FILES = {"torus": TORUS, "mesh": MESH}

    def test_a_curve_says_which_runs_stood_still(self) -> None:
        """Of one channel round a torus at more than it can carry nothing moves in the end, and on a
        mesh all do."""
        pairs = ("torus", 0.7), ("mesh", 0.45)
        torus, mesh = (self.tool("load", name, 8, 0.02, load) for name, load in pairs)
        rows = [list(csv.DictReader(ran.stdout.splitlines())) for ran in (torus, mesh)]
        found = [[(row["stuck"], row["deadlock_free"]) for row in some] for some in rows]
        self.assertEqual(found, [[("no", "no"), ("yes", "no")], [("no", "yes")] * 2])
        name = "noc-tools load: "
        told = f"{name}{NO_RANKS}{name}1 of 2 {STOOD_STILL}"
        self.assertEqual((torus.returncode, torus.stderr), (5, told))
        self.assertEqual((mesh.returncode, mesh.stderr), (0, ""))

    def test_figures_of_one_run_say_it(self) -> None:
        for network, load, status, told in [
            ("torus", 0.8, 5, [NO_RANKS, f"1 of 1 {STOOD_STILL}"]), ("torus", 0.005, 0, [NO_RANKS]),
            ("mesh", 0.005, 0, []),
        ]:
            self.put(t=self.said("traffic", network, "uniform", load, 8, "--cycles", 900))
            ran = self.tool("latency", network, "--traffic", "t", "--tolerance", 1000)
            lines = ran.stderr.replace("noc-tools latency: ", "").splitlines()
            said = [line + "\n" for line in lines]
            of_deadlock = [line for line in said if "no ranks" in line or "circle" in line]
            self.assertEqual((ran.returncode, of_deadlock), (status, told))

    def test_a_curve_is_marked(self) -> None:
        """The name says that it can deadlock, and the run that stood still has two strokes that
        cross."""
        self.put(torus_curve=self.said("load", "torus", 8, 0.02, 0.8))
        self.put(mesh_curve=self.said("load", "mesh", 8, 0.02))
        words = "ring=torus_curve", "line=mesh_curve", "--y", "accepted", "--x", "load"
        root = self.drawn("curves", *words)
        crossed = [mark for mark in root.iter(f"{SVG}path") if mark.get("class") == "standstill"]
        told = {"ring (can deadlock)", "line", "stood still: packets wait for one"}
        self.assertLessEqual(told, set(texts_of(root)))
        self.assertEqual(len(crossed), 2)


class Studies(SweepTest):
    FILES = SweepTest.FILES | {"torus.toml": STUDY, "tables.toml": TABLES}

    def test_a_network_that_can_deadlock_wins_nothing(self) -> None:
        """It has figures, but keeps up with nothing, and no load is searched for it."""
        ran = self.sweep("torus.toml", "--out", "torus.out")
        dor, dateline = csv.DictReader(ran.stdout.splitlines())
        names = "keeps_up_to", "steady_to", "deadlock_free"
        self.assertEqual([dor[name] for name in names], ["-", "-", "no"])
        self.assertGreater(float(dor["saturation"]), 0)
        self.assertGreater(int(dor["stuck"]), 0)
        self.assertNotEqual(dateline["keeps_up_load"], "-")
        self.assertEqual((dateline["deadlock_free"], dateline["stuck"]), ("yes", "0"))
        told = "1 network has no ranks, so packets can wait for one another in a circle: "
        stuck = f"torus, 8x8, dor, 2 channels, 1 class ({dor['stuck']} of 3 runs stood still)"
        self.assertIn(f"noc-tools sweep: {told}{stuck}\n", ran.stderr)
        rows = self.results("torus.out")
        loads = {
            rule: len({row["load"] for row in rows if row["rule"] == rule})
            for rule in ("dor", "dateline")
        }
        self.assertEqual(loads["dor"], 3)
        self.assertGreater(loads["dateline"], 3)
        root = ElementTree.parse(self.folder / "torus.out" / "accepted.svg").getroot()
        crossed = [mark for mark in root.iter(f"{SVG}path") if mark.get("class") == "standstill"]
        self.assertLessEqual({"dor (can deadlock)", "dateline"}, set(texts_of(root)))
        self.assertEqual(len(crossed), int(dor["stuck"]) + 1)

    def test_tables_of_a_user_are_asked(self) -> None:
        """Odd-even; and with rows by which packets may turn from a row to a column everywhere."""
        network = Network("mesh", (4, 4), 1, 2, 1, "table", 300)
        right = of_table_rule(Channels(network), table_rule(network, "odd-even"))
        free = of_table_rule(Channels(network), any_minimal)
        self.put(**{"right.csv": text_of(right), "wrong.csv": text_of(free)})
        ran = self.sweep("tables.toml", "--out", "tables.out")
        self.assertEqual(ran.returncode, 0, ran.stderr)
        rows = self.results("tables.out")
        found = {row["table"].rpartition("/")[2]: row["deadlock_free"] for row in rows}
        self.assertEqual((found, len(rows)), ({"right.csv": "yes", "wrong.csv": "no"}, 4))
        self.assertIn("table wrong.csv, 1 channel", ran.stderr)

    def test_a_line_that_says_otherwise_is_not_taken(self) -> None:
        alone = STUDY.replace('["dor", "dateline"]', '"dor"').replace("search = 0.05\n", "")
        self.put(**{"one.toml": alone})
        self.sweep("one.toml", "--out", "one.out")
        path = self.folder / "one.out" / "results.csv"
        header, *lines = (line.split(",") for line in lines_of(path))
        place = header.index("deadlock_free")
        others = [[*line[:place], "yes", *line[place + 1:]] for line in lines]
        self.put(**{name: "".join(",".join(line) + "\n" for line in text)
                    for name, text in (("same", lines), ("forged", others))})
        taken, forged = (
            self.sweep("one.toml", "--out", f"{name}.out", "--collect", name)
            for name in ("same", "forged")
        )
        self.assertEqual(taken.returncode, 0, taken.stderr)
        self.assertRefused(forged, "has 'yes' as 'deadlock_free', and here it is another", "sweep")


def any_minimal(
        network: Network, message_class: int, entered: tuple[int, str, int], destination: int) -> list[tuple[str, int]]:
    """Each port that leads nearer."""
    router = entered[0]
    pairs = zip(network.coordinates(router), network.coordinates(destination))
    ports = [
        f"{'+' if x < t else '-'}{dimension}" for dimension, (x, t) in enumerate(pairs) if x != t
    ]
    return [(port, number) for port in ports for number in network.block(message_class)]


def text_of(relation: Relation) -> str:
    """The text of a table."""
    return "".join(f"{line}\n" for line in table_file(relation))


class Once(unittest.TestCase):
    def test_a_network_is_asked_once(self) -> None:
        """Whatever its buffers and its cycles."""
        has_ranks.cache_clear()
        sizes = [(buffer, cycles) for buffer in (1, 4) for cycles in (9, 90)]
        asked = [replace(TORUS, radix=(5,), buffer=buffer, cycles=cycles) for buffer, cycles in sizes]
        self.assertEqual([is_deadlock_free(network) for network in asked], [False] * 4)
        self.assertEqual(has_ranks.cache_info().misses, 1)
