"""What a traffic asks of links and ports, and the greatest load that these allow."""
import json
import subprocess
import unittest
from dataclasses import replace
from pathlib import Path
from tempfile import TemporaryDirectory
from typing import Any

from support import HEADER, LINE, FolderTest

from noc_tools import Demand, Network
from noc_tools.bound import (
    CUTS, SUM, Split, asked_for, bound_of, flows_of, has_one_way, sent, ways_of,
)
from noc_tools.bound import Bound, Flows, Ways
from noc_tools.measure import Experiment, kept_bound
from noc_tools.study.plan import case_of
from noc_tools.replies import Replies
from noc_tools.statistics import Window
from noc_tools.units import Unit

MESH = Network("mesh", (8, 8), 4, 4, 1, "dor", 100)
TORUS = replace(MESH, kind="torus", rule="adaptive")
# A linear programme: the least that the busiest link is asked for, over all splits; by the solver
# of another project.
SOLVER = """
import json, sys
import numpy
from scipy.optimize import linprog
from scipy.sparse import coo_matrix
kept, used, amounts, links = json.load(sys.stdin)
matrix = lambda entries, rows: coo_matrix(
    ([v for _, _, v in entries], ([r for r, _, _ in entries], [c for _, c, _ in entries])),
    shape=(rows, columns))
columns = 1 + max(c for _, c, _ in kept)
cost = numpy.zeros(columns)
cost[0] = 1
most, same = matrix(used, links), matrix(kept, len(amounts))
found = linprog(cost, most, numpy.zeros(links), same, amounts, method="highs")
print(found.fun)
"""

# An entry of a matrix: its row, its column and its value.
Entry = tuple[int, int, float]


def python_with_scipy() -> str | None:
    """A Python that has the solver, where there is one."""
    for name in ("python3", "/usr/bin/python3"):
        if subprocess.run([name, "-c", "import scipy"], capture_output=True).returncode == 0:
            return name
    return None


def flows(network: Network, pattern: str, **more: Any) -> Flows:
    """What a pattern sends at a load of 1."""
    return flows_of(Demand(pattern, 1, 4, **more), network)


def bound(network: Network, pattern: str, **more: Any) -> Bound:
    """The bound of a pattern."""
    return bound_of(ways_of(network), flows(network, pattern, **more), lambda _: 1, 1)


class OneWay(unittest.TestCase):
    def test_patterns_have_the_bounds_of_the_book(self) -> None:
        """Of a mesh of 8 by 8 by dimension order, at a load of 1. Uniform: over the link from
        column 3 to 4 of a row go the packets of 4 nodes to 32 of 63 each. Transpose: of row 0 those
        of 7 nodes turn in one corner. Bit complement: of 4 nodes all cross the middle. Tornado: 3
        hops to the right in each row, so three at once. Hot spot: a tenth of 63 nodes' packets and
        their share of the rest go to one node."""
        hot = 63 * (0.1 + 0.9 / 63)
        for pattern, most in [
            ("uniform", 4 * 32 / 63), ("transpose", 7), ("bit-complement", 4), ("bit-reverse", 7),
            ("tornado", 3), ("neighbour", 1), ("hot-spot", hot),
        ]:
            found = bound(MESH, pattern, share=0.1)
            self.assertEqual(found.way, SUM)
            self.assertAlmostEqual(1 / found.load, most, places=9, msg=pattern)

    def test_what_comes_out_is_of_the_nodes_that_send(self) -> None:
        """Eight of 64 nodes are on the diagonal of a transpose and send nothing. The packets of row
        0 come to router 0 and go on along its column: both links carry all, and the first one is
        named."""
        found = bound(MESH, "transpose")
        self.assertAlmostEqual(found.accepted, 56 / 64 / 7)
        self.assertEqual(found.link, "router 0, +1")

    def test_a_torus_has_ways_over_its_ends(self) -> None:
        """In a ring of five, by the shorter way, a packet goes one or two hops: of each node two of
        four pairs go up, over three links in all."""
        ring = Network("torus", (5,), 2, 1, 1, "dateline", 100)
        self.assertAlmostEqual(1 / bound(ring, "uniform").load, max(3 / 4, 1))
        self.assertAlmostEqual(asked_for(ways_of(ring), flows(ring, "uniform"))[0], 3 / 4)

    def test_a_permutation_is_that_of_its_seed(self) -> None:
        """Each seed has its own, which is that of its packets."""
        for seed in (1, 2):
            rows = Demand("permutation", 1, 1, seed).rows(replace(MESH, cycles=60))
            ways = {(source, goal) for source, goal, *_ in rows}
            sends = flows(MESH, "permutation", seed=seed)
            pairs = {(source, goal) for (_, goal), sources in sends.items() for source in sources}
            self.assertEqual(ways, pairs)

    def test_replies_are_asked_for_too(self) -> None:
        """Requests of two flits in class 0 from node 0, 1 and 2 of a line, answered by four in
        class 1: at a load of 1 half a packet of each node in a cycle, a half of which goes to each
        other one. From 0 to 1 go two halves of a flit, and as replies to 1 and 2 of what these sent
        to 0 two quarters of four flits: three in all."""
        line = replace(LINE, channels=2, classes=2)
        given = ways_of(line), Demand("uniform", 1, 2), (Replies(0, 1, 4, 9),)
        found = kept_bound(*given, None, Unit())
        self.assertAlmostEqual(1 / found.load, 3)
        self.assertAlmostEqual(found.accepted, (1 + 2) / 3)
        measured = kept_bound(*given, (1,), Unit())
        self.assertAlmostEqual(measured.accepted, 2 / 3)
        packets = kept_bound(*given, None, Unit("packets"))
        self.assertAlmostEqual(packets.load, 1 / 6)
        self.assertAlmostEqual(packets.accepted, (1 / 2 + 2 / 4) / 3)


class SeveralWays(unittest.TestCase):
    def test_they_are_told(self) -> None:
        """By `west-first` a packet that goes west has one way to its column, and none of a row has
        a choice."""
        found = {
            (rule, pattern): has_one_way(ways_of(replace(MESH, rule=rule)), flows(MESH, pattern))
            for rule in ("dor", "west-first", "adaptive")
            for pattern in ("uniform", "tornado", "neighbour")
        }
        one_way = {key for key, is_one in found.items() if is_one}
        self.assertEqual(one_way, {("dor", "uniform"), ("dor", "tornado"), ("dor", "neighbour")})

    def test_a_corner_has_two_links(self) -> None:
        """Of a mesh of 2 by 2 each node sends all to the opposite corner: half by each way fills
        half of each link, and its port is full."""
        square = Network("mesh", (2, 2), 2, 1, 1, "adaptive", 100)
        found = bound(square, "bit-complement")
        self.assertEqual(found.way, CUTS)
        self.assertAlmostEqual(found.load, 1)

    def test_prices_come_near_the_best_split(self) -> None:
        """As a solver of linear programmes finds it: never below, and at most 2 percent above."""
        name = python_with_scipy()
        if name is None:
            print("left out: no scipy to compare with")
            return
        for network in (replace(MESH, rule="west-first"), replace(MESH, rule="adaptive"), TORUS):
            for pattern in ("uniform", "transpose", "bit-reverse", "tornado", "shuffle"):
                with self.subTest(network=network.kind, rule=network.rule, pattern=pattern):
                    sends = flows(network, pattern)
                    programme = json.dumps(programme_of(ways_of(network), sends))
                    ran = subprocess.run([name, "-c", SOLVER], input=programme, capture_output=True, text=True)
                    ports = max(sum(sources.values()) for sources in sends.values())
                    best = 1 / max(float(ran.stdout), ports, 1 if pattern != "uniform" else 0)
                    found = bound(network, pattern).load
                    self.assertLessEqual(best - 1e-9, found)
                    self.assertLessEqual(found, 1.02 * best)

    def test_a_table_has_the_ways_of_its_rule(self) -> None:
        """The balanced dateline of a ring takes other channels, but the links of the plain one."""
        settings = ["kind=torus", "radix=5", "channels=2", "buffer=1", "length=1", "load=0.1"]
        plain = case_of([*settings, "rule=dateline"]).experiment
        with TemporaryDirectory(prefix="noc-test-") as folder:
            case = case_of([*settings, "rule=dateline-balanced"]).with_table(Path(folder))
            found = case.experiment.bound
        self.assertAlmostEqual(found.load, plain.bound.load)
        self.assertEqual(found.way, SUM)


def programme_of(ways: Ways, sends: Flows) -> tuple[list[Entry], list[Entry], list[float], int]:
    """The linear programme of a split: what is kept at each place, what each link is used for, and
    what is sent."""
    kept, used, columns = [], [], 1
    amounts: list[float] = []
    split = Split(ways, sends)
    for steps, sources in split.goals:
        rows = {place: len(amounts) + number for number, (place, _) in enumerate(steps)}
        amounts += [sources.get(place, 0.0) for place, _ in steps]
        for place, onward in steps:
            for link, following in onward:
                kept.append((rows[place], columns, 1.0))
                if following in rows:
                    kept.append((rows[following], columns, -1.0))
                used.append((link, columns, 1.0))
                columns += 1
    used += [(link, 0, -1.0) for link in range(len(split.links))]
    return kept, used, amounts, len(split.links)


class Runs(FolderTest):
    def test_a_window_asks_of_its_busiest_link(self) -> None:
        """Of a line of three nodes: five flits over the link from 0 to 1, and six into node 2, of
        which three are due behind the window of ten cycles."""
        rows = [(0, 2, 0, 3, 2), (0, 1, 0, 2, 3), (1, 2, 0, 3, 12)]
        asked = asked_for(ways_of(LINE), sent(row[:4] for row in rows))
        self.assertEqual((asked[0], max(asked)), (5, 6))
        experiment = Experiment(LINE, Demand("uniform", 0.1, 1), Window(2, 12))
        self.assertEqual(experiment.asked_in(rows, Window(2, 12)), 0.5)

    def test_a_limit_names_the_busiest(self) -> None:
        """Of eight flits three go over each link to node 1, and six come out there."""
        self.put(t=HEADER + "0,1,0,3,0\n2,1,0,3,0\n1,0,0,2,0\n")
        said = self.said("limit", "c", "t")
        told = "; the port by which node 1 receives carries 6 flits\n"
        self.assertTrue(said.endswith(told), said)
        self.put(t=HEADER + "0,2,0,3,0\n0,1,0,2,0\n2,1,0,1,0\n1,2,0,1,0\n")
        self.assertTrue(self.said("limit", "c", "t").endswith("; router 0, +0 carries 5 flits\n"))

    def test_a_curve_says_what_is_above(self) -> None:
        """The bound of a transpose on a mesh of 8 by 8 is 1/7."""
        self.put(c=replace(MESH, cycles=600))
        ran = self.tool("load", "c", 2, 0.1, 0.15, "--pattern", "transpose")
        rows = [dict(zip(ran.stdout.splitlines()[0].split(","), line.split(","))) for line in
                ran.stdout.splitlines()[1:]]
        bounds = {(row["bound"], row["bound_load"]) for row in rows}
        self.assertEqual(bounds, {("0.1250", "0.1429")})
        told = "1 of 2 loads are above the bound of the pattern, 0.1429: "
        told += "router 0, +1 is asked for more than a flit in a cycle\n"
        self.assertIn(f"noc-tools load: {told}", ran.stderr)
        self.assertLess(float(rows[0]["asked"]), float(rows[1]["asked"]))
