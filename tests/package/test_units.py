"""In what loads are told: bytes of flits, bytes of payload, packets."""
import csv
import unittest

from test_sweep import SweepTest

from noc_tools import Demand
from noc_tools.study.plan import case_of
from noc_tools.units import Unit

# Packets of 8 and of 72 bytes: one and five flits of 16 bytes, or one and nine of 8.
STUDY = """\
radix = [4, 4]
channels = 4
buffer = 4
packet_bytes = "8+72"
load = 0.8
cycles = 600
cases = [
    { kind = "mesh", flit_bytes = 16, rule = "dor" },
    { kind = "torus", flit_bytes = 8, rule = "dateline" },
]
"""


class Units(unittest.TestCase):
    def test_a_packet_counts_for_what_it_is(self) -> None:
        """With flits of 16 bytes, of packets of 8, 20 or 30 bytes and of a class that has none of
        these: 20 and 30 have two flits each, so two flits stand for 25 on average."""
        sizes = (8, 20, 30)
        found = {
            name: [Unit(name, 16, sizes, (0,)).worth(*each) for each in ((0, 1), (0, 2), (1, 2))]
            for name in ("flits", "bytes", "payload", "packets")
        }
        self.assertEqual(found, {
            "flits": [1, 2, 2], "bytes": [16, 32, 32], "payload": [8, 25, 32], "packets": [1] * 3,
        })
        self.assertEqual(Unit("payload", 16, sizes, (0,)).of_a_flit(0, (1, 2, 2)), 58 / 5)

    def test_lengths_follow_from_bytes(self) -> None:
        """72 bytes are five flits of 16, of which the last is half full."""
        network = ["kind=mesh", "radix=4x4", "rule=dor", "channels=1", "buffer=2"]
        given = [*network, "load=0.8", "flit_bytes=16"]
        case = case_of([*given, "packet_bytes=8+72"])
        self.assertEqual((case.words["length"], case.words["unit"]), ("1+5", "payload"))
        for words, load in (
            (["packet_bytes=8+72"], 0.8 * 6 / 80), (["packet_bytes=8+72", "unit=packets"], 0.8 * 3),
            (["length=1+5"], 0.8 / 16),
        ):
            traffic = case_of([*given, *words]).traffic
            assert isinstance(traffic, Demand)
            self.assertAlmostEqual(traffic.load, load)


class Studies(SweepTest):
    FILES = SweepTest.FILES | {
        "m.toml": STUDY, "p.toml": STUDY.replace("load = 0.8", 'load = 0.02\nunit = "packets"'),
    }

    def test_padding_is_no_load(self) -> None:
        """At one load both networks get the same packets, and the measured loads are the bytes of
        these."""
        self.sweep("m.toml", "--out", "m.out")
        mesh, torus = sorted(self.results("m.out"), key=lambda row: row["kind"])
        self.assertEqual([row["length"] for row in (mesh, torus)], ["1+5", "1+9"])
        for name in ("packets", "offered"):
            self.assertEqual(mesh[name], torus[name])
        short = (5 * int(mesh["packets"]) - int(mesh["flits"])) // 4
        payload = 8 * short + 72 * (int(mesh["packets"]) - short)
        self.assertEqual(mesh["offered"], f"{payload / 16 / 200:.4f}")
        table = list(csv.DictReader((self.folder / "m.out" / "saturation.csv").open()))
        self.assertAlmostEqual(float(table[0]["capacity"]), 80 / 6, places=4)

    def test_loads_may_be_in_packets(self) -> None:
        self.sweep("p.toml", "--out", "p.out")
        for row in self.results("p.out"):
            self.assertEqual(row["offered"], f"{int(row['packets']) / 16 / 200:.4f}")
