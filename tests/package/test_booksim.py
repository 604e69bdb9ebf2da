"""Configurations of BookSim: what becomes of each key, against its manual's definitions worked out by hand."""
import unittest
from collections.abc import Callable
from random import Random

from noc_tools.booksim import Translation, settings_in, translated
from noc_tools.errors import Refused
from noc_tools.network import Network
from noc_tools.traffic import FIXED
from support import FolderTest

LEAST = "topology = mesh; routing_function = dor;"
# Where a packet goes by BookSim's own formulas, from its source, the radix of two dimensions and the bits of a node.
FORMULAS: dict[str, Callable[[int, int, int], int]] = {
    "bitcomp": lambda s, k, b: ~s & (1 << b) - 1,
    "bitrev": lambda s, k, b: int(format(s, f"0{b}b")[::-1], 2),
    "shuffle": lambda s, k, b: (s << 1) & (1 << b) - 1 | s >> (b - 1) & 1,
    "transpose": lambda s, k, b: s >> b // 2 & (1 << b // 2) - 1 | (s << b // 2) & (1 << b) - 1,
    "tornado": lambda s, k, b: sum(
        offset * ((s // offset % k + (k + 1) // 2 - 1) % k) for offset in (1, k)
    ),
    "neighbor": lambda s, k, b: sum(offset * ((s // offset % k + 1) % k) for offset in (1, k)),
}


def read(text: str) -> Translation:
    """The translation of a file that has these keys beside the least ones."""
    return translated(settings_in(f"{LEAST}\n{text}", "file"))


def kinds(found: Translation) -> dict[str, str]:
    """What becomes of each key."""
    return {note.key: note.kind for note in found.notes}


class Values(unittest.TestCase):
    def test_a_file_is_read(self) -> None:
        """Comments, several statements in a line, texts in quotes; the last value of a key counts."""
        text = 'k = 8; // k = 9;\nwatch_out="a b";\n\n k =\n4;'
        self.assertEqual(settings_in(text, "file"), {"k": "4", "watch_out": "a b"})

    def test_the_network(self) -> None:
        found = read("k = 4; n = 3; num_vcs = 6; vc_buf_size = 5; warmup_periods = 2; sample_period = 500;")
        self.assertEqual(found.network, Network("mesh", (4, 4, 4), 6, 5, 1, "dor", 3000))
        self.assertIsNone(found.made_rule)

    def test_without_its_keys_it_is_that_of_the_simulator(self) -> None:
        """An 8-ary 2-mesh with 16 channels of 8 slots, of which 8 are had, and uniform packets of one flit at 0.1."""
        found = read("")
        self.assertEqual(found.network, Network("mesh", (8, 8), 8, 8, 1, "dor", 9000))
        self.assertEqual((found.demand.pattern, found.demand.load, found.demand.lengths), ("uniform", 0.1, (1,)))
        self.assertEqual(kinds(found)["num_vcs"], "set otherwise")

    def test_the_rule(self) -> None:
        for topology, function, channels, rule, made in [
            ("mesh", "dim_order", 2, "dor", None), ("mesh", "dor_mesh", 2, "dor", None),
            ("mesh", "min_adapt", 1, "adaptive", None), ("mesh", "valiant", 1, "dor", None),
            ("torus", "dim_order", 3, "table", "dateline-even"),
            ("torus", "dim_order_bal", 4, "table", "dateline-balanced"),
            ("torus", "min_adapt_torus", 2, "adaptive", None), ("torus", "chaos", 2, "dateline", None),
        ]:
            with self.subTest(topology=topology, function=function):
                keys = f"topology = {topology}; routing_function = {function}; num_vcs = {channels};"
                found = read(keys)
                self.assertEqual((found.network.rule, found.made_rule), (rule, made))
        self.assertEqual(read("topology = torus; routing_function = dim_order; k = 5;").network.rule, "dateline")

    def test_channels_fit_the_rule(self) -> None:
        """A dateline takes an even number, and adaptive routing two on a mesh and three on a torus."""
        for keys, channels in [
            ("routing_function = min_adapt; num_vcs = 1;", 2), ("num_vcs = 1;", 1), ("num_vcs = 9;", 8),
            ("topology = torus; routing_function = min_adapt; num_vcs = 2;", 3),
            ("topology = torus; routing_function = dim_order; num_vcs = 5;", 4),
            ("topology = torus; routing_function = dim_order; num_vcs = 1;", 2),
        ]:
            with self.subTest(keys=keys):
                self.assertEqual(read(keys).network.channels, channels)

    def test_patterns_send_where_the_formulas_do(self) -> None:
        network = Network("mesh", (8, 8), 1, 1, 1, "dor", 10)
        for name, formula in FORMULAS.items():
            pattern = FIXED[read(f"traffic = {name};").demand.pattern](network)
            with self.subTest(pattern=name):
                for source in range(64):
                    self.assertEqual(pattern(Random(), source), formula(source, 8, 6))

    def test_hot_spots(self) -> None:
        """All packets go to them."""
        for words, spots, kind in [
            ("hotspot({3,60})", (3, 60), "taken over"), ("hotspot({3,60},{1,1})", (3, 60), "taken over"),
            ("hotspot(7)", (7,), "taken over"), ("hotspot", None, "set otherwise"),
            ("hotspot({3,60},{1,3})", (3, 60), "set otherwise"), ("hotspot({-1})", None, "set otherwise"),
        ]:
            with self.subTest(words=words):
                found = read(f"traffic = {words};")
                self.assertEqual((found.demand.pattern, found.demand.spots), ("hot-spot", spots))
                self.assertEqual((found.demand.share, kinds(found)["traffic"]), (1, kind))

    def test_loads_are_in_flits(self) -> None:
        for keys, load, lengths in [
            ("packet_size = 20; injection_rate = 0.005;", 0.1, (20,)),
            ("packet_size = 4; injection_rate = 0.2; injection_rate_uses_flits = 1;", 0.2, (4,)),
            ("packet_size = {{1,5}}; injection_rate = 0.1;", 0.3, (1, 5)),
            ("packet_size = {{1,5}}; packet_size_rate = {{3,1}}; injection_rate = 0.1;", 0.2, (1, 1, 1, 5)),
            ("classes = 2; packet_size = {2,5}; injection_rate = {0.1,0.2};", 0.2, (2,)),
        ]:
            with self.subTest(keys=keys):
                demand = read(keys).demand
                self.assertAlmostEqual(demand.load, load)
                self.assertEqual(demand.lengths, lengths)

    def test_bursts(self) -> None:
        """A node goes on with probability alpha and off with beta, so it is on for 1 / beta cycles."""
        for keys, burst in [
            ("injection_process = on_off; burst_alpha = 0.02; burst_beta = 0.05;", (20, 50)),
            ("injection_process = on_off(0.02,0.05);", (20, 50)), ("injection_process = bernoulli;", None), ("", None),
        ]:
            with self.subTest(keys=keys):
                self.assertEqual(read(f"injection_rate = 0.01; {keys}").demand.burst, burst)

    def test_a_buffer_is_its_part_of_an_input(self) -> None:
        self.assertEqual(read("num_vcs = 4; buf_size = 20;").network.buffer, 5)
        self.assertEqual(read("num_vcs = 4; buf_size = -1; vc_buf_size = 20;").network.buffer, 16)


class Notes(unittest.TestCase):
    def test_each_key_has_one(self) -> None:
        text = """input_speedup = 2; output_speedup = 1; internal_speedup = 1.0; watch_out = f; c = 1;
        use_read_write = 1; read_reply_size = 4; priority = none; my_key = 3; burst_r1 = 0.5;
        wait_for_tail_credit = 0; seed = 4;"""
        found = read(text)
        keys = [note.key for note in found.notes]
        self.assertEqual(len(keys), len(set(keys)))
        self.assertLessEqual(set(settings_in(text, "file")), set(keys))
        told = {key: kind for key, kind in kinds(found).items() if key in settings_in(text, "file")}
        self.assertEqual(told, {
            **dict.fromkeys(["input_speedup", "use_read_write", "wait_for_tail_credit"], "set otherwise"),
            **dict.fromkeys(["output_speedup", "internal_speedup", "priority", "seed"], "taken over"),
            **dict.fromkeys(["watch_out", "c", "read_reply_size", "my_key", "burst_r1"], "left out"),
        })

    def test_what_is_refused(self) -> None:
        for keys, sentence in [
            ("topology = fly;", "the topology is 'fly'"), ("k = 20;", "k = 20 and n = 2: noc has"),
            ("k = 8; n = 4;", "256 routers at most"), ("k = eight;", "'k' is a number"), ("k = 1.5;", "'k' is a whole"),
            ("packet_size = 65;", "packets of 1 to 64 flits"), ("packet_size = 0;", "packets of 1 to 64 flits"),
            ("k = 5; traffic = bitcomp;", "25 nodes are no power of two"), ("mesh", "is no KEY = VALUE"),
            ("injection_rate = 2;", "a load is 0 or more"), ("traffic = hotspot({a});", "is hotspot({NODE,..})"),
            ("traffic = hotspot({64});", "a spot is no node"), ("traffic = ?;", "'traffic' is a name"),
            ("injection_process = on_off; burst_alpha = 0;", "probabilities of 'on_off'"),
        ]:
            with self.subTest(keys=keys), self.assertRaises(Refused) as refused:
                read(keys)
            self.assertIn(sentence, str(refused.exception))
        with self.assertRaisesRegex(Refused, "'routing_function' is not set"):
            translated(settings_in("topology = mesh;", "file"))


class Command(FolderTest):
    FILES = {"f": LEAST + " k = 4; num_vcs = 2; vc_buf_size = 4; packet_size = 5; injection_rate = 0.01;"}

    def test_it_writes_and_says_how_to_measure(self) -> None:
        said = self.said("booksim", "f", "n.toml", "traffic=transpose", "sample_period=100").splitlines()
        self.assertEqual((self.folder / "n.toml").read_text(), Network("mesh", (4, 4), 2, 4, 1, "dor", 900).text())
        self.assertEqual(said[:3], [
            "noc-tools load n.toml 5 0.05 --pattern transpose",
            "noc-tools load n.toml 5 0.1:1:0.1 --pattern transpose > n.csv",
            "noc-tools curves n=n.csv > n.svg",
        ])
        for line in said[:3]:
            self.assertEqual(self.called(["bash", "-c", f"{'python3 ./' + line}"]).returncode, 0, line)

    def test_a_table_is_made_first(self) -> None:
        self.put(f="topology = torus; k = 4; routing_function = dim_order; num_vcs = 2; sample_period = 100;")
        said = self.said("booksim", "f", "t.toml").splitlines()
        self.assertEqual(said[0], "noc-tools table t.toml dateline-even > t_table.csv")
        self.assertEqual(said[1], "noc-tools load t.toml 1 0.1 --table t_table.csv")
        for line in said[:4]:
            self.assertEqual(self.called(["bash", "-c", f"{'python3 ./' + line}"]).returncode, 0, line)

    def test_a_file_that_is_there_stays(self) -> None:
        self.put(there="something")
        self.assertRefused(self.tool("booksim", "f", "there"), "there is there already", "booksim")
        self.assertEqual((self.folder / "there").read_text(), "something")
        for _ in range(2):
            self.assertEqual(self.tool("booksim", "f", "again.toml").returncode, 0)

    def test_what_is_refused(self) -> None:
        self.assertEachRefused([
            ("booksim nowhere c.toml", "nowhere: No such file"), ("booksim f c.toml k", "'k' is no KEY=VALUE"),
            ("booksim f c.toml topology=fly", "the topology is 'fly'"),
        ])
