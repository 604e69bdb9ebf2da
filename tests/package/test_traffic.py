"""What 'traffic', 'keys' and 'limit' print, by the definitions of the patterns and by hand from docs/MODEL.md."""
import re
from dataclasses import replace
from random import Random

from support import HEADER, LINE, SQUARE, FolderTest

from noc_tools.network import Network

# The destinations of node 13 of 8 by 8: 001101 in binary, in column 5 and row 1.
OF_13 = {
    "bit-complement": 0b110010,
    "bit-reverse": 0b101100,
    "bit-rotation": 0b100110,
    "shuffle": 0b011010,
    "transpose": 0b101001,
    "tornado": 0 + 8 * 4,
    "neighbour": 6 + 8 * 2,
}
WRONG = [
    (LINE, "shuffle 0.1 1", "no power of two"),
    (replace(LINE, radix=(2, 4)), "transpose 0.1 1", "transpose needs a square"),
    (replace(LINE, radix=(8,)), "transpose 0.1 1", "transpose needs a square"),
    (LINE, "uniform 0.1 65", "a length is 1 to 64"),
    (LINE, "uniform 1.5 1", "a load is 0 or more, and at most the length"),
    (LINE, "uniform 0.1 1 --classes 1", "the classes are 0 to 0"),
    (LINE, "hot-spot 0.1 1 --spots 3", "the nodes are 0 to 2"),
    (replace(SQUARE, cycles=900), "uniform 1 1", "more than 20000 packets"),
    (replace(LINE, radix=(999, 999, 999)), "uniform 0.1 1", "no network that noc takes"),
    (replace(LINE, channels=3, classes=2), "uniform 0.1 1", "no network that noc takes"),
    ("kind = 1 2", "uniform 0.1 1", "c is no configuration"),
    (LINE.text().replace("[3]", '"33"'), "uniform 0.1 1", "the value of 'radix' is not a list"),
]


class Patterns(FolderTest):
    FILES = {"c": SQUARE}

    def test_patterns_are_those_of_the_book(self) -> None:
        found = {pattern: {row[1] for row in self.made(pattern, 1, 8) if row[0] == 13} for pattern in OF_13}
        self.assertEqual(found, {pattern: {goal} for pattern, goal in OF_13.items()})

    def test_uniform_goes_to_all_other_nodes(self) -> None:
        """Some 50 packets from each of three nodes, of which each other node gets some."""
        self.put(c=LINE)
        goals = {(row[0], row[1]) for row in self.made("uniform", 1, 1, "--cycles", 150)}
        self.assertEqual(goals, {(source, goal) for source in range(3) for goal in range(3) if source != goal})

    def test_nodes_that_send_to_themselves_send_nothing(self) -> None:
        """Under transpose those on the diagonal."""
        sources = {row[0] for row in self.made("transpose", 1, 8)}
        self.assertEqual(sources, set(range(64)) - {9 * x for x in range(8)})

    def test_transpose_goes_over_the_diagonal(self) -> None:
        """On squares; where the radix is a power of two that is what the definition by bits says."""
        for k in 3, 4, 6, 8, 16:
            self.put(c=replace(LINE, radix=(k, k)))
            rows = self.made("transpose", 0.5, 1)
            nodes = range(k * k)
            self.assertEqual({row[0] for row in rows}, {node for node in nodes if node % k != node // k})
            self.assertEqual([], [row for row in rows if (row[0] % k, row[0] // k) != (row[1] // k, row[1] % k)])
            half = (k * k).bit_length() // 2
            if k in (4, 8, 16):
                by_bits = [row[0] >> half | row[0] << half & k * k - 1 for row in rows]
                self.assertEqual([row[1] for row in rows], by_bits)

    def test_transpose_by_bits_where_there_is_no_square(self) -> None:
        """Node 13 of 16 in a row, 1101 in binary, to 0111; on 2 by 8 too."""
        for radix in (16,), (2, 8):
            self.put(c=replace(LINE, radix=radix))
            goals = {row[1] for row in self.made("transpose", 0.5, 1) if row[0] == 13}
            self.assertEqual(goals, {0b0111}, radix)

    def test_a_third_goes_to_the_spots(self) -> None:
        """Of some 3,200 packets; nodes 3 and 4 get all but what is uniform."""
        rows = self.made("hot-spot", 1, 8, "--spots", "3,4", "--share", "0.333")
        self.assertAlmostEqual(sum(row[1] in (3, 4) for row in rows) / len(rows), 0.35, delta=0.05)
        self.assertEqual({row[1] for row in rows}, set(range(64)))

    def test_a_spot_sends_too(self) -> None:
        """To all others, and all others to it."""
        rows = self.made("hot-spot", 1, 8, "--spots", "3", "--share", "1")
        goals = [{row[1] for row in rows if (row[0] == 3) == is_spot} for is_spot in (True, False)]
        self.assertGreater(len(goals[0] - {3}), 20)
        self.assertEqual(goals[1], {3})

    def test_load_length_and_classes_are_as_asked(self) -> None:
        self.put(c=replace(SQUARE, channels=4, classes=4))
        rows = self.made("uniform", 0.5, 4, "--classes", "1,3", "--cycles", 300)
        self.assertAlmostEqual(4 * len(rows) / 64 / 300, 0.5, delta=0.04)
        self.assertEqual({row[2:4] for row in rows}, {(1, 4), (3, 4)})
        due = [row[4] for row in rows]
        self.assertEqual(due, sorted(due))
        self.assertIn(due[-1], range(281, 300))

    def test_a_seed_gives_the_same_bytes(self) -> None:
        """The first number of the Mersenne twister for the seed 1 is well known; a changed one would change each file.
        """
        one, same, other = (self.made("uniform", 0.5, 4, "--seed", seed) for seed in (7, 7, 8))
        self.assertEqual(one, same)
        self.assertNotEqual(one, other)
        self.assertEqual(Random(1).random(), 0.13436424411240122)

    def test_what_is_refused(self) -> None:
        self.assertEachRefused((f"traffic c {words}", {"c": network}, sentence) for network, words, sentence in WRONG)

    def test_too_many_packets_are_refused_early(self) -> None:
        """Of some 38 million packets no more than 20,001 are made, and it is said how many cycles fit."""
        self.put(c=Network("mesh", (16, 16), 1, 2, 1, "dor", 1_000_000))
        ran = self.called(["bash", "-c", "ulimit -v 1000000; exec ./noc-tools traffic c uniform 0.3 2"])
        self.assertEqual((ran.returncode, ran.stdout), (1, ""))
        self.assertRegex(ran.stderr, r"^noc-tools traffic: more than 20000 packets, .* \(--cycles \d+ fits\)\n$")
        fits = int(re.search(r"--cycles (\d+) fits", ran.stderr)[1])
        made = [len(self.made("uniform", 0.3, 2, "--cycles", cycles)) for cycles in (fits, fits + 1)]
        self.assertTrue(19_000 < made[0] <= 20_000)
        self.assertEqual(made[1], 0)


class Limit(FolderTest):
    def test_limits_are_those_of_the_definition(self) -> None:
        """One flit over one hop takes nine events, and is out in cycle 5; 64 flits over seven, due at 3, take 1488. All
        links on the way carry them, and the first one is named."""
        self.put(c=replace(LINE, radix=(8,)), one=HEADER + "0,1,0,1,0\n", long=HEADER + "0,7,0,64,3\n", none=HEADER)
        self.assertEqual([self.said("limit", "c", traffic) for traffic in ("one", "long", "none")], [
            "limit 9, all out after 6 cycles; router 0, +0 carries 1 flit\n",
            "limit 1491, all out after 90 cycles; router 0, +0 carries 64 flits\n",
            "limit 0, all out after 0 cycles; router 0, +0 carries 0 flits\n",
        ])


TWO = replace(LINE, radix=(2,), cycles=8)
WRONG_KEYS: list[tuple[str, Network | str, str]] = [
    ("c chanels=2", TWO, "there is no key 'chanels'"),
    ("c channels", TWO, "no KEY=VALUE"),
    ("c channels=two", TWO, "the value of 'channels' is not an integer"),
    ("c channels=2.5", TWO, "the value of 'channels' is not an integer"),
    ("c channels=true", TWO, "the value of 'channels' is not an integer"),
    ("c radix=[8,'x']", TWO, "the value of 'radix' is not a list of integers"),
    ("c rule=", TWO, "no value of TOML"),
    ("c channels=2\nbuffer=3", TWO, "no value of TOML"),
    ("c channels=2", TWO.text().replace("buffer = 2\n", ""), "the key 'buffer' is missing"),
    ("c channels=2", "kind = 1 2", "Expected newline"),
    ("nothing channels=2", TWO, "No such file"),
]


class Keys(FolderTest):
    def test_keys_are_set(self) -> None:
        """Whatever the spaces and the order of the file; the last value counts."""
        rest = 'radix=[ 2 ]\nchannels=1\nbuffer=2\nclasses=1\nrule="dor"\n'
        self.put(c='# a line\ncycles=8 # short\nkind="mesh"\n' + rest)
        text = 'kind = "mesh"\nradix = [2]\nchannels = 1\nbuffer = 2\nclasses = 1\nrule = "dor"\ncycles = 8\n'
        self.assertEqual(self.said("keys", "c"), text)
        other = text.replace("channels = 1", "channels = 4").replace("dor", "west-first")
        self.assertEqual(self.said("keys", "c", "channels=2", "channels = 4", "rule=west-first"), other)
        other = text.replace("[2]", "[16, 16]").replace("mesh", "torus")
        self.assertEqual(self.said("keys", "c", "radix=[0x10, 16]", 'kind="torus"'), other)

    def test_a_joined_text_keeps_its_traffic(self) -> None:
        rest = "---\r\n" + HEADER + "0,1,0,1,0\n---\n"
        self.put(c="\ufeff" + TWO.text().replace('"mesh"', '"\\x6desh"') + rest)
        said = self.called(["./noc-tools", "keys", "c", "buffer=16"], text=False).stdout.decode()
        self.assertEqual(said, replace(TWO, buffer=16).text() + rest)

    def test_missing_keys_may_be_set(self) -> None:
        self.put(c=TWO.text().replace("buffer = 2\n", ""))
        self.assertEqual(self.said("keys", "c", "buffer=2"), TWO.text())

    def test_what_is_refused(self) -> None:
        for words, network, sentence in WRONG_KEYS:
            with self.subTest(words=words):
                self.put(c=network)
                self.assertRefused(self.tool("keys", *words.split(" ")), sentence, "keys")
