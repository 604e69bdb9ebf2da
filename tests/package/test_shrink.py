"""The smallest jam: what delta debugging leaves of rows, and which packets get stuck on networks that have a circle."""
import unittest
from collections.abc import Callable
from dataclasses import replace
from pathlib import Path
from random import Random
from time import sleep
from typing import Any
from unittest.mock import patch

from support import HEADER, LINE, TOP, FolderTest

from noc_tools import jam, program
from noc_tools.network import Network
from noc_tools.ranks import table_file
from noc_tools.relation import Channels, Relation, checked_relation
from noc_tools.rules import nearer_ports
from noc_tools.traffic import Demand, Row, numbers_in, read_traffic, traffic_text

RING = Network("torus", (4,), 1, 1, 1, "dor", 60)
# Each of them holds one of the four channels of the ring, whichever way it is cut.
OF_THE_RING = [(0, 2, 0, 1, 0), (1, 3, 0, 1, 0), (2, 0, 0, 1, 0), (3, 1, 0, 1, 0)]


def rows_of(path: Path) -> list[Row]:
    """The packets of a traffic file."""
    return [numbers_in(row) for row in read_traffic(path)]


def minimal_adaptive(network: Network) -> str:
    """The table by which packets may go any minimal way on all channels, without an escape."""
    channels = Channels(network)

    def permitted(message_class: int, _: int, router: int, destination: int) -> list[int]:
        ports = nearer_ports(network, router, destination)
        return [channels.number(router, port, vc) for port in ports for vc in network.block(message_class)]

    return "".join(f"{line}\n" for line in table_file(Relation(channels, permitted)))


class OfRows(unittest.TestCase):
    """Rows with a predicate in the place of a run; a row is known by its source."""

    def setUp(self) -> None:
        self.calls = 0

    def stuck_where(self, holds: Callable[[dict[int, int]], bool]) -> jam.First:
        """Finds the first traffic whose sources and lengths are such that it holds; those looked at are counted."""
        def is_stuck(variant: jam.Variant) -> bool:
            self.calls += 1
            return holds({row[0]: row[3] for row in variant[0]})
        return lambda variants: next(filter(is_stuck, variants), None)

    @staticmethod
    def rows(*lengths: int) -> list[Row]:
        return [(source, 99, 0, length, 0) for source, length in enumerate(lengths)]

    def test_what_is_needed_is_left(self) -> None:
        """Three of 1000, by fewer calls than one for each tenth of them."""
        first = self.stuck_where(lambda found: {3, 500, 998} <= set(found))
        left = jam.fewest(self.rows(*[1] * 1000), first)
        self.assertEqual([row[0] for row in left], [3, 500, 998])
        self.assertLess(self.calls, 100)

    def test_all_that_is_needed_is_left(self) -> None:
        left = jam.fewest(self.rows(*[1] * 5), self.stuck_where(lambda found: len(found) == 5))
        self.assertEqual(len(left), 5)

    def test_one_packet_is_left_where_each_does(self) -> None:
        left = jam.fewest(self.rows(*[1] * 7), self.stuck_where(lambda found: True))
        self.assertEqual(len(left), 1)

    def test_a_packet_that_was_needed_for_another_is_left_out(self) -> None:
        """Packet 1 is needed only as long as 2 is there."""
        needed = self.stuck_where(lambda found: 0 in found and (1 in found or 2 not in found))
        self.assertEqual([row[0] for row in jam.fewest(self.rows(1, 1, 1), needed)], [0])

    def test_lengths_fall_to_what_is_needed(self) -> None:
        first = self.stuck_where(lambda found: found[0] >= 3 and found[1] >= 17 and found[2] >= 1)
        left = jam.shortest(self.rows(64, 64, 64), first)
        self.assertEqual([row[3] for row in left], [3, 17, 1])
        self.assertLess(self.calls, 40)

    def test_a_shorter_packet_may_make_another_one_needless(self) -> None:
        """Packet 1 is needed only where packet 0 has more than two flits."""
        first = self.stuck_where(lambda found: 0 in found and (1 in found or found[0] <= 2))
        self.assertEqual(jam.smallest(self.rows(8, 1), first), self.rows(1))


class OfTrials(FolderTest):
    def outs(self, rows: list[Row], *words: object) -> list[tuple[Row, str]]:
        """The packets, each with when it is out."""
        self.put(t=traffic_text(rows))
        return [(row, found["out"]) for row, found in zip(rows, self.report("run", "c", "t", *words))]

    def excerpt_of(self, network: Network) -> jam.Excerpt:
        """The excerpt of the table by which packets may go any minimal way."""
        self.put(c=network, table=minimal_adaptive(network))
        return jam.Excerpt(checked_relation(str(self.folder / "c"), str(self.folder / "table")))

    def test_an_excerpt_of_a_table_runs_alike(self) -> None:
        """For packets of its ways, in networks with more of these than they take, and it has fewer lines."""
        random = Random(5)
        for network in (
            Network("mesh", (4, 4), 2, 2, 1, "table", 80), Network("torus", (3, 4), 2, 1, 2, "table", 80),
            Network("mesh", (2, 3, 2), 4, 2, 2, "table", 80),
        ):
            excerpt = self.excerpt_of(network)
            for nodes in (3, 5):
                some = random.sample(range(network.nodes), nodes)
                ways: list[Any] = [(*random.sample(some, 2), random.randrange(network.classes)) for _ in range(12)]
                rows: list[Any] = [
                    (*random.choice(ways), 1 + random.randrange(9), random.randrange(20)) for _ in range(90)]
                path = excerpt.file_for({row[:3] for row in rows})
                self.assertEqual(self.outs(rows, "--table", path), self.outs(rows, "--table", "table"))
                lines = [(self.folder / each).read_text().count("\n") for each in (str(path), "table")]
                self.assertLess(*lines)

    def test_an_excerpt_is_made_anew_where_it_lacks_ways_or_has_too_many(self) -> None:
        excerpt = self.excerpt_of(Network("mesh", (4, 4), 2, 2, 1, "table", 80))
        first, second, third = (0, 15, 0), (3, 12, 0), (12, 3, 0)
        texts = [Path(excerpt.file_for(ways)).read_text() for ways in (
            {first, second, third}, {first, second}, {first}, {first, second, third},
        )]
        self.assertEqual([texts[0] == text for text in texts], [True, True, False, True])

    def test_how_packets_of_different_nodes_are_numbered_makes_no_difference(self) -> None:
        """A run of those of one node after those of the other is not asked for again; the order at a node matters."""
        self.put(c=RING)
        trials = jam.Trials(RING, checked_relation(str(self.folder / "c")))
        with patch.object(jam, "call", wraps=program.call) as call:
            first, *others = OF_THE_RING
            more = 0, 1, 0, 1, 0
            for rows, runs in ([first, *others], 1), ([*others, first], 1), ([more, first], 2), ([first, more], 3):
                self.assertEqual((trials.is_stuck(rows), call.call_count), (runs == 1, runs))
        random = Random(7)
        for network in (LINE, Network("mesh", (3, 3), 2, 2, 1, "adaptive", 60)):
            self.put(c=network)
            pairs = [random.sample(range(network.nodes), 2) for _ in range(40)]
            rows = [(source, destination, 0, 1 + random.randrange(6), 0) for source, destination in pairs]
            by_node = sorted(rows, key=lambda row: row[0])
            self.assertEqual(sorted(self.outs(by_node)), sorted(self.outs(rows)))

    def test_several_runs_at_a_time_find_the_same_as_one_after_the_other(self) -> None:
        """The first traffic that gets stuck in the order of these, though others end sooner."""
        network = Network("mesh", (4, 4), 1, 2, 1, "table", 300)
        self.put(c=network, table=minimal_adaptive(network))
        relation = checked_relation(str(self.folder / "c"), str(self.folder / "table"))
        rows, found = list(Demand("uniform", 0.5, 2, cycles=40).rows(network)), []
        for width in 1, 3:
            with patch.object(jam, "free_processors", return_value=width):
                trials = jam.Trials(network, relation)
                self.assertTrue(trials.is_stuck(rows))
                found.append(jam.cut(trials, rows).rows)
        self.assertEqual(found[0], found[1])
        slow, quick, never = ([(0, node, 0, 1, 0)] for node in (1, 2, 3))

        def is_stuck(rows: list[Row]) -> bool:
            sleep(0.2 if rows == slow else 0)
            return rows != never

        with patch.object(trials, "is_stuck", is_stuck):
            in_turn = ((rows, place) for place, rows in enumerate([never, slow, quick, quick]))
            self.assertEqual(trials.first_stuck(in_turn), (slow, 1))
            self.assertIsNone(trials.first_stuck(iter([(never, 0)] * 5)))


class OfNetworks(FolderTest):
    def is_stuck(self, rows: list[Row], *words: object) -> bool:
        self.put(tried=traffic_text(rows))
        return self.noc("run", "c", "tried", *words).returncode == 5

    def look_at(self, rows: list[Row], *words: object) -> None:
        """The packets get stuck; not so without one of them, nor with one a flit shorter."""
        self.assertTrue(self.is_stuck(rows, *words))
        for number, (source, destination, message_class, length, due) in enumerate(rows):
            before, behind = rows[:number], rows[number + 1:]
            self.assertFalse(self.is_stuck(before + behind, *words))
            if 1 < length:
                shorter = source, destination, message_class, length - 1, due
                self.assertFalse(self.is_stuck([*before, shorter, *behind], *words))

    def test_a_ring(self) -> None:
        """Three packets leave a channel free, so four are needed; and a flit each holds its channel."""
        self.put(c=RING)
        said = self.said("shrink", "c", "--out", "jam")
        self.assertEqual(rows_of(self.folder / "jam"), OF_THE_RING)
        cut = "4 packets with 4 flits in all get stuck (cut from 4 packets with 256 flits in all"
        self.assertEqual(said, f"{cut}, made for a circle of 4 dependencies)\n")
        self.look_at(OF_THE_RING)

    def test_a_traffic_that_is_given(self) -> None:
        """The packets that go the other way round, a hop far, are not needed, and the others keep their order."""
        others = "".join(f"{node},{(node - 1) % 4},0,9,{due}\n" for node in range(4) for due in (0, 5))
        needed = "".join(f"{node},{(node + 2) % 4},0,7,0\n" for node in (2, 0, 3, 1))
        self.put(c=RING, t=HEADER + others + needed)
        said = self.said("shrink", "c", "t", "--out", "jam")
        self.assertEqual(rows_of(self.folder / "jam"), [OF_THE_RING[node] for node in (2, 0, 3, 1)])
        self.assertEqual(said, "4 packets with 4 flits in all get stuck (cut from 12 packets with 100 flits in all)\n")

    def test_four_turns(self) -> None:
        """Each of the four packets turns left."""
        words = "--table", "examples/turns_table.csv"
        self.said("shrink", "examples/turns.toml", *words, "--out", "jam")
        found = {row[:4] for row in rows_of(self.folder / "jam")}
        self.assertEqual(found, {(0, 3, 0, 1), (1, 2, 0, 1), (3, 0, 0, 1), (2, 1, 0, 1)})
        given = (TOP / "examples/turns_table.csv").read_text()
        of_run = "examples/turns.toml", "examples/turns.csv", "--table", "-"
        said = self.said("shrink", *of_run, "--out", "jam", given=given)
        self.assertEqual(said, "4 packets with 4 flits in all get stuck (cut from 4 packets with 32 flits in all)\n")

    def test_two_channels_on_each_link(self) -> None:
        """Both channels of each of the four links are to be held, by a packet each."""
        self.put(c=replace(RING, channels=2, buffer=2))
        self.said("shrink", "c", "--out", "jam")
        self.assertEqual(sorted(rows_of(self.folder / "jam")), sorted(OF_THE_RING * 2))

    def test_minimal_adaptive_routing_without_escape(self) -> None:
        """On 8 by 8 routers, by fewer than 250 runs, and with tables that are read in no time."""
        for channels, most in (1, 15), (2, 30), (4, 80):
            network = Network("mesh", (8, 8), channels, 2, 1, "table", 300)
            self.put(c=network, table=minimal_adaptive(network))
            sizes = []

            def call(*words: str, given: Any) -> Any:
                sizes.append(Path(words[words.index("--table") + 1]).stat().st_size)
                return program.call(*words, given=given)

            with patch.object(jam, "call", call):
                found = jam.jam_of_circle(str(self.folder / "c"), str(self.folder / "table"))
            self.assertLess(len(sizes), 250)
            self.assertLess(max(sizes), 700_000)
            self.assertLessEqual(len(found.rows), most)
            self.look_at(found.rows, "--table", "table")

    def test_a_traffic_on_a_table(self) -> None:
        """Packets of 16 flits between all nodes, of which the first hundred are enough."""
        network = Network("mesh", (6, 6), 1, 4, 1, "table", 2000)
        self.put(c=network, table=minimal_adaptive(network))
        self.put(t=self.said("traffic", "c", "uniform", "0.45", "16"))
        self.said("shrink", "c", "t", "--table", "table", "--out", "jam")
        rows, given = rows_of(self.folder / "jam"), rows_of(self.folder / "t")
        self.assertLess(len(rows), 30)
        self.look_at(rows, "--table", "table")
        # (each is one of the traffic, in its order, but for its length)
        behind = iter(given)
        for row in rows:
            self.assertTrue(any(row[:3] == other[:3] and row[4] == other[4] for other in behind))

    def test_what_is_refused(self) -> None:
        self.put(out=HEADER + "0,1,0,1,0\n")
        short = replace(RING, cycles=3)
        cases = [
            ("shrink c --out jam", LINE, "no traffic gets stuck: the network has ranks"),
            ("shrink c out --out jam", RING, "a run of out does not get stuck"),
            ("shrink c nothing --out jam", RING, "nothing: No such file or directory"),
            ("shrink nothing --out jam", RING, "nothing: No such file or directory"),
            ("shrink c --out nowhere/jam", RING, "nowhere/jam: No such file or directory"),
            ("shrink c --out jam", short, "no traffic that was made for it gets stuck within 3 cycles"),
        ]
        self.assertEachRefused((words, {"c": given}, sentence) for words, given, sentence in cases)

    def test_no_input_is_an_output(self) -> None:
        """Nor is a file that is no traffic; one that is may be replaced."""
        self.put(c=RING, t=HEADER + "".join(f"{node},{(node + 2) % 4},0,7,0\n" for node in range(4)), mine="my notes\n")
        (self.folder / "link").symlink_to("t")
        self.addCleanup((self.folder / "link").unlink)
        kept = {name: (self.folder / name).read_bytes() for name in ("c", "t", "mine", "link")}
        self.assertEachRefused([
            ("shrink c --out c", "c is an input: name another file"),
            ("shrink c t --out t", "t is an input: name another file"),
            ("shrink c t --out link", "link is an input: name another file"),
            ("shrink c --out mine", "mine is there, and is none of those that are written here: name another file"),
            ("shrink c --out examples", "examples: Is a directory"),
        ])
        self.assertEqual(kept, {name: (self.folder / name).read_bytes() for name in kept})
        self.put(jam=HEADER + "0,1,0,1,0\n")
        self.said("shrink", "c", "--out", "jam")
        self.assertEqual(rows_of(self.folder / "jam"), OF_THE_RING)
        self.assertEqual(self.said("shrink", "c", "--out", "/dev/stdout").count("\n"), 6)

    def test_what_noc_refuses(self) -> None:
        self.put(c=replace(RING, rule="table"), broken=HEADER + "0,4,0,1,0\n", ring=RING)
        lines = {"c": "fault option 4 NoTable", "ring broken": "fault network 2 BadNode row 0"}
        for words, line in lines.items():
            ran = self.tool("shrink", *words.split(), "--out", "jam")
            self.assertEqual((ran.returncode, ran.stdout, ran.stderr.splitlines()[0]), (3, "", line))
