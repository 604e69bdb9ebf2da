"""The routing relation, ranks and tables of the package.

The relation is held against the program, on every rule and on random tables: the first hop that does not rise, and the
first entry without an escape, under many rank files; each entry whose rows are taken away; the channels that packets
are granted one after another; and runs that packets crowd. All else was worked out by hand.
"""
import csv
import os
import re
from collections.abc import Iterable, Iterator
from dataclasses import replace
from random import Random
from typing import Any

from support import HEADER, LINE, FolderTest

from noc_tools.network import Network
from noc_tools.ranks import NoRanks, first_found, table_file
from noc_tools.relation import TABLE_HEADER, Channels, Relation, of_network
from noc_tools.rules import dimension_order_port

RANK_HEADER = "router,port,vc,rank\n"
CROWDED = 300


def network(kind: str, radix: tuple[int, ...], channels: int, classes: int, rule: str) -> Network:
    """A network on which packets may crowd."""
    return Network(kind, radix, channels, 2, classes, rule, CROWDED)


# Networks, and the words for 'ranks' by which their rules have some,
RULES = [
    (network("mesh", (4,), 1, 1, "dor"), ""),
    (network("mesh", (3, 4), 2, 2, "dor"), ""),
    (network("mesh", (2, 3, 2), 1, 1, "dor"), ""),
    (network("torus", (5,), 2, 1, "dateline"), ""),
    (network("torus", (3, 4), 4, 2, "dateline"), ""),
    (network("torus", (2, 2), 2, 1, "dateline"), ""),
    (network("mesh", (4, 3), 2, 1, "west-first"), ""),
    (network("mesh", (3, 3), 4, 4, "west-first"), ""),
    (network("mesh", (3, 3), 2, 1, "adaptive"), "--escape"),
    (network("mesh", (3, 2, 2), 4, 2, "adaptive"), "--escape 0,2"),
    (network("torus", (3, 4), 3, 1, "adaptive"), "--escape"),
    (network("torus", (4,), 8, 2, "adaptive"), "--escape 0,1,4,5"),
]
# and rules without ranks.
CIRCLES = [
    (network("torus", (4, 3), 1, 1, "dor"), ""),
    (network("mesh", (3, 3), 2, 1, "adaptive"), ""),
    (network("torus", (4,), 3, 1, "adaptive"), "--escape 0"),
]
TABLES = [
    network("mesh", (3, 2), 1, 1, "table"), network("torus", (3,), 2, 1, "table"),
    network("mesh", (2, 2), 2, 2, "table"), network("torus", (4,), 2, 2, "table"),
    network("torus", (2, 3), 1, 1, "table"),
]


class Known:
    """What the program says of a relation, worked out from that of the package: the entries in the program's order."""

    def __init__(self, made: Relation) -> None:
        self.made, self.channels = made, made.channels
        network = self.channels.network
        self.entries = {}
        for message_class in range(network.classes):
            for destination in range(network.nodes):
                for channel, onward in made.steps(message_class, destination).items():
                    router, port, vc = self.channels.entered(channel)
                    place = self.channels.place_of_port[port]
                    self.entries[message_class, router, place, vc, destination] = channel, onward
        self.entries = dict(sorted(self.entries.items()))

    def entry(self, key: tuple[int, ...]) -> str:
        """An entry as a fault line has it."""
        message_class, router, place, vc, destination = key
        return f"class {message_class} router {router} port {self.channels.ports[place]} vc {vc} dst {destination}"

    def not_rising(self, ranks: dict[int, int]) -> str:
        """The fault line of the first hop that does not rise, where every channel has a rank."""
        for key, (channel, onward) in self.entries.items():
            for following in sorted(onward):
                if ranks[following] <= ranks.get(channel, 0):
                    _, port, vc = self.channels.parts(following)
                    numbers = f"ranks {ranks[channel]} {ranks[following]}"
                    return f"fault rank 2 NotRising {self.entry(key)} out {port} vc {vc} {numbers}\n"
        return "accepted\n"

    def no_escape(self, ranks: dict[int, int]) -> str | None:
        """The fault line of the first entry without an escape."""
        for key, (channel, onward) in self.entries.items():
            if onward and not any(following in ranks for following in onward):
                return f"fault rank 4 NoEscape {self.entry(key)}\n"
        return None

    def not_ahead(self, ranks: dict[int, int]) -> str:
        """The fault line of the first two channels of which the second has no greater rank, where some have none."""
        first = None
        for message_class in range(self.channels.network.classes):
            for destination in range(self.channels.network.nodes):
                ahead: dict[int, set[int]] = {}
                for channel, onward in reversed(self.made.steps(message_class, destination).items()):
                    ahead[channel] = set().union(*({c} if c in ranks else ahead[c] for c in onward))
                    falls = [(channel, c) for c in ahead[channel] if channel in ranks and ranks[c] <= ranks[channel]]
                    first = min([first, *falls] if first else falls, default=first)
        if first is None:
            return "accepted\n"
        (a, p, v), (b, q, w) = map(self.channels.parts, first)
        numbers = f"ranks {ranks[first[0]]} {ranks[first[1]]}"
        return f"fault rank 2 NotRising router {a} port {p} vc {v} to router {b} port {q} vc {w} {numbers}\n"


def rank_text(channels: Channels, ranks: dict[int, int]) -> str:
    """A rank file in which channels without a rank are adaptive."""
    rows = [(*channels.parts(channel), ranks.get(channel, "adaptive")) for channel in channels.links()]
    return RANK_HEADER + "".join("{},{},{},{}\n".format(*row) for row in rows)


def random_rows(channels: Channels, random: Random) -> list[tuple[Any, ...]]:
    """Rows for every entry, most of which no packet reaches: of all ways that come nearer some."""
    network = channels.network
    entered = [channels.entered(channel) for channel in channels.links()]
    entered += [(router, "local", vc) for router in range(network.nodes) for vc in range(network.channels)]
    rows: list[tuple[Any, ...]] = []
    for message_class in range(network.classes):
        for destination in range(network.nodes):
            for router, in_port, in_vc in entered:
                ports = nearer_ports(network, router, destination)
                ways = [(port, vc) for port in ports for vc in range(network.channels)]
                for port, vc in random.sample(ways, 1 + random.randrange(len(ways))):
                    rows.append((message_class, router, in_port, in_vc, destination, port, vc))
    random.shuffle(rows)
    return rows


def nearer_ports(network: Network, router: int, destination: int) -> list[str]:
    """All ports that lead nearer to a destination, and the one to the node where it is here."""
    found = [(port, network.neighbour(router, port)) for port in network.ports]
    distance = network.distance(router, destination)
    nearer = [port for port, node in found if node is not None and network.distance(node, destination) < distance]
    return nearer or ["local"]


def crowd(network: Network, random: Random) -> str:
    """Traffic that crowds a network."""
    nodes = network.nodes
    rows = [
        (random.randrange(nodes), random.randrange(nodes), random.randrange(network.classes), 1 + random.randrange(9),
         due // 8)
        for due in range(60 * nodes)
    ]
    return HEADER + "".join("{},{},{},{},{}\n".format(*row) for row in rows if row[0] != row[1])


def steps_of(said: str) -> list[tuple[int, int, list[str]]]:
    """The steps of a circle: class, destination, and the channels from one with a rank to the next."""
    found = []
    for line in said.splitlines()[1:]:
        message_class, destination, way = re.fullmatch(r"class (\d+) to node (\d+): (.*)", line).groups()
        found.append((int(message_class), int(destination), way.split(" -> ")))
    return found


class RankTest(FolderTest):
    def put_network(self, network: Network) -> Channels:
        """The channels of a network that is written as the configuration."""
        self.put(c=network)
        return Channels(network)

    def put_table(self, rows: Iterable[tuple[Any, ...]]) -> None:
        """Writes a table."""
        lines = [",".join(map(str, row)) for row in rows]
        self.put(table="\n".join([TABLE_HEADER, *lines, ""]))

    def put_relation(self, relation: Relation) -> None:
        """Writes a relation as a table."""
        self.put(table="".join(f"{line}\n" for line in table_file(relation)))

    def check(self, ranks: str, *words: object) -> str:
        """What the program says of a rank file."""
        self.put(r=ranks)
        ran = self.noc("check", "c", "--ranks", "r", *words)
        return ran.stderr if ran.returncode else ran.stdout

    def random_tables(self) -> Iterator[tuple[Relation, list[tuple[Any, ...]], Random]]:
        """The relation of a network and a table beside the program, and the rows."""
        random = Random(2)
        for network in TABLES:
            channels = self.put_network(network)
            rows = random_rows(channels, random)
            self.put_table(rows)
            yield of_network(channels, self.folder / "table"), rows, random

    def assertAccepted(self, *words: str) -> None:
        """Ranks are found that the program accepts."""
        table = words[words.index("--table"):][:2] if "--table" in words else ()
        ran = self.tool("ranks", "c", *words)
        self.assertEqual((ran.returncode, ran.stderr), (0, ""))
        self.assertEqual(self.check(ran.stdout, *table), "accepted\n")


class OfThePackage(RankTest):
    def look_at_random_ranks(self, made: Relation, random: Random, count: int, *words: object) -> None:
        """The program says of random ranks what follows from the relation."""
        known, channels = Known(made), made.channels
        for number in range(count):
            most = 1 + number % 9
            ranks = {channel: 1 + random.randrange(most) for channel in channels.links()}
            bare = set(random.sample(channels.links(), 1 + random.randrange(3))) if number % 3 == 0 else set()
            ranks = {channel: rank for channel, rank in ranks.items() if channel not in bare}
            expected = known.no_escape(ranks) or known.not_ahead(ranks) if bare else known.not_rising(ranks)
            self.assertEqual(self.check(rank_text(channels, ranks), *words), expected)

    def look_at_each_set(self, made: Relation, *words: object) -> None:
        """The first entry without an escape is that of the relation, for each router and each of its sets as the
        adaptive channels, and for that set without one of them."""
        known, channels = Known(made), made.channels
        sets = {frozenset(onward) for _, onward in known.entries.values() if onward}
        for adaptive in sets | {one - {channel} for one in sets for channel in one}:
            ranks = {channel: 1 for channel in channels.links() if channel not in adaptive}
            expected, said = known.no_escape(ranks), self.check(rank_text(channels, ranks), *words)
            self.assertEqual(said if "NoEscape" in said else None, expected)

    def test_the_relation_of_each_rule_is_the_programs(self) -> None:
        random = Random(1)
        for network, _ in RULES + CIRCLES:
            with self.subTest(network=network):
                made = of_network(self.put_network(network))
                self.look_at_random_ranks(made, random, 12)
                self.look_at_each_set(made)

    def test_the_relation_of_a_table_is_the_programs(self) -> None:
        for made, _, random in self.random_tables():
            self.look_at_random_ranks(made, random, 30, "--table", "table")
            self.look_at_each_set(made, "--table", "table")

    def test_exactly_the_reached_entries_need_rows(self) -> None:
        """Without the rows of an entry the program says NoWay there where packets reach it, and else says nothing of
        the table."""
        for made, rows, _ in self.random_tables():
            known = Known(made)
            ranks = rank_text(made.channels, {channel: 1 for channel in made.channels.links()})
            for key in sorted({row[:5] for row in rows})[::3]:
                self.put_table([row for row in rows if row[:5] != key])
                message_class, router, in_port, in_vc, destination = key
                placed = message_class, router, made.channels.place_of_port[in_port], in_vc, destination
                said = self.check(ranks, "--table", "table")
                if placed in known.entries:
                    self.assertEqual(said, f"fault relation 6 NoWay {known.entry(placed)}\n")
                else:
                    self.assertNotIn("relation", said)

    def granted(self, router: int, cycles: Iterable[int]) -> Iterator[str]:
        """The output channels that a router's packets are granted in these cycles."""
        for cycle in cycles:
            rows = self.report("explain", "c", "t", "--cycle", cycle, "--router", router)
            yield from [row["out"] for row in rows if row["verdict"] == "Granted"]

    def test_packets_are_granted_each_channel_of_their_set(self) -> None:
        """Of packets of one flit from one node to another the next is granted the next channel, as long as the first
        one drains: for five cycles, in which at least three are injected."""
        for network, _ in RULES:
            if network.channels == 1 or network.channels // network.classes > 3:
                continue
            channels = self.put_network(network)
            made, nodes = of_network(channels), range(network.nodes)
            ways = [(source, goal, each) for source in nodes for goal in nodes for each in range(network.classes)]
            for source, goal, message_class in ways[1::7]:
                if source != goal:
                    self.put(t=HEADER + f"{source},{goal},{message_class},1,0\n" * 6)
                    onward = sorted(made.steps(message_class, goal)[channels.injection(source)[0]])
                    expected = ["{1}.{2}".format(*channels.parts(channel)) for channel in onward]
                    found = list(self.granted(source, range(1, 6)))
                    self.assertEqual(found, expected[:len(found)], (network, source, goal))
                    self.assertGreaterEqual(len(found), min(3, len(expected)))

    def test_a_rule_written_as_a_table_runs_alike(self) -> None:
        """Every verdict of every channel is counted alike, and each packet is out at the same time, where packets crowd
        the network."""
        random = Random(3)
        for network, _ in RULES:
            self.put_relation(of_network(self.put_network(network)))
            self.put(t=crowd(network, random), by_table=replace(network, rule="table"))
            for report in "stalls", "latency":
                words = "t", "--report", report
                one, other = self.noc("run", "c", *words), self.noc("run", "by_table", *words, "--table", "table")
                self.assertEqual((one.returncode, one.stdout), (other.returncode, other.stdout), network)
                self.assertTrue(one.stdout)


class Ranks(RankTest):
    def test_found_ranks_are_accepted(self) -> None:
        for network, words in RULES:
            with self.subTest(network=network):
                self.put(c=network)
                self.assertAccepted(*words.split())

    def assertCircle(self, made: Relation, said: str, numbers: set[int]) -> None:
        """Each step begins where the one before ends, its class and destination permit it, and the channels within have
        no rank: their numbers are some of these."""
        channels = made.channels
        names = {channels.name(channel): channel for channel in channels.links()}
        steps = [(goal, [names[name] for name in way]) for *goal, way in steps_of(said)]
        ways = [way for _, way in steps]
        self.assertGreaterEqual(len(ways), 2)
        self.assertEqual([way[-1] for way in ways], [way[0] for way in ways[1:] + ways[:1]])
        self.assertLessEqual({channels.parts(channel)[2] for way in ways for channel in way[1:-1]}, numbers)
        for goal, way in steps:
            for before, after in zip(way, way[1:]):
                self.assertIn(after, made.steps(*goal).get(before, ()))

    def test_circles_are_those_of_the_relation(self) -> None:
        for network, words in CIRCLES:
            made = of_network(self.put_network(network))
            ran = self.tool("ranks", "c", *words.split())
            self.assertEqual((ran.returncode, ran.stdout), (1, ""))
            if "no escape channel" not in ran.stderr:
                self.assertCircle(made, ran.stderr, {1, 2} if words == "--escape 0" else set())

    def test_the_first_reason_is_told(self) -> None:
        """Without any numbers the first hop has no escape; with number 0 the ring is a circle."""
        made = of_network(Channels(network("torus", (4,), 2, 1, "dor")))
        none: set[int] = set()
        for choices, reason in ((none, {0}), "no escape channel"), (({0}, none), "close a circle"):
            with self.assertRaisesRegex(NoRanks, reason):
                first_found(made, [*choices])

    def test_the_circle_of_a_ring_is_shown(self) -> None:
        """Four routers: each step is that of packets two hops from their destination."""
        self.put(c=network("torus", (4,), 1, 1, "dor"))
        ran = self.tool("ranks", "c")
        first, *lines = ran.stderr.splitlines()
        said = "noc-tools ranks: there are no ranks: these steps close a circle:"
        self.assertEqual((ran.returncode, ran.stdout, first), (1, "", said))
        self.assertEqual(sorted(lines), [
            f"class 0 to node {(router + 2) % 4}: router {router}, +0.0 -> router {(router + 1) % 4}, +0.0"
            for router in (2, 3, 0, 1)
        ])

    def test_random_tables_have_ranks_or_a_circle(self) -> None:
        """What is found is accepted, and a circle is one of the relation; with escape channels too, where each step
        goes from one of these to the next by others alone."""
        ends = set()
        for made, _, _ in self.random_tables():
            for words in [()] + [("--escape", "0")] * (made.channels.vcs == 2):
                ran = self.tool("ranks", "c", "--table", "table", *words)
                ends.add(ran.returncode)
                if ran.returncode == 0:
                    self.assertEqual(self.check(ran.stdout, "--table", "table"), "accepted\n")
                elif "circle" in ran.stderr:
                    self.assertCircle(made, ran.stderr, {1} if words else set())
        self.assertIn(1, ends)
        self.assertLessEqual(ends, {0, 1})

    def test_an_entry_without_escape_is_shown(self) -> None:
        """On a mesh of three routers channel 1 alone leads on from what comes in by channel 1."""
        self.put(c=network("mesh", (3,), 2, 1, "table"))
        ways = [(router, goal, "+0" if router < goal else "-0") for router in range(3) for goal in range(3)]
        rows = [(0, router, "local", vc, goal, port, vc) for router, goal, port in ways if router != goal
                for vc in (0, 1)]
        middle = (("-0", 2, "+0"), ("+0", 0, "-0"))
        rows += [(0, 1, port, vc, goal, way, vc) for port, goal, way in middle for vc in (0, 1)]
        ends = ((0, "+0"), (1, "-0"), (1, "+0"), (2, "-0"))
        rows += [(0, goal, port, vc, goal, "local", 0) for goal, port in ends for vc in (0, 1)]
        self.put_table(rows)
        ran = self.tool("ranks", "c", "--table", "table", "--escape")
        self.assertAccepted("--table", "table")
        self.assertEqual((ran.returncode, ran.stdout), (1, ""))
        self.assertEqual(ran.stderr.splitlines(), [
            "noc-tools ranks: there are no ranks: packets are permitted no escape channel here:",
            "class 0 to node 1, at router 0 by local.1: it may take +0.1",
        ])

    def test_steps_through_adaptive_channels_count(self) -> None:
        """Three by two routers, by dimension order on channel 0; but packets from node 3 to the lower row go down
        first, and those to node 5 may leave the lower row early, by channel 1.

        Steps lead from (3, -1) to (0, +0), and from (3, +0) to (4, +0), so without that early way both second channels
        could have rank 2. By it packets come from (0, +0) to (4, +0).
        """
        channels = self.put_network(network("mesh", (3, 2), 2, 1, "table"))

        def permitted(message_class: int, channel: int, router: int, destination: int) -> list[int]:
            goes_down = router == 3 and destination in (1, 2)
            port = "-1" if goes_down else dimension_order_port(channels.network, router, destination)
            ways = [(router, port, 0)] + [(router, "+1", 1)] * ((router, destination) == (1, 5))
            return [channels.number(*way) for way in ways]

        self.put_relation(Relation(channels, permitted))
        rows = csv.DictReader(self.said("ranks", "c", "--table", "table", "--escape", "0").splitlines())
        ranks = {(row["router"], row["port"]): row["rank"] for row in rows if row["vc"] == "0"}
        in_order = [int(ranks[channel]) for channel in (("3", "-1"), ("0", "+0"), ("4", "+0"))]
        self.assertEqual(in_order, sorted(set(in_order)))
        self.assertAccepted("--table", "table", "--escape", "0")

    def test_the_largest_take_less_than_twenty_seconds(self) -> None:
        """Of processor time."""
        def time_of_others() -> float:
            times = os.times()
            return times.children_user + times.children_system

        self.put(c=network("mesh", (16, 16), 4, 1, "adaptive"))
        start = time_of_others()
        self.assertAccepted("--escape")
        self.assertLess(time_of_others() - start, 20)


WRONG = [
    ("ranks c", LINE.text().replace("buffer = 2\n", ""), "the key 'buffer' is missing"),
    ("ranks c", LINE.text().replace("channels", "chanels"), "there is no key 'chanels'"),
    ("ranks c", "", "the key 'kind' is missing"),
    ("ranks c", LINE.text().replace("[3]", "3"), "the value of 'radix' is not a list"),
    ("ranks nothing", LINE, "No such file"),
    ("ranks c --escape 1", LINE, "the channels of a link are 0 to 0"),
    ("ranks c --escape", LINE, "two channels for each class"),
    ("table c odd-even", LINE, "a mesh of two dimensions"),
    ("table c dateline-balanced", LINE, "is for a torus"),
    ("table c dateline-even", LINE, "dateline-even is for a torus"),
    ("table c dateline-even", replace(LINE, kind="torus"), "channels are a multiple of twice the classes"),
    ("table c odd-even", replace(LINE, radix=(99, 99)), "no network that noc takes"),
]
# What noc refuses it tells itself.
BY_NOC = [
    ("ranks c", replace(LINE, rule="dateline"), 4, "fault relation 1 WrongShape"),
    ("ranks c", replace(LINE, rule="table"), 3, "fault option 4 NoTable"),
    ("ranks c --table c", LINE, 3, "fault option 5 SpareTable"),
    ("ranks c --table c", replace(LINE, rule="table"), 3, "fault table 9 BadHeader"),
    ("ranks c", replace(LINE, channels=9), 3, "fault config 8 BadValue key channels"),
]


class Refused(RankTest):
    def test_what_is_refused(self) -> None:
        self.assertEachRefused((words, {"c": given}, sentence) for words, given, sentence in WRONG)

    def test_what_noc_refuses(self) -> None:
        for words, given, status, line in BY_NOC:
            self.put(c=given)
            self.assertRefusedByNoc(words, status, line)
