"""The tables of rules that noc does not have itself, with the ranks that are found for them."""
import csv
from collections import Counter
from dataclasses import replace

from test_ranks import RankTest, network

from noc_tools.network import Network
from noc_tools.ranks import table_file
from noc_tools.relation import TABLE_HEADER, Channels, of_network, of_table_rule
from noc_tools.rules import TABLE_RULES


class Tables(RankTest):
    def put_made(self, made: Network, rule: str) -> list[dict[str, str]]:
        """The rows of a table that is made for a network, beside the program."""
        self.put(c=replace(made, rule="table"))
        self.put(table=self.said("table", "c", rule))
        return list(csv.DictReader((self.folder / "table").read_text().splitlines()))

    def test_odd_even_turns_where_it_may(self) -> None:
        """East to north or south in odd columns alone, north or south to west in even ones alone; ranks are found, and
        accepted."""
        for made in network("mesh", (6, 6), 1, 1, ""), network("mesh", (5, 4), 2, 2, ""):
            rows = self.put_made(made, "odd-even")
            for row in rows:
                is_odd = int(row["router"]) % made.radix[0] % 2 == 1
                turn = row["in_port"], row["out_port"]
                self.assertNotIn(turn, (("-1", "-0"), ("+1", "-0")) if is_odd else (("-0", "+1"), ("-0", "-1")))
            at_source = [row for row in rows if (row["in_port"], row["in_vc"], row["class"]) == ("local", "0", "0")]
            self.assertGreater(len(at_source), made.nodes * (made.nodes - 1))
            self.assertAccepted("--table", "table")

    def made_as_a_dateline(
            self, radix: tuple[int, ...], channels: int, classes: int, rule: str) -> list[dict[str, str]]:
        """The rows of a rule that has ranks, and those of the program's formula for 'dateline' too."""
        made = network("torus", radix, channels, classes, "dateline")
        self.put(c=made)
        formula = self.noc("ranks", "c").stdout
        rows = self.put_made(made, rule)
        self.assertAccepted("--table", "table")
        self.assertEqual(self.check(formula, "--table", "table"), "accepted\n")
        return rows

    def test_a_balanced_dateline_has_the_ranks_of_a_dateline(self) -> None:
        """Those of the program's formula for 'dateline' too. Packets that cross no ends may take either half where they
        come in."""
        for radix, channels, classes in ((5,), 2, 1), ((4, 3), 4, 2), ((2, 2), 2, 1):
            rows = self.made_as_a_dateline(radix, channels, classes, "dateline-balanced")
            ways: dict[tuple[int, int], list[str]] = {}
            for row in rows:
                if (row["in_port"], row["in_vc"], row["class"]) == ("local", "0", "0"):
                    ways.setdefault((int(row["router"]), int(row["dst"])), []).append(row["out_vc"])
            # (from router 0 up, and from the last one of the first dimension over its ends)
            counts = len(ways[0, 1]), len(ways[radix[0] - 1, 0])
            self.assertEqual(counts, (channels // classes, channels // classes // 2))

    def test_an_even_dateline_splits_ties(self) -> None:
        """On a ring of four packets go up two hops from even nodes, and down from odd ones; low channels cross."""
        self.put_made(network("torus", (4,), 2, 1, ""), "dateline-even")
        rows = csv.DictReader((self.folder / "table").read_text().splitlines())
        ties = {
            (row["router"], row["dst"], row["out_port"], row["out_vc"]) for row in rows
            if row["in_port"] == "local" and (int(row["router"]) - int(row["dst"])) % 4 == 2
        }
        even, odd = {("0", "2", "+0", "1"), ("2", "0", "+0", "0")}, {("1", "3", "-0", "0"), ("3", "1", "-0", "1")}
        self.assertEqual(ties, even | odd)

    def test_an_even_dateline_loads_all_links_alike(self) -> None:
        """Of packets between all pairs of 4 by 4 routers each carries eight: two of its ring, for each of four."""
        made = network("torus", (4, 4), 2, 1, "dateline")
        channels = self.put_network(made)
        even = of_table_rule(channels, TABLE_RULES["dateline-even"])
        loads: dict[str, Counter[tuple[int, str]]] = {"even": Counter(), "up": Counter()}
        for name, relation in ("even", even), ("up", of_network(channels)):
            for destination in range(made.nodes):
                steps = relation.steps(0, destination)
                for source in set(range(made.nodes)) - {destination}:
                    channel = channels.injection(source)[0]
                    while channels.end(channel) != destination:
                        (channel,) = steps[channel]
                        loads[name][channels.parts(channel)[:2]] += 1
        links = [(router, port) for router in range(16) for port in made.ports if port != "local"]
        self.assertEqual(loads["even"], dict.fromkeys(links, 8))
        self.assertEqual(loads["up"], {(router, port): 12 if port[0] == "+" else 4 for router, port in links})

    def test_an_even_dateline_has_the_ranks_of_a_dateline(self) -> None:
        """Those of the program's formula too. On odd rings, which have no ties, it is the dateline."""
        for radix, channels, classes in ((5, 3), 2, 1), ((4, 3), 4, 2), ((2, 2), 2, 1), ((6, 2, 2), 2, 1):
            with self.subTest(radix=radix):
                rows = self.made_as_a_dateline(radix, channels, classes, "dateline-even")
                found = [TABLE_HEADER, *(",".join(row.values()) for row in rows)]
                plain = table_file(of_network(Channels(network("torus", radix, channels, classes, "dateline"))))
                self.assertEqual(sorted(found) == sorted(plain), radix == (5, 3))
