"""What costs energy: counts of packets that are alone by hand, and sums that hold in every run that drains."""
import csv
from dataclasses import replace

from support import HEADER, LINE, SQUARE, FolderTest


class Energy(FolderTest):
    FILES = {"c": LINE, "t": HEADER + "0,2,0,3,0\n"}

    def counted(self, *words: object) -> list[dict[str, str]]:
        """The lines of the command, for a run that drains."""
        given = self.noc("run", "c", "t", "--drain", "--report", "stalls").stdout
        return list(csv.DictReader(self.said("energy", "c", *words, given=given).splitlines()))

    def test_a_packet_alone(self) -> None:
        """Three flits from node 0 to node 2: at each of three routers they are written, read and sent on, and the head
        is routed and granted a channel. Two links have three flits each."""
        each = {"routes": 1, "requests": 1, "grants": 1}
        each |= dict.fromkeys(["picks", "sends", "writes", "reads", "crossings"], 3)
        rows = [{"router": str(router), **each, "hops": hops} for router, hops in enumerate((3, 3, 0))]
        rows.append({"router": "all", **{name: 3 * count for name, count in each.items()}, "hops": 6})
        self.assertEqual(self.counted(), [{name: str(value) for name, value in row.items()} for row in rows])
        links = [tuple(row.values()) for row in self.counted("--links")]
        self.assertEqual(links, [
            ("0", "+0", "1", "3"), ("1", "+0", "2", "3"), ("1", "-0", "0", "0"), ("2", "-0", "1", "0"),
            ("all", "-", "-", "6"),
        ])

    def test_costs(self) -> None:
        """Nine reads at 0.5 pJ and six hops at 2.25, 13.5 pJ each."""
        rows = self.counted("--pj", "reads=0.5", "hops=2.25")
        self.assertEqual([row["picojoules"] for row in rows], ["8.2", "8.2", "1.5", "18.0"])
        self.assertEqual([row["picojoules"] for row in self.counted("--links", "--pj", "hops=2")][-1], "12.0")

    def test_sums_over_packets(self) -> None:
        """Of packets with L flits over d hops, in a network in which they wait: L d hops, L (d + 1) reads, and d + 1
        routes and grants; who loses asks more often."""
        self.put(c=replace(SQUARE, channels=2), t="")
        self.put(t=self.said("traffic", "c", "uniform", 0.3, "1+4"))
        packets = self.report("run", "c", "t", "--drain")
        nodes = [(int(row["source"]), int(row["destination"]), int(row["length"])) for row in packets]
        hops = [abs(s % 8 - d % 8) + abs(s // 8 - d // 8) for s, d, _ in nodes]
        *routers, whole = self.counted()
        flits = sum(length * each for each, (*_, length) in zip(hops, nodes))
        self.assertEqual(int(whole["hops"]), flits)
        self.assertEqual(int(whole["reads"]), flits + sum(length for *_, length in nodes))
        self.assertEqual({int(whole["routes"]), int(whole["grants"])}, {sum(hops) + len(hops)})
        self.assertGreater(int(whole["requests"]), int(whole["grants"]))
        self.assertGreater(int(whole["picks"]), int(whole["sends"]))
        self.assertGreater(int(whole["sends"]), int(whole["reads"]))
        self.assertEqual(sum(int(row["hops"]) for row in routers), flits)

    def test_what_is_refused(self) -> None:
        report = self.noc("run", "c", "t", "--report", "stalls").stdout
        self.put(other=SQUARE)
        self.assertEachRefused([
            ("energy c --links --pj reads=1", "of a link hops alone are counted"),
            ("energy other", "the report has other channels than the configuration"),
        ], given=report)
        for words in ("flips=1", "reads", "reads=x", "reads=-1", "reads=inf"):
            ran = self.tool("energy", "c", "--pj", words, given=report)
            self.assertEqual(ran.returncode, 2)
            self.assertIn(f"'{words}' is no EVENT=PJ, as reads=0.6: events are routes, requests", ran.stderr)
