"""To what 'why --slowest' charges the cycles of packets: worked out by hand from docs/MODEL.md, and on networks of all
rules beside a second reckoning, cycle by cycle, from the whole trace."""
import json
import re
from collections import Counter
from dataclasses import replace
from random import Random
from typing import Any
from unittest.mock import patch

import noc_tools
from noc_tools import causes
from noc_tools.findings import MOVED, NO_CREDIT, NO_FLIT, OWNING, Finding, Place
from noc_tools.life import QUEUE
from noc_tools.network import LOCAL, Network, opposite, split
from noc_tools.runs import Run
from noc_tools.traffic import Packet

from support import HEADER, LINE, TOP, FolderTest

# Networks of one to three dimensions, with more traffic than they take; the tori with dimension order jam.
SHAPES = [
    ("mesh", (5,), 1, 1, 1, "dor"),
    ("torus", (6,), 1, 2, 1, "dor"),
    ("torus", (5,), 2, 3, 1, "dateline"),
    ("mesh", (3, 3), 2, 2, 2, "west-first"),
    ("mesh", (4, 3), 4, 2, 2, "adaptive"),
    ("torus", (4, 4), 1, 1, 1, "dor"),
    ("torus", (3, 4), 3, 1, 1, "adaptive"),
    ("mesh", (3, 2, 3), 3, 4, 3, "dor"),
    ("torus", (3, 3, 2), 4, 2, 2, "dateline"),
    ("torus", (4, 2, 2), 4, 1, 1, "adaptive"),
]


def made_traffic(network: Network, random: Random) -> str:
    """Four packets for each node, of up to twelve flits."""
    lines = []
    for _ in range(4 * network.nodes):
        source, destination = random.sample(range(network.nodes), 2)
        message_class, length, due = (random.randrange(bound) for bound in (network.classes, 12, 12))
        lines.append(f"{source},{destination},{message_class},{length + 1},{due}\n")
    return HEADER + "".join(lines)


class WholeTrace:
    """What each input channel says in each cycle, by the packet and by the place."""

    def __init__(self, run: Run) -> None:
        self.run, self.found = run, {}
        self.ways: dict[int, dict[Place, None]] = {}
        for finding in run.trace():
            self.found[finding.cycle, finding.place] = finding
            if finding.packet is not None:
                self.ways.setdefault(finding.packet, {})[finding.place] = None

    def said(self, packet: int, at: int, cycle: int) -> Finding | None:
        """What the channel of its way with a number says of a packet in a cycle, or None."""
        way = list(self.ways.get(packet, []))
        finding = self.found.get((cycle, way[at])) if 0 <= at < len(way) else None
        return finding if finding and finding.packet == packet else None

    def at_router(self, cycle: int, router: int) -> list[Finding]:
        """What the channels of a router say in a cycle that have a packet."""
        places = [place for place in self.run.network.places if place[0] == router]
        found = [self.found.get((cycle, place)) for place in places]
        return [finding for finding in found if finding and finding.packet is not None]

    def charged(self, packet: Packet, end: int) -> Counter[tuple[object, ...]]:
        """The cause of each cycle before an end, from there back to the due one."""
        at, charged = len(self.ways.get(packet.number, [])), Counter[tuple[object, ...]]()
        for cycle in range(end - 1, packet.due - 1, -1):
            said = self.said(packet.number, at, cycle)
            while 0 <= at and (said is None or said.verdict == NO_FLIT):
                at -= 1
                said = self.said(packet.number, at, cycle)
            ahead = self.said(packet.number, at + 1, cycle)
            while said and said.verdict == NO_CREDIT and ahead and ahead.verdict != MOVED:
                at, said, ahead = at + 1, ahead, self.said(packet.number, at + 2, cycle)
            if said is None:
                charged[QUEUE, packet.source, "-", self.last_in(packet.source, cycle)] += 1
            else:
                charged[said.verdict, *said.place, self.winner(said)] += 1
        return charged

    def last_in(self, node: int, cycle: int) -> int:
        """Of the packets in the channels of the port local the one whose turn was last."""
        inside = [said.packet for said in self.at_router(cycle, node) if said.channel.startswith(LOCAL)]
        return max(inside, key=self.run.turn)

    def winner(self, said: Finding) -> int | None:
        """The packet that was there before or instead."""
        others = self.at_router(said.cycle, said.router)
        if said.verdict == "NoIdleChannel":
            return self.holder(said, others)
        wins = {
            "LostChannel": lambda other: other.verdict == "Granted" and other.out == said.out,
            "LostInput": lambda other: (
                other.verdict in ("Moved", "LostSwitch") and split(other.channel)[0] == split(said.channel)[0]
            ),
            "LostSwitch": lambda other: other.verdict == "Moved" and split(other.out)[0] == split(said.out)[0],
        }
        if said.verdict not in wins:
            return None
        (winner,) = filter(wins[said.verdict], others)
        return winner.packet

    def holder(self, said: Finding, others: list[Finding]) -> int | None:
        """Who has the channel that the packet gets later, or else the first of the set: here, or at its end."""
        stay = [finding for (_, place), finding in self.found.items()
                if place == said.place and finding.packet == said.packet]
        (out,) = [finding.out for finding in stay if finding.verdict == "Granted"] or said.permitted[:1]
        here = [other.packet for other in others if other.verdict in OWNING and other.out == out]
        if here:
            return here[0]
        port, number = split(out)
        place = self.run.network.linked(said.router, port), f"{opposite(port)}.{number}"
        return self.found[said.cycle, place].packet


def shares_by_packet(run: Run) -> dict[int, Counter[tuple[object, ...]]]:
    """The shares of all packets that are due within the run."""
    found: dict[int, Counter[tuple[object, ...]]] = {}
    for share in causes.blame_of(run, causes.candidates(run)).shares:
        found.setdefault(share.packet, Counter())[share[1:5]] += share.cycles
    return found


class Shares(FolderTest):
    def assertChargedAlike(self, run: Run) -> None:
        """Each packet's shares are those of the whole trace, and add up to its life."""
        whole, shares = WholeTrace(run), shares_by_packet(run)
        self.assertEqual(sorted(shares), [packet.number for packet in run.packets])
        for packet in run.packets:
            end = run.network.cycles if packet.out is None else packet.out + 1
            self.assertEqual(shares[packet.number], whole.charged(packet, end), packet)
            self.assertEqual(shares[packet.number].total(), end - packet.due, packet)
            self.assertNotIn(0, shares[packet.number].values())

    def test_each_packet_on_networks_of_all_rules(self) -> None:
        """Also where a run ends in the midst of them."""
        random, stuck, seen = Random(5), 0, set()
        for shape in SHAPES:
            network = Network(*shape, 150)
            self.put(c=network, t=made_traffic(network, random))
            run, shorter = (Run(replace(network, cycles=cycles), self.folder / "t") for cycles in (150, 25))
            with self.subTest(shape=shape):
                self.assertChargedAlike(run)
                self.assertChargedAlike(shorter)
            stuck += run.status == 5
            seen |= {cause for shares in shares_by_packet(run).values() for cause, *_ in shares}
        self.assertGreater(stuck, 0)
        self.assertEqual(seen, {
            QUEUE, "Routed", "Granted", "Moved", "NoIdleChannel", "LostChannel", "NoCredit", "LostInput", "LostSwitch",
        })

    def test_a_table_and_a_run_that_drains(self) -> None:
        examples = TOP / "examples"
        files = examples / "turns.toml", examples / "turns.csv", examples / "turns_table.csv"
        self.assertChargedAlike(Run(*files))
        self.assertChargedAlike(Run(replace(Network.read(files[0]), cycles=20), *files[1:], drain=True))

    def test_short_steps_and_batches_say_the_same(self) -> None:
        """Seven packets at a time are followed or one, and the routers that are looked at change with each cycle."""
        random = Random(6)
        for number, shape in [(7, shape) for shape in SHAPES] + [(1, shape) for shape in SHAPES[3:6]]:
            network = Network(*shape, 150)
            self.put(c=network, t=made_traffic(network, random))
            run = Run(self.folder / "c", self.folder / "t")
            before = shares_by_packet(run)
            with patch.object(causes, "STEP", 1), patch.object(causes, "MOST_FOLLOWED", number):
                self.assertEqual(shares_by_packet(run), before)


class Slowest(FolderTest):
    """Packet 2 is due in cycle 0 and out in 17. Packet 0 came in before it, in cycle 0, and has left router 0 in cycle
    2, so that packet 2 comes in in 3. Up to 7 it waits for +0.0, which drains of packet 0."""

    def test_rows(self) -> None:
        """From its end back, its last flit leaves router 2 in 17, and two before it in 16 and 15; so what was before is
        the life of the head."""
        self.assertEqual(self.said("why", "c", "t", "--slowest", 1, "--csv").splitlines(), [
            "packet,cause,router,channel,by,cycles", "2,queue,0,-,0,3", "2,Routed,0,local.0,-,1",
            "2,NoIdleChannel,0,local.0,0,4", "2,Granted,0,local.0,-,1", "2,Moved,0,local.0,-,1",
            "2,Routed,1,-0.0,-,1", "2,Granted,1,-0.0,-,1", "2,Moved,1,-0.0,-,1",
            "2,Routed,2,-0.0,-,1", "2,Granted,2,-0.0,-,1", "2,Moved,2,-0.0,-,3",
        ])

    def test_words(self) -> None:
        """Of the port of node 0 packet 0 has three cycles for its one flit."""
        self.assertEqual(self.said("why", "c", "t", "--slowest", "1%").splitlines(), [
            "Where the cycles went of the slowest 1 of 3 packets, with latencies from 17 to 17:",
            "       11   61.1 %  its own way",
            "        4   22.2 %  NoIdleChannel",
            "        3   16.7 %  queue",
            "Who was ahead in 7 of these cycles:",
            "  by class: class 0 in 7 (100.0 %)",
            "  by source: node 0 in 7 (100.0 %)",
            "  by destination: node 2 in 7 (100.0 %)",
            "At which places, and who was ahead there:",
            "       11   61.1 %  its own way: Moved 5, Routed 3, Granted 3",
            "        4   22.2 %  NoIdleChannel at router 0, local.0: packet 0 in 4",
            "        3   16.7 %  queue of node 0: packet 0 in 3; 0.33 flits a cycle came in",
            "       18  100.0 %  in all",
        ])

    def test_no_more_than_a_flit_comes_in_in_a_cycle(self) -> None:
        """Four flits of packet 0 are in when the run ends; spans in which packets wait may overlap or not."""
        self.put(c=replace(LINE, buffer=8, cycles=4), t=HEADER + "0,2,0,8,0\n0,1,0,1,0\n")
        said = self.said("why", "c", "t", "--slowest", "100%")
        self.assertIn("queue of node 0: packet 0 in 4; 1.00 flits a cycle came in", said)
        self.assertEqual(causes.merged([(7, 9), (2, 5), (0, 3), (1, 2)]), [(0, 5), (7, 9)])

    def test_who_got_the_channel(self) -> None:
        """Three heads come to router 4 in cycle 3, and ask in 4 for a channel up: packet 0 for +1.0, and the others,
        of class 1, for +1.1. Packet 1 gets it, whose port comes first. Packet 0 goes first by that port, in 5, and
        packet 1 in 6; it leaves router 7 in 9, and its credit is back in 10."""
        self.put(c=Network("mesh", (3, 3), 2, 2, 2, "dor", 40), t=HEADER + "5,7,0,1,0\n3,7,1,1,0\n1,7,1,1,0\n")
        shares = noc_tools.blame(self.folder / "c", self.folder / "t", 1)
        self.assertEqual([share for share in shares if share.by is not None], [
            (2, "LostChannel", 4, "-1.1", 1, 1), (2, "NoIdleChannel", 4, "-1.1", 1, 5),
        ])

    def test_who_was_ahead(self) -> None:
        """Packets 0 and 2 of node 0 were ahead in 5 and 4 cycles, and packet 1 of node 1 in 3."""
        run = Run(replace(LINE, channels=2, classes=2), [
            Packet(0, 0, 2, 0, 1, 0), Packet(1, 1, 2, 1, 1, 0), Packet(2, 0, 1, 1, 1, 0), Packet(3, 0, 2, 0, 1, 0),
        ])
        shares = [
            causes.Share(3, QUEUE, 0, "-", 0, 2), causes.Share(3, QUEUE, 0, "-", 2, 4),
            causes.Share(3, "NoIdleChannel", 1, "-0.0", 1, 3), causes.Share(2, "NoIdleChannel", 0, "local.0", 0, 3),
            causes.Share(3, MOVED, 1, "-0.0", None, 9),
        ]
        self.assertEqual(causes.ahead_of(run, shares), {
            "class": [(1, 7, 7 / 12), (0, 5, 5 / 12)], "source": [(0, 9, 9 / 12), (1, 3, 3 / 12)],
            "destination": [(2, 8, 8 / 12), (1, 4, 4 / 12)],
        })
        files = self.folder / "c", self.folder / "t"
        ahead = {"class": [(0, 7, 1)], "source": [(0, 7, 1)], "destination": [(2, 7, 1)]}
        self.assertEqual(noc_tools.ahead(*files), ahead)
        found = json.loads(self.said("latency", "c", "--traffic", "t", "--slowest", "1%", "--json"))["slowest"]
        self.assertEqual((found["packets"], found["of"]), (1, 3))
        flows = {kind: [tuple(flow.values()) for flow in flows] for kind, flows in found["ahead"].items()}
        self.assertEqual(flows, ahead)
        self.put(alone=HEADER + "0,2,0,1,0\n")
        self.assertIn("\nNobody was ahead of them.\n", self.said("why", "c", "alone", "--slowest", 1))

    def test_most_of_many_holders(self) -> None:
        """Four packets of a flit, from node 0 to node 2 but for one, are in the way of a fifth one. Each comes in when
        the one before has gone, and their own waits do not matter here."""
        self.put(many=HEADER + "0,1,0,1,0\n" + "0,2,0,1,0\n" * 4, c=replace(LINE, cycles=90))
        (line,) = re.findall(r"^\d+ cycles in the queue of node 0 .*$", self.said("why", "c", "many", 4), re.MULTILINE)
        told = r"mostly of class 0 \(100 %\), from node 0 \(100 %\), to node 2 \(\d+ %\)\."
        self.assertRegex(line, rf": packet \d .*, 1 more; {told}")

    def test_which_packets(self) -> None:
        """Packets 0 and 3 are of class 0 and alone on their ways, over one hop and two; 1 and 2 of class 1. Packet 2 is
        due behind the others, and packet 4 behind the run, which goes on where it drains."""
        self.put(c=replace(LINE, channels=2, classes=2), t=(
            HEADER + "0,1,0,1,0\n1,2,1,1,0\n0,2,1,1,10\n2,0,0,1,1\n0,1,0,1,20\n"
        ))

        def packets(amount: Any, **chosen: Any) -> list[int]:
            shares = noc_tools.blame(self.folder / "c", self.folder / "t", amount, **chosen)
            return list(dict.fromkeys(share.packet for share in shares))

        self.assertEqual(packets(9), [2, 3, 0, 1])
        self.assertEqual([packets("50%"), packets("50.1%"), packets("1%")], [[2, 3], [2, 3, 0], [2]])
        self.assertEqual(packets(9, message_class=0), [3, 0])
        self.assertEqual(packets("100%", window="0:10"), [3, 0, 1])
        self.assertEqual(packets(9, drain=True), [2, 3, 0, 1, 4])

    def test_a_packet_that_never_is_out(self) -> None:
        """In the ring each packet is due in cycle 0, and its life goes on to cycle 59, the last: the head moves in 2,
        is routed in 3, and waits from 4 on for the channel of the packet before it."""
        ring = TOP / "examples/ring.toml", TOP / "examples/ring.csv"
        shares = noc_tools.blame(*ring, 1)
        self.assertEqual([(share.cause, share.by, share.cycles) for share in shares], [
            ("Routed", None, 1), ("Granted", None, 1), ("Moved", None, 1), ("Routed", None, 1),
            ("NoIdleChannel", 1, 56),
        ])
        self.assertIn(" of the slowest 4 of 4 packets, 4 not out:", self.said("why", *ring, "--slowest", "100%"))

    def test_what_it_refuses(self) -> None:
        self.put(late=HEADER + "0,2,0,1,99\n", none=HEADER)
        self.assertEachRefused((f"why c {words}", sentence) for words, sentence in [
            ("t --slowest 0", "the slowest are a number of packets, or a part of them as 1%, not '0'"),
            ("t --slowest 1.5", "not '1.5'"),
            (f"t --slowest {'9' * 5000}", "not '999"),
            (f"t --slowest {'0' * 5000}1%", "not '000"),
            ("t --slowest 101%", "not '101%'"),
            ("t --slowest %", "not '%'"),
            ("t --slowest many", "not 'many'"),
            ("t --slowest 1 --class 1", "there is no class 1: the classes are 0 to 0"),
            ("t --slowest 1 --window 5:50", "B at most the 20 cycles of the run, not '5:50'"),
            ("t --slowest 1 --window 9:12", "no such packet is due within the run"),
            ("late --slowest 1", "no such packet is due within the run"),
            ("none --slowest 1", "no such packet is due within the run"),
            ("t 1 --slowest 1", "a packet and --slowest are two questions"),
            ("t 1 --csv", "--class, --window and --csv are for --slowest"),
            ("t", "which packet? Give its number, or --slowest"),
        ])
