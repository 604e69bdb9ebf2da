"""The figures of a run: loads, latency in queue and network, hops, fairness, and when a state is steady."""
import json
import unittest
from collections.abc import Iterable
from dataclasses import replace
from typing import Any

from support import HEADER, HUGE, IN_THE_WAY, LINE, FolderTest, made_networks

from noc_tools.runs import Run
from noc_tools.statistics import Columns, Sample, Window, margin, margin_over, margins, own_time, student
from noc_tools.traffic import Packet

SPREAD = ["mean", "median", "p95", "p99", "max"]
PARTS = [f"{name}_{part}" for name in ("queue", "network", "hops") for part in SPREAD]
FIGURES = ["packets", "flits", "out", "offered", "accepted", *SPREAD]
PARTS += ["sources_least", "sources_mean", "sources_most"]
MARGINS = [f"{part}_margin" for part in ("mean", "median", "p95", "p99")]
# Of fewer than a hundred packets no margin is known.
NO_MARGINS = ",-,-,-,-"
REPORT_HEADER = "packet,source,destination,class,length,due,out,latency\n"
# Three nodes in a row. In the window 4:12 packets 1 to 4 are due, and packets 0, 1 and 3 come out; it has 24 pairs of
# node and cycle.
REPORT = REPORT_HEADER + (
    "0,0,1,0,2,0,9,9\n"
    "1,0,1,0,1,4,9,5\n"
    "2,0,2,1,3,5,15,10\n"
    "3,2,1,0,1,7,11,4\n"
    "4,2,1,1,2,9,16,7\n"
    "5,1,0,0,4,12,18,6\n"
)
# The loads of a source and of a destination are for this node alone. In the place of a stroke are the figures of queue
# and network, and behind it those of hops and of the accepted loads of sources.
OF_REPORT = """\
all,4,7,4,0.2917,0.1667,6.5,5,10,10,10|1.2,1,2,2,2,0.1250,0.2500,0.3750
class 0,2,2,2,0.0833,0.1667,4.5,4,5,5,5|1.0,1,1,1,1,0.1250,0.2500,0.3750
class 1,2,5,2,0.2083,0.0000,8.5,7,10,10,10|1.5,1,2,2,2,0.0000,0.0000,0.0000
distance 1,3,4,3,0.1667,0.1667,5.3,5,7,7,7|1.0,1,1,1,1,0.1250,0.2500,0.3750
distance 2,1,3,1,0.1250,0.0000,10.0,10,10,10,10|2.0,2,2,2,2,0.0000,0.0000,0.0000
source 0,2,4,2,0.5000,0.3750,7.5,5,10,10,10|1.5,1,2,2,2,0.3750,0.3750,0.3750
source 1,0,0,0,0.0000,0.0000,-,-,-,-,-|-,-,-,-,-,-,-,-
source 2,2,3,2,0.3750,0.1250,5.5,4,7,7,7|1.0,1,1,1,1,0.1250,0.1250,0.1250
destination 0,0,0,0,0.0000,0.0000,-,-,-,-,-|-,-,-,-,-,-,-,-
destination 1,3,4,3,0.5000,0.5000,5.3,5,7,7,7|1.0,1,1,1,1,0.1250,0.2500,0.3750
destination 2,1,3,1,0.3750,0.0000,10.0,10,10,10,10|2.0,2,2,2,2,0.0000,0.0000,0.0000
"""
UNKNOWN = ",".join([""] + ["-"] * 10 + [""])
NAME = "noc-tools latency: "
# The longest way of REPORT has two hops and three flits, and the window 4:12 eight cycles.
OWN_TIME = "no steady state: the network takes some 10 cycles to forget how it began, and the window has 8\n"
# Latencies 1 to 19, and one packet that stays.
STAYS = "19,0,1,0,1,0,-,-\n"
TWENTY = REPORT_HEADER + "".join(f"{n},0,1,0,1,0,{n + 1},{n + 1}\n" for n in range(19)) + STAYS


class Figures(FolderTest):
    FILES = FolderTest.FILES | {"r": REPORT}

    def test_they_are_those_of_the_definitions(self) -> None:
        names = [word for name in ("class", "distance", "source", "destination") for word in ("--by", name)]
        ran = self.tool("latency", "c", "r", "--window", "4:12", *names)
        self.assertEqual((ran.stderr, ran.returncode), (f"{NAME}{OWN_TIME}", 0))
        header = ",".join(["group", *FIGURES, *PARTS, *MARGINS]) + "\n"
        lines = OF_REPORT.replace("|", UNKNOWN).replace("\n", f"{NO_MARGINS}\n")
        self.assertEqual(ran.stdout, header + lines)

    def test_percentiles_fall_among_packets_that_stay(self) -> None:
        """Of twenty the 19th is the 95th percentile, and the 20th the 99th; the mean is that of the other 19."""
        ran = self.tool("latency", "c", given=TWENTY)
        line = ran.stdout.splitlines()[1]
        self.assertTrue(line.startswith("all,20,20,19,0.3333,0.3167,10.0,10,19,-,-,"), line)
        told = "noc-tools latency: 1 of the 20 packets of the window were not out at the end of the run\n"
        self.assertIn(told, ran.stderr)

    def test_windows_reach_what_a_drain_did(self) -> None:
        """The run is of 20 cycles, and the last packet is due in cycle 30 and out in cycle 36: it went on until
        then."""
        self.put(r=REPORT + "6,0,1,0,3,30,36,6\n")
        inside, outside = (self.tool("latency", "c", "r", "--window", f"21:{end}") for end in (37, 38))
        line = inside.stdout.splitlines()[1]
        self.assertTrue(line.startswith("all,1,3,1,0.0625,0.0625,6.0,6,6,6,6,"), line)
        self.assertRefused(outside, "B at most the 37 cycles of the run, not '21:38'", "latency")

    def test_json_holds_the_same(self) -> None:
        found = json.loads(self.said("latency", "c", "--json", given=TWENTY))
        (figures,) = found["figures"]
        self.assertEqual(list(figures), ["group", *FIGURES, *PARTS, *MARGINS])
        shown = [figures[name] for name in ("group", "p95", "p99", "mean", "queue_mean", "hops_max")]
        self.assertEqual((found["window"], shown), ([0, 20], ["all", 19, None, 10, None, 1]))
        self.assertAlmostEqual(figures["offered"], 1 / 3)
        self.assertEqual(len(found["warnings"]), 3)


class QueueAndNetwork(FolderTest):
    """Of IN_THE_WAY packet 1 takes 5 cycles over one hop. Packet 0 has the injection channel in cycles 0 to 2, waits at
    router 1 until cycle 6 for the channel of packet 1, and is out in 10. So packet 2 comes in in cycle 3. It is granted
    the channel that drains of packet 0 in 8, and the next in 11. Its second flit moves in 10, its third, for want of a
    place, in 13; this one leaves router 1 in 16, and the network in 17."""

    def test_each_has_its_figures(self) -> None:
        line = self.said("latency", "c", "--traffic", "t").splitlines()[1]
        latency, queue, network = "10.7,10,17,17,17", "1.0,0,3,3,3", "9.7,10,14,14,14"
        hops, sources = "1.7,2,2,2,2", "0.0500,0.1250,0.2000"
        self.assertEqual(line, f"all,3,5,3,0.0833,0.0833,{latency},{queue},{network},{hops},{sources}{NO_MARGINS}")

    def test_only_packets_that_are_out_count(self) -> None:
        """At the end of cycle 8 this is packet 1 alone, though all have come in; of three it is no half."""
        self.put(c=replace(LINE, cycles=9))
        line = self.said("latency", "c", "--traffic", "t").splitlines()[1]
        self.assertEqual(line.split(",")[6:23], "5.0,-,-,-,-,0.0,-,-,-,-,5.0,-,-,-,-,1.7,2".split(","))

    def test_a_run_may_drain(self) -> None:
        """Then it is that of 20 cycles, of which the configuration has 9: the loads are of these."""
        self.put(c=replace(LINE, cycles=9))
        line = self.said("latency", "c", "--traffic", "t", "--drain").splitlines()[1]
        self.assertTrue(line.startswith("all,3,5,3,0.1852,0.0370,10.7,10,17,17,17,1.0,0,3,3,3,9.7,10,14,14,14,"), line)

    def test_they_come_by_standard_input_too(self) -> None:
        """The configuration or the traffic."""
        named = self.said("latency", "c", "--traffic", "t")
        self.assertEqual(named, self.said("latency", "-", "--traffic", "t", given=LINE.text()))
        self.assertEqual(named, self.said("latency", "c", "--traffic", "-", given=IN_THE_WAY))

    def test_they_add_up_on_made_networks(self) -> None:
        """Of every packet of ten networks. A packet comes in when it is first seen at its source, and no sooner than
        one before it in the queue; a lone one takes 3 cycles a hop, 2 more, and one for each flit behind the head."""
        seen = 0
        for network, text in made_networks(10):
            self.put(c=network, t=text)
            run = Run(self.folder / "c", self.folder / "t")
            first: dict[int | None, tuple[int, int, str]] = {}
            for finding in run.trace():
                first.setdefault(finding.packet, (finding.cycle, finding.router, finding.channel.partition(".")[0]))
            packets = run.timed_packets
            self.assertEqual([replace(packet, came_in=None) for packet in packets], run.packets)
            for packet in packets:
                came_in = None if packet.came_in is None else (packet.came_in, packet.source, "local")
                self.assertEqual(came_in, first.get(packet.number))
                if packet.latency is not None:
                    seen += 1
                    self.assertEqual(packet.queue_latency + packet.network_latency, packet.latency)
                    alone = 3 * network.distance(packet.source, packet.destination) + 1 + packet.length
                    self.assertGreaterEqual(packet.network_latency, alone)
            self.assert_queues_keep_order(packets)
        self.assertGreater(seen, 100)

    def assert_queues_keep_order(self, packets: Iterable[Any]) -> None:
        """Those of a source come in by due time and then by number."""
        for source in {packet.source for packet in packets}:
            queue = sorted((packet.due, packet.number, packet.came_in) for packet in packets if packet.source == source)
            times = [came_in for _, _, came_in in queue]
            known = [time for time in times if time is not None]
            self.assertEqual((times[:len(known)], known), (known, sorted(set(known))))


class Parts(unittest.TestCase):
    def test_a_window_has_halves(self) -> None:
        self.assertEqual(Window(4, 12).halves(), (Window(4, 8), Window(8, 12)))

    def test_what_is_not_known_has_none(self) -> None:
        """A packet that waits, one that is in, one that is out."""
        packets = [Packet(0, 0, 1, 0, 1, 5), Packet(0, 0, 1, 0, 1, 5, None, 7), Packet(0, 0, 1, 0, 1, 5, 15, 7)]
        found = [(packet.latency, packet.queue_latency, packet.network_latency) for packet in packets]
        self.assertEqual(found, [(None, None, None), (None, 2, None), (10, 2, 8)])


class WellKnown(unittest.TestCase):
    def test_margins_are_those_of_the_text_book(self) -> None:
        """Of 1, 2, 3 the standard error is the root of a third, and Student's t for two degrees of freedom 4.303. One
        number tells nothing."""
        self.assertAlmostEqual(margin([1, 2, 3]), 4.303 / 3 ** 0.5)
        self.assertIsNone(margin([1]))
        for degrees, expected in (1, 12.706), (30, 2.042), (40, 2.021), (60, 2.000), (120, 1.980):
            self.assertAlmostEqual(student(degrees), expected, delta=0.001)

    def test_ten_batches_say_how_well_figures_are_known(self) -> None:
        """A hundred packets in the order of their due times, ten of each latency from 10 to 19: so batches have these
        as means, whose squares around 14.5 add up to 82.5. At most 14, the median, are all of five batches and none of
        the others: squares of a half, so the rank 50 is off by 2.262 times a sixth of 100, which is less than 38. The
        ranks 12 and 88 have the latencies 11 and 18. So far above the ranks 95 and 99 there is no packet."""
        rows = [Packet(n, 0, 1, 0, 1, n, n + 10 + n // 10) for n in range(100)]
        for packets in (rows, rows[::-1]):
            sample = Sample(Columns.of_packets(packets), Window(0, 200))
            found = sample.figures(LINE, 3).margins
            self.assertAlmostEqual(found.mean, 2.262 * (82.5 / 9 / 10) ** 0.5)
            self.assertEqual(found[1:], (4, None, None))

    def test_nothing_is_known_of_a_network_that_does_not_forget(self) -> None:
        """Packets over one hop that wait 20 cycles for a channel that each holds for 5: it takes 8 times 400 / 5 cycles
        to forget, and batches of a shorter window depend on one another."""
        packets = Columns.of_packets([Packet(n, 0, 1, 0, 1, n, n + 25) for n in range(100)])
        for cycles, known in (639, (None,) * 4), (640, (0, 0, 0, 0)):
            self.assertEqual(Sample(packets, Window(0, cycles)).figures(LINE, 3).margins, known)

    def test_the_rank_of_a_percentile_says_how_well_it_is_known(self) -> None:
        """Ten batches of twenty packets with one of two latencies each. The median is the longer one, of rank 100. In
        the first case 55 and 35 percent of the batches in turn are less: squares of a tenth, so the rank is off by
        2.262 times a thirtieth of 200, 16 at most; and 90 packets are less. In the second case 50 and 25 percent are
        less, so it is off by 19, and 75 packets are less."""
        first, second = ([[10] * low + [20] * (20 - low) for low in lows] * 5 for lows in ((11, 7), (10, 5)))
        self.assertEqual((margins(first).median, margins(second).median), (10, 0))

    def test_what_comes_in_steps_is_known_to_a_step(self) -> None:
        """Five runs whose percentile is the same, and four whose own margins are halved: the mean may be off by a step
        of three, or by what is the margin of each. Without own margins it is a step."""
        cases: list[tuple[list[int], list[int | None], int, float | None]] = [
            ([40] * 5, [9] * 5, 3, 3), ([40] * 5, [1] * 5, 3, 1), ([40] * 5, [None] * 5, 3, 3),
            ([40] * 5, [9] * 5, 0, 0), ([40] * 4, [4] * 4, 3, 3), ([40] * 4, [8] * 4, 3, 4), ([40], [2], 3, 2),
            ([40, 41], [2, None], 3, None), ([1, 2, 3, 4, 5], [1] * 5, 3, 2.776 * 0.5 ** 0.5),
        ]
        for figures, own, step, expected in cases:
            with self.subTest(figures=figures, own=own, step=step):
                self.assertAlmostEqual(margin_over(figures, own, step), expected)

    def test_nothing_is_known_of_few_packets_or_where_one_stays(self) -> None:
        """99, and a hundred of which one is not out."""
        rows = [Packet(n, 0, 1, 0, 1, n, n + 10) for n in range(100)]
        for packets in (rows[1:], [*rows[1:], Packet(0, 0, 1, 0, 1, 0)]):
            found = Sample(Columns.of_packets(packets), Window(0, 100)).figures(LINE, 3).margins
            self.assertEqual(set(found), {None})


def rising(lanes: int) -> str:
    """Lanes of one packet in each of 200 cycles, and each packet takes longer: the one of cycle d takes 10 + d/4
    cycles."""
    rows = [(due, due + due // 4 + 10) for due in range(200) for _ in range(lanes)]
    return report_of(rows)


def report_of(rows: Iterable[tuple[int, int]]) -> str:
    """A report of packets of one flit, by when they are due and out."""
    lines = [f"{number},0,1,0,1,{due},{out},{out - due}\n" for number, (due, out) in enumerate(rows)]
    return REPORT_HEADER + "".join(lines)


class Steady(FolderTest):
    def warned(self, *words: object) -> str:
        """What is said on standard error."""
        return self.tool("latency", "c", *words).stderr

    def test_halves_that_differ_are_told(self) -> None:
        """Latencies 5, 10 and 4 are due from 4 to 7, and 7 is from 8 to 11: 6.3 and 7.0, a tenth of 6.5 apart."""
        self.put(r=REPORT)
        warned = [self.warned("r", "--window", "4:12", "--tolerance", share) for share in (11, 10)]
        said = "the mean latency is 6.3 in the first half of the window and 7.0 in the second"
        own = f"{NAME}{OWN_TIME}"
        self.assertEqual(warned, [own, f"{NAME}no steady state: {said}\n{own}"])

    def test_halves_that_differ_by_chance_are_not_told(self) -> None:
        """A packet in each of a hundred cycles, and mean latencies of 22 and 18 in the halves. In the one report the
        batches of a half are all alike, so nothing is left to chance; in the other they are of 10 or of 30 cycles."""
        alike = [(due, due + (22 if due < 50 else 18)) for due in range(100)]
        apart = [(due, due + (10 if due // 10 % 2 else 30)) for due in range(100)]
        self.put(c=replace(LINE, cycles=300), alike=report_of(alike), apart=report_of(apart))
        warned = [self.warned(name, "--window", "0:100", "--tolerance", 10) for name in ("alike", "apart")]
        self.assertEqual(["in the first half of the window" in said for said in warned], [True, False])

    def test_an_overload_is_told(self) -> None:
        """Under way in cycle 66 are those of the cycles 45 to 65, and in cycle 100 those of 72 to 99: 21 and 28 of a
        lane. So 27 of 34 come out, and the mean latency of the halves is 28.1 and 32.4, less than a fifth apart. Of ten
        lanes 280 are 70 more than 210, and three times the root of 490 is 66; of four lanes 112 are 28 more than 84,
        and three times the root of 196 is 42. A packet waits 25.24 cycles on average, and has its channel for 5: so the
        network takes 8 times 637 / 5 cycles to forget."""
        self.put(c=replace(LINE, cycles=300), ten_lanes=rising(10), four_lanes=rising(4))
        warned = [self.warned(lanes, "--window", "66:100") for lanes in ("ten_lanes", "four_lanes")]
        told = "the packets under way are 210 before the window and 280 after it"
        told += ", 79.4 percent of what is offered comes out"
        own = f"{NAME}{OWN_TIME}".replace("10 cycles", "1019 cycles").replace("has 8", "has 34")
        self.assertEqual(warned, [f"{NAME}no steady state: {told}\n{own}", own])

    def test_a_growth_by_three_deviations_is_none(self) -> None:
        """400 packets come out in the window, and ten or nine that are due in it are not out at its end: ten is more
        than three times its root, and nine is not."""
        self.put(**{f"late{late}": report_of([(5, 6)] * 400 + [(9, 12)] * late) for late in (10, 9)})
        warned = [self.warned(f"late{late}", "--window", "2:10", "--tolerance", 200) for late in (10, 9)]
        self.assertIn("under way are 0 before the window and 10 after it, 97.6 percent of what is", warned[0])
        self.assertEqual(warned[1], "")

    def test_a_run_fills_at_first(self) -> None:
        """Ten packets are under way at the end of a window that begins with the run. Where 400 others are out, 97.6
        percent of what is offered comes out, and where a hundred are, 90.9 percent."""
        self.put(**{
            f"with{count}": report_of([(2, 3), (5, 6)] * (count // 2) + [(9, 12)] * 10) for count in (400, 100)
        })
        warned = [self.warned(f"with{count}", "--window", "0:10", "--tolerance", 200) for count in (400, 100)]
        self.assertEqual(warned[0], "")
        self.assertIn("under way are 0 before the window and 10 after it, 90.9 percent", warned[1])

    def test_a_source_that_falls_behind_is_told(self) -> None:
        """17 packets of node 2 are under way at the end of the window, four times whose root is 16.5, and with a
        hundred others before it and as many after it they are no growth of all: 117 are 17 more than 100, and three
        times the root of 217 is 44. To node 1 they are as little."""
        others = [f"{{}},0,1,0,1,{due},{due + 3},3\n" for due in (1, 9) for _ in range(100)]
        lines = [*others, *["{},2,1,0,1,5,12,7\n"] * 17]
        self.put(r=REPORT_HEADER + "".join(line.format(number) for number, line in enumerate(lines)))
        said = self.warned("r", "--window", "2:10", "--tolerance", 200)
        told = "no steady state: the packets of source 2 under way are 0 before the window and 17 after it\n"
        self.assertEqual(said, f"{NAME}{told}")

    def test_a_network_takes_time_to_forget(self) -> None:
        """Ten packets of one flit over one hop, 5 cycles if alone, that wait 10 cycles each: 8 times 100 / 5, where a
        channel is held for a flit and four cycles. Nine are too few, and leave the way of 5 cycles itself."""
        for count, expected in (10, 160), (9, 5):
            packets = Columns.of_packets([Packet(n, 0, 1, 0, 1, n, n + 15) for n in range(count)])
            self.assertEqual(own_time(packets, LINE), expected)


# The words of a call, the report, and a part of the sentence that answers it.
REFUSED = [
    ("c r", "a,b\n1,2\n", "r is no latency report"),
    ("c r", REPORT + "6,0,1\n", "r: line 8 has not the 8 fields of the header"),
    ("c r", REPORT + "6,0,1,0,1,0,5,5,5\n", "r: line 8 has not the 8 fields of the header"),
    ("c r", REPORT + "6,0,one,0,1,0,5,5\n", "r has no packet in line 8"),
    ("c r", REPORT + "6,0,9,0,1,0,5,5\n", "r has a node in line 8 that the network has not"),
    *(("c r", REPORT + f"6,0,1,0,{fields}\n", "r has a packet in line 8 that noc does not report") for fields in (
        "0,0,5,5", "65,0,5,5", "1,-1,5,6", "1,1000001,1000006,5", "1,5,5,0", "1,0,120000000,5", f"{'9' * 400},0,5,5",
    )),
    ("huge r", REPORT, "huge is no network that noc takes"),
    ("c r --window 5:5", REPORT, "a window is A:B with A below B"),
    ("c r --window 5:21", REPORT, "B at most the 20 cycles of the run, not '5:21'"),
    ("c missing", REPORT, "missing: No such file or directory"),
    ("c r --traffic t", REPORT, "--traffic makes one: give one of them"),
    ("c r --drain", REPORT, "--table and --drain are for --traffic"),
    ("c r --table t", REPORT, "--table and --drain are for --traffic"),
    ("- --traffic -", REPORT, "standard input can be one of the files"),
]


class Refusals(FolderTest):
    def test_what_is_refused(self) -> None:
        self.put(huge=HUGE)
        self.assertEachRefused((f"latency {words}", {"r": report}, sentence) for words, report, sentence in REFUSED)

    def test_what_noc_refuses_has_its_line_and_status(self) -> None:
        self.put(t=HEADER + "0,3,0,1,0\n")
        self.assertRefusedByNoc("latency c --traffic t", 3, "fault network 2 BadNode row 0")
