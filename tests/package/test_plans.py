"""What a study may ask for: files and replies, tables made by itself, bytes, a search; and how it is shown again."""
import re
import shlex
import shutil
import sys
import unittest
import xml.etree.ElementTree as ElementTree
from collections import Counter
from collections.abc import Iterable, Sequence
from itertools import groupby
from operator import itemgetter
from typing import Any

from support import HEADER, SVG, FolderTest, texts_of
from test_sweep import SMALL, SweepTest, lines_of

from noc_tools import Demand, Network, Refused, Study
from noc_tools.study.combinations import combinations_of
from noc_tools.study.drawing import frames_of, framed, pictures_of
from noc_tools.study.plan import SETTINGS, View, case_of
from noc_tools.replies import Replies, settled, weight_of
from noc_tools.study.results import HEADER as HEADER_OF_RESULTS
from noc_tools.study import halfway
from noc_tools.traffic import Row

ROW = Network("mesh", (16,), 1, 2, 1, "dor", 4000)


class Demands(unittest.TestCase):
    def test_a_burst_is_of_cycles_in_succession(self) -> None:
        """A node that is on a quarter of the time makes a packet in each of these cycles for a load of 0.25: so packets
        come in some 320 bursts, which have 50 cycles on average."""
        due: dict[int, list[int]] = {}
        for source, _, _, _, cycle in Demand("uniform", 0.25, 1, burst=(50, 150)).rows(ROW):
            due.setdefault(source, []).append(cycle)
        bursts = [
            len(list(burst)) for cycles in due.values()
            for _, burst in groupby(enumerate(cycles), key=lambda pair: pair[1] - pair[0])
        ]
        self.assertAlmostEqual(sum(bursts) / 16 / 4000, 0.25, delta=0.04)
        self.assertAlmostEqual(sum(bursts) / len(bursts), 50, delta=10)

    def test_several_lengths_are_as_frequent(self) -> None:
        """One or eight flits, so that a packet has 4.5 on average."""
        rows = list(Demand("uniform", 0.45, (1, 8)).rows(ROW))
        lengths = Counter(row[3] for row in rows)
        self.assertEqual(set(lengths), {1, 8})
        self.assertAlmostEqual(lengths[1] / len(rows), 0.5, delta=0.02)
        self.assertAlmostEqual(sum(row[3] for row in rows) / 16 / 4000, 0.45, delta=0.02)

    def test_a_permutation_is_one_to_one(self) -> None:
        """All packets of a node go to the same one, and no two nodes send to one; another seed gives another one."""
        found = []
        for seed in (1, 2):
            ways = {row[:2] for row in Demand("permutation", 0.5, 1, seed).rows(ROW)}
            self.assertEqual([len({way[end] for way in ways}) for end in (0, 1)], [len(ways)] * 2)
            self.assertGreater(len(ways), 12)
            found.append(ways)
        self.assertNotEqual(*found)

    def test_what_is_refused(self) -> None:
        for demand, sentence in [
            (Demand("uniform", 0.6, 1, burst=(50, 50)), "a load is 0 or more, and at most 0.5 in these bursts"),
            (Demand("uniform", 0.1, 1, burst=(0, 5)), "a burst is ON:OFF, each of them 1 to 2000000 cycles"),
            (Demand("uniform", 0.1, 1, burst=(5, 10 ** 400)), "a burst is ON:OFF, each of them 1 to 2000000 cycles"),
            (Demand("hot-spot", 0.1, 1, share=1.1), "the share of a hot spot is 0 to 1, not 1.1"),
            (Demand("uniform", 5, (1, 8)), "a load is 0 or more, and at most the length of a packet"),
            (Demand("uniform", 0.1, (1, 65)), "a length is 1 to 64"),
            (Demand("hot-spot", 0.1, 1, share=-0.1), "the share of a hot spot is 0 to 1, not -0.1"),
            (Demand("hot-spot", 0.1, 1, share=float("nan")), "the share of a hot spot is 0 to 1, not nan"),
        ]:
            with self.subTest(sentence), self.assertRaisesRegex(Refused, re.escape(sentence)):
                demand.check(ROW)


class ByReplies(FolderTest):
    def test_they_come_after_their_requests(self) -> None:
        """A flit over two hops is out in cycle 8, and one over one hop in cycle 5: five cycles later their replies are
        due. That of a flit that is out in cycle 15 would be due when the run is over."""
        self.put(c=Network("mesh", (3,), 2, 2, 2, "dor", 20), t=HEADER + "0,2,0,1,0\n0,1,1,2,9\n1,2,0,1,10\n")
        said = self.said("replies", "c", "t", 4, 5)
        self.assertEqual(said, HEADER + "0,2,0,1,0\n0,1,1,2,9\n1,2,0,1,10\n2,0,1,4,13\n")

    def test_runs_are_made_until_nothing_changes(self) -> None:
        """In a network in which each reply makes all later packets a cycle later. Without replies the requests are out
        in cycles 3, 6 and 9, so replies are due in 4, 7 and 10. With these the later ones are out in 7 and 11, so their
        replies are due in 8 and 12, and that stays."""
        requests = [(0, 1, 0, 1, due) for due in (0, 3, 6)]
        runs = []

        def outs(rows: Sequence[Row]) -> list[int]:
            runs.append(len(rows))
            return [due + 3 + sum(row[2] == 1 and row[4] <= due + 3 for row in rows) for *_, due in rows]

        rows = settled(requests, (Replies(0, 1, 2, 1),), outs, 100)
        self.assertEqual([row[4] for row in rows[3:]], [4, 8, 12])
        self.assertEqual(rows[:3] + [row[:4] for row in rows[3:]], requests + [(1, 0, 1, 2)] * 3)
        self.assertEqual(runs, [3, 6, 6])

    def test_replies_are_answered_in_turn(self) -> None:
        """Requests, replies and acknowledgements on a mesh that is full: in a run of all of them each reply is due
        forty cycles after its request was out, and each acknowledgement two cycles after its reply; each but the last
        ones has one."""
        network = Network("mesh", (4, 4), 3, 2, 3, "dor", 600)
        self.put(c=network, requests=Demand("uniform", 0.1, 2).traffic(network))
        self.put(t=self.said("replies", "c", "requests", 4, 40, "--then", "2:1:2"))
        rows, counts = self.report("run", "c", "t"), Counter(row["class"] for row in self.report("run", "c", "t"))
        self.assertGreater(counts["2"], 100)
        for to, by, delay in ("0", "1", 40), ("1", "2", 2):
            outs = [(row["destination"], row["source"], int(row["out"]) + delay) for row in rows
                    if row["class"] == to and row["out"] != "-" and int(row["out"]) + delay < 600]
            dues = [(row["source"], row["destination"], int(row["due"])) for row in rows if row["class"] == by]
            self.assertEqual(dues, outs)

    def test_replies_that_are_there_are_told(self) -> None:
        """What a first call has made, to which a second one would add; no matter which class it would answer."""
        network = Network("mesh", (4, 4), 3, 2, 3, "dor", 600)
        self.put(c=network, requests=Demand("uniform", 0.1, 2).traffic(network))
        self.put(t=self.said("replies", "c", "requests", 4, 40))
        told = "the packets of the class 1 are replies to those of the class 0, 40 cycles later; more packets"
        self.assertEachRefused([
            ("replies c t 1 2 --to 1 --by 2", told), ("replies c t 1 2 --by 2", told), ("replies c t 4 40", told),
        ])

    def test_a_study_has_levels_too(self) -> None:
        """Four numbers for each; a run of them has packets of all three classes."""
        words = "kind=mesh radix=4x4 rule=dor channels=3 buffer=2 classes=3 length=2 load=0.1 cycles=300".split()
        words.append("replies=0:1:4:9:1:2:1:5")
        self.assertEqual(case_of(words).experiment.replies, (Replies(0, 1, 4, 9), Replies(1, 2, 1, 5)))
        ran = self.called([sys.executable, "noc-tools", "sweep", "--one", *words, "--files", "levels"])
        self.assertEqual(ran.returncode, 0, ran.stderr)
        rows = (self.folder / "levels/traffic.csv").read_text().splitlines()[1:]
        self.assertEqual({row.split(",")[2] for row in rows}, {"0", "1", "2"})

    def test_how_many_packets_one_counts_for(self) -> None:
        """With a reply and two answers to it; with none where its class has none."""
        levels = Replies(0, 1, 1, 1), Replies(1, 2, 1, 1), Replies(1, 3, 1, 1)
        self.assertEqual([weight_of(levels, (0, 1, number, 1, 0)) for number in range(4)], [4, 3, 1, 1])

    def test_what_is_refused(self) -> None:
        self.put(c=Network("mesh", (3,), 2, 2, 2, "dor", 20), odd=HEADER + "0,2,x,1,0\n")
        self.assertEachRefused([
            ("replies c t 4 5 --by 0", "replies are of another class than requests, and the classes are 0 to 1"),
            ("replies c t 4 5 --by 2", "replies are of another class than requests"),
            ("replies c t 65 5", "the length of a reply is 1 to 64"),
            ("replies c t 4 5 --then 0:1:1", "replies of the class 0 would have to be answered again, without an end"),
            ("replies c t 4 5 --then 2:1:1", "replies are of another class than requests, and the classes are 0 to 1"),
            ("replies c t 4 -1", "a reply is due 0 cycles after its request was out, or more"),
            ("replies c odd 4 5", "odd is no traffic: a row is not five numbers"),
        ])


TRACE = "kind,bytes,time,source,destination,note\n"


class OfTraces(FolderTest):
    FILES = {"c": Network("mesh", (3,), 2, 2, 2, "dor", 20)}

    def test_packets_are_those_of_the_trace(self) -> None:
        """Two flits of 16 bytes for 17; 65 flits are two packets; nothing goes to its own node; and half as many cycles
        as units of time."""
        self.put(t=TRACE + "a,17,10,0,2,x\nb,1040,13.5,2,1,\na,1,14,1,1,\nb,0,15,1,0,\n")
        said = self.said("packets", "c", "t", 16, "--from", 10, "--factor", 0.5, "--kind", "b=1")
        self.assertEqual(said, HEADER + "0,2,0,2,0\n2,1,1,64,1\n2,1,1,1,1\n1,0,1,1,2\n")

    def test_what_a_node_hands_in_is_spread(self) -> None:
        """Half a flit a cycle: packets of four flits of node 0 and class 0 are due eight cycles apart, one of two flits
        four cycles before the next; the one at 40 is free before. Class 1 and node 2 have a pace of their own."""
        first = "a,64,0,0,1,\n" * 2 + "a,32,0,0,1,\na,64,1,0,2,\nb,16,1,0,1,\n"
        self.put(t=TRACE + first + "a,64,0,2,1,\na,64,40,0,1,\n")
        said = self.said("packets", "c", "t", 16, "--pace", 0.5, "--kind", "b=1")
        self.assertEqual(sorted(said.splitlines()[1:]), sorted([
            "0,1,0,4,0", "0,1,0,4,8", "0,1,0,2,16", "0,2,0,4,20", "0,1,1,1,1", "2,1,0,4,0", "0,1,0,4,40",
        ]))
        self.put(t=TRACE + "a,1040,0,0,1,\n", late=TRACE + "a,1024,999999,0,1,\na,16,999999,0,1,\n")
        self.assertEqual(self.said("packets", "c", "t", 16, "--pace", 1), HEADER + "0,1,0,64,0\n0,1,0,1,64\n")
        self.assertEachRefused([
            ("packets c t 16 --pace 0", "RATE is a number above 0 and at most 1"),
            ("packets c t 16 --pace nan", "RATE is a number above 0 and at most 1"),
            ("packets c late 16 --pace 1", "by this pace a packet is due in cycle 1000063: noc takes 0 to 1000000"),
        ])

    def test_it_is_cut_with_a_word(self) -> None:
        """Of 20,004 packets, three in each cycle, those of the last two cycles are left out."""
        self.put(t=TRACE + "".join(f"a,1,{number // 3},0,1,\n" for number in range(20004)))
        ran = self.tool("packets", "c", "t", 16)
        told = "noc takes 20000 packets, so of 20004 the 19998 due before cycle 6666 are kept"
        self.assertEqual((ran.stderr, ran.stdout.count("\n")), (f"noc-tools packets: {told}\n", 19999))

    def test_a_message_of_any_size_is_cut(self) -> None:
        """A million flits and one, which are 15,626 packets, fit beside another message, and a greater one does not."""
        self.put(t=TRACE + f"a,1,0,0,1,\na,{16 * 10 ** 6 + 1},4,2,1,\n")
        whole = self.tool("packets", "c", "t", 16)
        self.assertEqual((whole.stderr, whole.stdout.count("\n")), ("", 15628))
        self.assertTrue(whole.stdout.endswith("2,1,0,64,4\n2,1,0,1,4\n"))
        self.put(t=TRACE + f"a,1,0,0,1,\na,{16 * 10 ** 18},4,2,1,\n")
        cut = self.tool("packets", "c", "t", 16)
        told = "noc takes 20000 packets, so of 15625000000000001 the 1 due before cycle 4 are kept"
        self.assertEqual((cut.stderr, cut.stdout), (f"noc-tools packets: {told}\n", HEADER + "0,1,0,1,0\n"))

    def test_what_is_refused(self) -> None:
        self.assertEachRefused((f"packets c t {words}", {"t": text}, sentence) for text, words, sentence in [
            ("time,source,destination\n", "16", "t is no trace"),
            (TRACE + "a,1,soon,0,1,\n", "16", "t: line 2 has no time, nodes and bytes"),
            (TRACE + "a,1,0,0,3,\n", "16", "t: line 2 has a node that the network has not"),
            (TRACE + "a,1,5,0,1,\n", "16 --from 9", "t: line 2 is due in cycle -4: noc takes 0 to 1000000"),
            (TRACE + "a,1,5,0,1,\n", "16 --from 5.5", "t: line 2 is due in cycle -1: noc takes 0 to 1000000"),
            (TRACE + "a,-1,5,0,1,\n", "16", "t: line 2 has no time, nodes and bytes"),
            (TRACE + "a,1,5,0,1,\n", "16 --kind b=1 a=1", "t has no packet of the kind 'b'"),
            (TRACE, "0", "BYTES is a whole number above 0"),
            (TRACE, "16 --factor 0", "FACTOR a number above 0"),
            (TRACE, "16 --kind a=2", "the classes are 0 to 1"),
        ])


# A torus of a made table and a mesh, in bytes, with packets of a file and replies to them.
PLAYED = """\
radix = [4, 4]
channels = 4
buffer = 2
classes = 2
flit_bytes = 8
cycles = 200
traffic = "t.csv"
replies = [0, 1, 3, 5]
measured_classes = [[0], [1]]
load = [1, 2]
cases = [{ kind = "mesh", rule = "odd-even" }, { kind = "torus", rule = "dateline-even" }]
"""
ONE_LINE = """\
kind = "mesh"
radix = [2]
rule = "dor"
channels = 1
buffer = 2
cycles = 100
traffic = "t.csv"
"""
REPLIES = SMALL.replace('"dateline" }', '"dateline", channels = 4 }').replace("seed =", "classes = 2\nseed =")
REPLIES = REPLIES.replace("seed =", "replies = [0, 1, 3, 5]\nseed =")
SEARCHED = SMALL.replace("load = [0.6, 0.1]", "load = 0.5\nsearch = 0.1").replace("cycles = 300", "cycles = 200")


class Plans(SweepTest):
    FILES = SweepTest.FILES | {"searched.toml": SEARCHED}

    def test_files_are_played_with_replies(self) -> None:
        """A flit a cycle goes from node 0 to node 1, and twice as fast at the load 2; each is answered by three."""
        self.put(**{"played.toml": PLAYED, "t.csv": HEADER + "".join(f"0,1,0,1,{due}\n" for due in range(0, 400, 8))})
        ran = self.sweep("played.toml", "--out", "played.out")
        self.assertEqual((ran.returncode, ran.stderr), (0, ""))
        rows = self.results("played.out")
        offered = {(row["measured_classes"], row["load"]): (row["packets"], float(row["offered"])) for row in rows}
        flits = {key: float(count) * (1 if key[0] == "0" else 3) for key, (count, _) in offered.items()}
        self.assertEqual({key: load for key, (_, load) in offered.items()}, {
            key: round(8 * amount / 16 / 67, 4) for key, amount in flits.items()
        })
        self.assertEqual((len(rows), offered["0", "1"][0], offered["0", "2"][0]), (8, "8", "17"))
        self.assertEqual({row["pattern"] + row["seed"] for row in rows}, {"--"})
        for row in rows:
            made = sorted((self.folder / "played.out" / "tables").glob(f"{row['rule']}*_2.csv"))
            self.assertEqual(len(made), 1)
        tables = {row["table_digest"] for row in rows}
        self.assertEqual((len(tables), "-" in tables), (2, False))
        settings = [f"{key}={word}" for key, word in list(rows[0].items())[1:24]]
        self.sweep("--one", *settings, "--files", "kept")
        files = [self.folder / "kept" / name for name in ("config.toml", "traffic.csv")]
        (table,) = (self.folder / "kept").glob(f"{rows[0]['rule']}*_2.csv")
        report = self.report("run", *files, "--table", table)
        answered = [row for row in report if row["class"] == "1"]
        requests = [row for row in report if row["class"] == "0" and row["out"] != "-"]
        due = [int(row["out"]) + 5 for row in requests]
        self.assertEqual([int(row["due"]) for row in answered], [cycle for cycle in due if cycle < 200])

    def test_the_load_at_which_a_network_gives_way_is_searched(self) -> None:
        """By halves between 0 and 0.5, up to a tenth; no run is made twice, and no command is left."""
        ran = self.sweep("searched.toml", "--out", "searched.out", env=self.watched("calls"))
        again = self.sweep("searched.toml", "--out", "searched.out", "--list")
        rows = self.results("searched.out")
        self.assertEqual((ran.returncode, again.stdout, len(lines_of(self.folder / "calls"))), (0, "", len(rows)))
        for combination in combinations_of(rows):
            loads = [line.load for line in combination.lines]
            kept = [line.load for line in combination.lines if line.keeps_up]
            failed = [line.load for line in combination.lines if not line.keeps_up]
            self.assertLessEqual(min(failed) - max([0, *kept]), 0.1)
            self.assertEqual(set(loads) - {0.5, 0.25, 0.125, 0.375, 0.0625, 0.1875, 0.3125, 0.4375}, set())
            self.assertIsNone(halfway(combination, 0.1))

    def test_a_search_ends(self) -> None:
        """Where two loads are as near as twelve digits allow, whatever nearness is asked for."""
        words = {"kind": "mesh", "packets": "0", "out": "0", "offered": "1"}
        loads = ["0", "0.7"]
        for _ in range(60):
            rows = [words | {"load": load, "accepted": str(int(float(load) < 0.3))} for load in loads]
            (combination,) = combinations_of(rows)
            load = halfway(combination, 1e-300)
            if load is None:
                break
            loads.append(load)
        self.assertIsNone(load)
        self.assertEqual(sorted(loads, key=float)[-1:] + loads[2:4], ["0.7", "0.35", "0.175"])

    def test_a_searched_study_is_collected(self) -> None:
        """In rounds, as --list prints the commands of the next loads; the lines of all rounds may be in one file."""
        self.sweep("searched.toml", "--out", "searched.out")
        lines = ""
        for _ in range(5):
            commands = self.sweep("searched.toml", "--out", "two.out", "--list").stdout.splitlines()
            lines += "".join(self.called(shlex.split(command)).stdout for command in commands)
            self.put(lines=lines)
            last = self.sweep("searched.toml", "--out", "two.out", "--collect", "lines")
            if last.returncode == 0:
                break
        whole = [sorted(lines_of(self.folder / name / "results.csv")) for name in ("searched.out", "two.out")]
        self.assertEqual(*whole)
        self.assertEqual(self.sweep("searched.toml", "--out", "three.out", "--collect", "lines").returncode, 0)


class Warned(SweepTest):
    def test_what_no_load_saturates_is_told(self) -> None:
        """Three flits a packet at a load of 0.1 saturate neither of two networks; at 0.9 they saturate one of them, as
        of the other only the load of 0.1 is asked for."""
        common = SMALL.replace("load = [0.6, 0.1]", "load = 0.1").replace("length = 2", "length = 3")
        self.put(**{"low.toml": common, "high.toml": common.replace('"dor" }', '"dor", load = [0.1, 0.9] }')})
        for name, count in ("low", 2), ("high", 1):
            ran = self.sweep(f"{name}.toml", "--out", f"{name}.out")
            told = f"no load saturates {count} of 2 combinations: they may take more than the table says"
            self.assertEqual((ran.returncode, ran.stderr), (0, f"noc-tools sweep: {told}\n"))

    def test_a_file_that_is_over_before_the_window_is_told(self) -> None:
        """Its last packet is due in cycle 95, and at the load 2 in cycle 47. Behind cycle 95 the window 50:100 has four
        cycles more, and the windows 50:99 and 20:99 have three. A twentieth of these windows is 2.5, 2.45 and 3.95."""
        traffic = HEADER + "".join(f"0,1,0,1,{due}\n" for due in range(0, 96, 5))
        told = "noc-tools sweep: in {} runs the traffic file is over before the window, so the loads are too low: "
        told += "at the load {} its last packet is due in cycle {}, and the window ends at {}\n"
        for window, loads, expected in [
            ("[50, 100]", "[1, 2]", told.format(2, 1, 95, 100)), ("[20, 99]", "[1, 2]", told.format(1, 2, 47, 99)),
            ("[20, 99]", "1", ""), ("[50, 99]", "1", told.format(1, 1, 95, 99)),
        ]:
            with self.subTest(window=window, loads=loads):
                self.put(**{"t.csv": traffic, "s.toml": ONE_LINE + f"window = {window}\nload = {loads}\n"})
                ran = self.sweep("s.toml", "--out", f"{window}{loads}.out")
                lines = [line for line in ran.stderr.splitlines(keepends=True) if "no load saturates" not in line]
                self.assertEqual((ran.returncode, "".join(lines)), (0, expected))


class Parts(SweepTest):
    def test_parts_are_for_those_who_ask(self) -> None:
        """Where they do not, nothing is traced, the parts are dashes, and all other figures are the same."""
        self.put(**{"whole.toml": SMALL, "less.toml": SMALL.replace("parts = true\n", "")})
        for name in ("whole", "less"):
            self.assertEqual(self.sweep(f"{name}.toml", "--out", f"{name}.out", env=self.watched(name)).returncode, 0)
        traced = [len(lines_of(self.folder / f"{name}.traced")) for name in ("whole", "less")]
        self.assertEqual(traced, [8, 0])
        apart = ("run", "parts", "queue_", "network_")
        rows = {name: sorted(self.results(f"{name}.out"), key=itemgetter(*SETTINGS)) for name in ("whole", "less")}
        whole, less = (
            [{key: word for key, word in row.items() if not key.startswith(apart)} for row in rows[name]]
            for name in ("whole", "less")
        )
        self.assertEqual(whole, less)
        words = {name: {row[key] for row in rows[name] for key in ("queue_mean", "network_mean")} for name in rows}
        self.assertEqual((words["less"], "-" in words["whole"]), ({"-"}, False))

    def test_settings_are_numbers_and_texts(self) -> None:
        self.put(**{"mixed.toml": SMALL.replace("length = 2", 'length = "1+3"')})
        with Study(self.folder / "mixed.toml", self.folder / "mixed.out") as study:
            row = study.make().rows()[0]
        self.assertEqual([row[key] for key in ("length", "parts", "radix", "channels")], ["1+3", "yes", "4x4", 2])


class Audits(SweepTest):
    def assertNotTaken(self, study: str, line: str, column: str, word: str, sentence: str) -> None:
        """A line with another word in a column is refused."""
        other = [word if name == column else field for name, field in zip(HEADER_OF_RESULTS, line.split(","))]
        self.put(lines=",".join(other) + "\n")
        ran = self.sweep(study, "--out", f"{column}.out", "--collect", "lines")
        self.assertRefused(ran, sentence, "sweep")

    def test_lines_of_other_things_are_not_taken(self) -> None:
        """Of another program, configuration, traffic or table; of replies of other requests; of other settings than
        the run has by its name; and what is no number."""
        self.put(**{"replies.toml": REPLIES})
        lines = {}
        for study in ("small.toml", "replies.toml"):
            self.sweep(study, "--out", f"{study}.out")
            lines[study] = lines_of(self.folder / f"{study}.out" / "results.csv")[1]
        for study, names in {
            "small.toml": ["program", "configuration", "traffic", "table"], "replies.toml": ["requests", "table"],
        }.items():
            for name in names:
                sentence = f"lines: line 1 is of another {name}: its digest is {'0' * 16}, and here "
                self.assertNotTaken(study, lines[study], f"{name}_digest", "0" * 16, sentence)
        for column, word, sentence in [
            ("rule", "adaptive", "lines: line 1 has the rule adaptive, and its run has dor"),
            ("ran", "299", "lines: line 1 is of another configuration"),
            ("ran", "many", "lines: line 1: 'many' of the column 'ran' is no number"),
            ("ran", "-", "lines: line 1: '-' of the column 'ran' is not 1 to 300"),
            ("p99", "many", "lines: line 1: 'many' of the column 'p99' is no number"),
        ]:
            self.assertNotTaken("small.toml", lines["small.toml"], column, word, sentence)

    def test_results_that_were_damaged_are_refused(self) -> None:
        self.sweep("small.toml", "--out", "one.out")
        path = self.folder / "one.out" / "results.csv"
        for damaged, sentence in [("many", "one.out/results.csv: line 2: 'many' of the column 'accepted' is no number"),
                                  ("0.1,0.1", "one.out/results.csv: line 2 is not whole")]:
            header, line, *more = lines_of(path)
            fields = line.split(",")
            fields[HEADER_OF_RESULTS.index("accepted")] = damaged
            self.put(**{"damaged": "\n".join([header, ",".join(fields), *more]) + "\n"})
            shutil.copy(self.folder / "damaged", path)
            self.assertRefused(self.sweep("small.toml", "--out", "one.out"), sentence, "sweep")
            path.write_text("\n".join([header, line, *more]) + "\n")

    def test_lines_are_made_again(self) -> None:
        """All are the same; one whose mean was changed is told."""
        self.sweep("small.toml", "--out", "one.out")
        path = self.folder / "one.out" / "results.csv"
        same = self.sweep("small.toml", "--out", "one.out", "--verify", 3)
        self.assertEqual((same.returncode, same.stdout), (0, "3 of 8 runs made again have the same bytes\n"))
        lines = lines_of(path)
        place = lines[0].split(",").index("mean")
        changed = lines[1].split(",")
        changed[place] = "99.9"
        path.write_text("\n".join([lines[0], ",".join(changed), *lines[2:]]) + "\n")
        told = f"one.out/results.csv: run {changed[0]} made again has another mean"
        self.assertRefused(self.sweep("small.toml", "--out", "one.out", "--verify", 8), told, "sweep")
        self.assertRefused(self.sweep("small.toml", "--out", "one.out", "--verify", 9), "8 runs have results", "sweep")


def made_rows(**values: Iterable[str]) -> list[dict[str, str]]:
    """Results of all combinations of some settings, each with two loads."""
    rows = [{"load": load, "accepted": load, "mean": "9", "packets": "5", "out": "5"} for load in ("0.1", "0.2")]
    for key, words in values.items():
        rows = [{**row, key: word} for word in words for row in rows]
    return rows


class Views(unittest.TestCase):
    def frames(self, view: View = View(), **values: Iterable[str]) -> list[list[tuple[str, dict[str, Any]]]]:
        """The names of the frames of each picture, and the styles of their curves."""
        combinations = combinations_of(made_rows(**values), view.along)
        pictures = list(frames_of(combinations, view, "accepted", "mean"))
        return [[(frame.name, {curve.name: curve.style for curve in frame.curves}) for frame in frames]
                for frames in pictures]

    def test_each_pattern_has_a_frame(self) -> None:
        """In which colours are those of the setting with most values, and dashes those of the other one."""
        rules = ["dor", "adaptive", "odd-even"]
        (frames,) = self.frames(pattern=["uniform", "tornado"], rule=rules, channels=["1", "2"])
        self.assertEqual([name for name, _ in frames], ["uniform", "tornado"])
        for _, styles in frames:
            self.assertEqual(len(styles), 6)
            self.assertEqual(styles, frames[0][1])
            for name, style in styles.items():
                place = rules.index(name.partition(",")[0])
                self.assertEqual((style.colour, style.dash), (place, int("2 channels" in name)))

    def test_a_frame_has_eight_curves_at_most(self) -> None:
        """Of twenty networks the setting with fewest values gets frames; and where one setting has twelve values, they
        stand in two frames."""
        (frames,) = self.frames(channels=list("1248"), buffer=["1", "2", "4", "8", "16"])
        self.assertEqual([len(styles) for _, styles in frames], [5] * 4)
        (frames,) = self.frames(buffer=list(map(str, range(1, 13))))
        self.assertEqual([len(styles) for _, styles in frames], [8, 4])
        styles = [style for _, styles in frames for style in styles.values()]
        self.assertEqual(len(set(styles)), 12)

    def test_frames_of_numbers_stand_in_their_order(self) -> None:
        """And those of words as the study has them."""
        patterns = ["uniform", "tornado"]
        (frames,) = self.frames(View(["pattern", "buffer"]), buffer=["16", "2", "4"], pattern=patterns)
        expected = [f"{pattern}, {count} slots" for pattern in patterns for count in (2, 4, 16)]
        self.assertEqual([name for name, _ in frames], expected)

    def test_a_study_says_how_it_is_shown(self) -> None:
        view = View(["channels"], "buffer", "rule")
        ((one, _),) = [self.frames(view, rule=["dor", "adaptive"], channels=["1", "2"], buffer=["1", "2"])[0]]
        name, styles = one
        self.assertEqual(name, "1 channel")
        found = {(style.colour, style.dash) for style in styles.values()}
        self.assertEqual((found, styles["adaptive, 1 slot"].dash), ({(0, 0), (0, 1), (1, 0), (1, 1)}, 1))

    def test_curves_go_along_what_is_said(self) -> None:
        """Along the load each traffic file has a frame. Along the traffic each load has a curve from file to file."""
        files = ["b.csv", "a.csv"]
        (loads,), (traffics,) = (self.frames(view, traffic=files) for view in (View(), View(along="traffic")))
        self.assertEqual([name for name, _ in loads], files)
        self.assertEqual([list(styles) for _, styles in traffics], [["load 0.1", "load 0.2"]])

    def test_points_have_colours_of_their_own(self) -> None:
        """Of one traffic file, unless dashes are asked for."""
        told = {"traffic": ["t.csv"], "rule": ["dor", "adaptive"], "channels": ["1", "2"], "load": ["0.1"]}
        for view, styles in [(View(along="traffic"), [(colour, 0) for colour in range(4)]),
                             (View(along="traffic", dash="rule"), [(0, 0), (0, 1), (1, 0), (1, 1)])]:
            ((_, found),) = self.frames(view, **told)[0]
            self.assertEqual([tuple(style) for style in found.values()], styles)

    def test_too_many_frames_make_several_pictures(self) -> None:
        pictures = self.frames(pattern=[f"p{number}" for number in range(12)], channels=["1", "2"])
        self.assertEqual([len(frames) for frames in pictures], [9, 3])

    def test_a_frame_without_a_point_stays(self) -> None:
        """And the picture says of how many curves it shows none. A picture without any point is none."""
        rows = [row | {"mean": "-" if row["pattern"] == "tornado" else "9"}
                for row in made_rows(pattern=["uniform", "tornado"])]
        ((_, drawn),) = pictures_of(rows, View(), "accepted", "mean", None)
        self.assertLessEqual({"uniform", "tornado", "without a point here: 1 of 2 curves"},
                             set(texts_of(ElementTree.fromstring(drawn))))
        nothing = [row for row in rows if row["pattern"] == "tornado"]
        self.assertEqual(list(pictures_of(nothing, View(), "accepted", "mean", None)), [])

    def test_frames_in_another_file_are_named(self) -> None:
        """Ten patterns are a frame too many for one picture."""
        rows = made_rows(pattern=[f"pattern {number}" for number in range(10)])
        drawn = {file: texts_of(ElementTree.fromstring(text)) for file, text in
                 pictures_of(rows, View(), "accepted", "mean", None, "p99")}
        self.assertEqual(list(drawn), ["p99.svg", "p99_2.svg"])
        first, second = drawn.values()
        place = first.index("also in p99_2.svg:")
        self.assertEqual(first[place + 1:place + 2], ["  pattern 9"])
        self.assertEqual(len(second[second.index("also in p99.svg:") + 1:]), 9)

    def test_keeps_up_to_has_the_step_of_its_grid(self) -> None:
        """From 0.2 at a load of 0.25 up to 0.24, as the next load was 0.05 more: a fifth of the height of its mark."""
        rows = [row | {"keeps_up_to": "0.2", "keeps_up_load": "0.25", "keeps_up_step": step}
                for row, step in zip(made_rows(buffer=["1", "2"]), ("0.05", "-"))]
        ((_, drawn),) = pictures_of(rows, View(along="buffer"), "accepted", "keeps_up_to", None)
        root = ElementTree.fromstring(drawn)
        (bar,) = [bar for bar in root.iter(f"{SVG}line") if bar.get("stroke-width") == "1.2"]
        low, high = float(bar.get("y1")), float(bar.get("y2"))
        ground = max(float(line.get("y1")) for line in root.iter(f"{SVG}line") if line.get("x1") == "0")
        self.assertAlmostEqual((low - high) / (ground - low), 0.2, places=2)
        self.assertIn("bar: up to the next load that was tried", texts_of(root))

    def test_what_is_not_framed_is_named(self) -> None:
        combinations = combinations_of(made_rows(pattern=["uniform"], channels=["1", "2"]))
        self.assertEqual(framed(combinations, ["channels"], View()), [])


# Each load has a p99 of one seed and not of the other.
TWO_SEEDS = """\
rule,parts,load,seed,accepted,mean,p99,queue_p99
dor,no,0.1,1,0.1,-,9,-
dor,no,0.1,2,0.1,8,-,-
"""


class Drawings(SweepTest):
    def test_any_column_is_drawn_again(self) -> None:
        """Of the runs of a mesh alone; over loads with two seeds; and of the table along channels."""
        plural = SMALL.replace("channels = 2", "channels = [2, 4]")
        self.put(**{"plural.toml": plural})
        self.sweep("plural.toml", "--out", "plural.out")
        results, table = (f"plural.out/{name}.csv" for name in ("results", "saturation"))
        texts = set(texts_of(self.drawn("draw", results, "--y", "queue_p99", "--where", "kind=mesh")))
        self.assertLessEqual({"99th percentile of queue latency, in cycles", "2 channels", "4 channels"}, texts)
        self.assertFalse([text for text in texts if "torus" in (text or "")])
        root = self.drawn("draw", table, "--x", "slots", "--y", "saturation", "--along", "channels")
        curves = [group for group in root.iter(f"{SVG}g") if (group.get("id") or "").startswith("curve-")]
        marks = [len(list(group)) - 1 for group in curves]
        self.assertEqual((marks, "flits that the buffers of a link hold" in texts_of(root)), ([2, 2], True))

    def test_what_is_refused(self) -> None:
        self.put(r="kind,load,mean,accepted\nmesh,0.1,-,0.1\ntorus,0.1,much,0.2\n", e="kind,load,mean,accepted\n",
                 n="kind,load,mean,accepted\nmesh,0.1,-,0.1\n", o="kind,load,mean,accepted\nmesh,0.1,nan,0.1\n",
                 s=TWO_SEEDS)
        self.assertEachRefused((f"draw {words}", sentence) for words, sentence in [
            ("r --y p99", "r has no column 'p99': its columns are kind, load, mean, accepted"),
            ("r", "r: 'much' of the column 'mean' is no number"),
            ("o", "o: 'nan' of the column 'mean' is no number"),
            ("r --y load --where kind", "'kind' is no COLUMN=VALUE of the file"),
            ("r --y load --where kind=ring", "no line has kind=ring"),
            ("r --y load --colour mean", "'mean' is no setting of r"),
            ("r --y load --frames channels", "'channels' is no setting of r"),
            ("e", "e has no results"),
            ("r --top 0", "--top is a number above 0"),
            ("n", "n: each line has a dash in the column 'mean'"),
            ("s --y p99", "there is no point to draw"),
            ("s --y mean --where seed=1", "s: each line has a dash in the column 'mean'"),
            ("s --y queue_p99", "s: each line has a dash in the column 'queue_p99': the study would need parts = true"),
            ("s --y p99 --dash seed", "a curve has all values of 'seed', which so tells no curves apart"),
            ("s --y p99 --frames rule,load", "a curve has all values of 'load', which so tells no curves apart"),
            ("s --y p99 --x load --along rule --colour rule", "a curve has all values of 'rule', which so tells no"),
        ])
