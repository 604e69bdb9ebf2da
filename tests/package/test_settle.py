"""Packets that wait for others: their due times by hand, and as the reports of the program have them."""
import sys
import unittest
from dataclasses import replace
from random import Random

from noc_tools.errors import Refused
from noc_tools.network import Network
from noc_tools.precedence import After, Dependent, afters_in, dependent_text, in_order, settled
from noc_tools.statistics import NEVER
from support import LINE, FolderTest

HEADER = "source,destination,class,length,due,after\n"
BUSY = Network("mesh", (4, 4), 2, 2, 2, "dor", 600)


def chains(count: int) -> list[Dependent]:
    """Packets of which most are after one or two of those before them, with more traffic than passes at once."""
    random = Random(7)
    found = []
    for number in range(count):
        source = random.randrange(16)
        goal, length, due = (source + random.randrange(1, 16)) % 16, random.randrange(6, 13), random.randrange(9)
        row = source, goal, number % 2, length, due
        before = random.sample(range(number), min(number, random.choice((0, 1, 1, 2))))
        found.append(Dependent(row, tuple(After(each, random.randrange(12)) for each in before)))
    return found


class Rules(unittest.TestCase):
    def test_a_field(self) -> None:
        for field, found in [
            ("12+40 17", [(12, 40), (17, 0)]), ("-", []), ("", []), (" 3 ", [(3, 0)]), ("3+0", [(3, 0)]),
        ]:
            self.assertEqual(list(afters_in(field)), found, field)
        for field in ("x", "3+", "3+-1", "+4", "3 + 4", "3+1.5"):
            with self.assertRaises(ValueError, msg=field):
                afters_in(field)

    def test_an_order_and_a_circle(self) -> None:
        free, one, two = (0, 1, 0, 1, 0), (After(1, 0),), (After(2, 5), After(1, 1))
        self.assertEqual(in_order([Dependent(free, two), Dependent(free), Dependent(free, one)]), [1, 2, 0])
        with self.assertRaisesRegex(Refused, "never due: "):
            in_order([Dependent(free, one), Dependent(free, (After(0, 3),))])

    def test_what_does_not_settle(self) -> None:
        """Packets that are out at another time in each run."""
        runs = iter(range(100, 1000))
        packets = [Dependent((0, 1, 0, 1, 0)), Dependent((1, 0, 0, 1, 0), (After(0, 1),))]
        with self.assertRaisesRegex(Refused, "after 30 runs packets are still due in other cycles"):
            settled(packets, Network("mesh", (2,), 1, 1, 1, "dor", 100_000), lambda rows: [next(runs), 0], 30)

    def test_who_never_comes(self) -> None:
        """What is after a packet that is not out has no row."""
        packets = [Dependent((0, 1, 0, 1, 0)), Dependent((1, 0, 0, 1, 0), (After(0, 1),))]
        rows = settled(packets, LINE, lambda rows: [NEVER] * len(rows))
        self.assertEqual(rows, [(0, 1, 0, 1, 0)])


class Command(FolderTest):
    def test_lone_packets_by_hand(self) -> None:
        """Alone a packet is out after 3 d + 2 + L - 1 cycles: 8, then 5 and 8 more from 13, and 5 from 21 with 3 flits
        over one hop."""
        rows = ["0,2,0,1,0,-", "2,0,0,1,4,0+5", "1,2,0,3,0,1", "0,1,0,1,15,0+1", "2,1,0,1,0,2+1 0+90"]
        self.put(t=HEADER + "\n".join(rows) + "\n", c=Network("mesh", (3,), 1, 2, 1, "dor", 40))
        ran = self.tool("settle", "c", "t")
        self.assertEqual(ran.stdout.splitlines()[1:], ["0,2,0,1,0", "2,0,0,1,13", "1,2,0,3,21", "0,1,0,1,15"])
        told = "1 of 5 packets are not due before the end of the run, and are left out"
        self.assertEqual(ran.stderr, f"noc-tools settle: {told}\n")

    def test_due_times_are_those_of_the_run(self) -> None:
        """Each packet is due in the cycle that follows from when the program says that the others were out."""
        packets = chains(120)
        self.put(t=dependent_text(packets), c=BUSY)
        self.put(plain=self.said("settle", "c", "t"))
        rows = self.report("run", "c", "plain")
        self.assertEqual(len(rows), len(packets))
        waited = 0
        for packet, row in zip(packets, rows):
            times = [int(rows[after.packet]["out"]) + after.delay for after in packet.afters]
            self.assertEqual(int(row["due"]), max([packet.row[4], *times]))
            waited += int(row["due"]) > packet.row[4]
        self.assertGreater(waited, 60)
        self.assertGreater(sum(int(row["latency"]) > 40 for row in rows), 10)

    def test_replies_are_the_same(self) -> None:
        """Replies of one level, with the command that makes these."""
        self.put(c=BUSY)
        requests = [row for row in self.made("uniform", 0.2, 2) if row[4] < 200]
        lines = [",".join(map(str, row)) for row in requests]
        self.put(r="\n".join([HEADER.removesuffix(",after\n"), *lines, ""]))
        replies = [f"{d},{s},1,5,0,{number}+20" for number, (s, d, *_) in enumerate(requests)]
        self.put(t=HEADER + "\n".join([f"{line},-" for line in lines] + replies) + "\n")
        self.assertEqual(self.said("settle", "c", "t"), self.said("replies", "c", "r", 5, 20))

    def test_what_is_refused(self) -> None:
        both = {"t": HEADER + "0,1,0,1,0,1\n1,0,0,1,0,0\n"}
        self.assertEachRefused([
            ("settle c t", both, "never due"),
            ("settle c t", {"t": HEADER + "0,1,0,1,0,7\n"}, "packet 0 is after packet 7, which there is not"),
            ("settle c t", {"t": HEADER + "0,9,0,1,0,-\n"}, "packet 0 has a node that the network has not"),
            ("settle c t", {"t": HEADER + "0,1,0,1,0,x\n"}, "line 2 is not five numbers and packets with delays"),
            ("settle c t --runs 0", both, "at least one run is needed"),
            ("settle c t", {"t": "a,b\n1,2\n"}, "t is no traffic"),
        ])

    def test_noc_refuses(self) -> None:
        self.put(c=LINE, t=HEADER + "0,1,0,99,0,-\n")
        self.assertRefusedByNoc("settle c t", 3, "fault network 4 BadLength row 0(\\n.*)?")

    def test_what_takes_no_such_traffic_says_who_does(self) -> None:
        self.put(t=HEADER + "0,1,0,1,0,-\n")
        self.assertEachRefused([
            (f"{words}", "t has packets that wait for others: 'noc-tools settle' works out when they are due")
            for words in ("why c t 0", "replay c t", "latency c --traffic t", "memories c t m")
        ])


class Studies(FolderTest):
    """A traffic whose packets wait, in each network of a study."""

    STUDY = 'kind = "mesh"\nradix = [4, 4]\nrule = ["dor", "adaptive"]\nchannels = 4\nbuffer = 2\nclasses = 2\n' \
        'cycles = 600\nwindow = [0, 600]\ntraffic = "after.csv"\nload = [1, 2]\n'

    def test_each_run_settles_it(self) -> None:
        """The traffic of a run is what the command makes for its network; at a load of 2 packets come by half their due
        times, and delays are as they were."""
        packets = chains(100)
        faster = [Dependent((*each.row[:4], each.row[4] // 2), each.afters) for each in packets]
        self.put(**{"after.csv": dependent_text(packets), "faster.csv": dependent_text(faster), "s.toml": self.STUDY})
        for rule, load, name in ("dor", 1, "after.csv"), ("adaptive", 1, "after.csv"), ("adaptive", 2, "faster.csv"):
            case = f"kind=mesh radix=4x4 rule={rule} channels=4 buffer=2 classes=2 cycles=600 window=0:600"
            words = [*case.split(), "traffic=after.csv", f"load={load}", "--files", f"{rule}{load}"]
            line = self.said("sweep", "--one", *words)
            self.assertIn(",100,", line)
            made = (self.folder / f"{rule}{load}/traffic.csv").read_text()
            self.put(c=replace(BUSY, rule=rule, channels=4))
            self.assertEqual(made, self.said("settle", "c", name))
        ran = self.tool("sweep", "s.toml", "--out", "made")
        self.assertEqual((ran.returncode, ran.stdout.count("\n")), (0, 3), ran.stderr)

    def test_replies_have_no_part_in_it(self) -> None:
        self.put(**{"after.csv": dependent_text(chains(9)), "s.toml": self.STUDY + "replies = [0, 1, 2, 3]\n"})
        self.assertRefused(self.tool("sweep", "s.toml", "--out", "x"), "wait for others, and replies have no", "sweep")


class OfATrace(FolderTest):
    FILES = {"c": Network("mesh", (3,), 2, 2, 2, "dor", 200)}

    def test_messages_wait_by_their_names(self) -> None:
        """65 flits are two packets, and both have to be out; delays are in units of time, two of which are a cycle."""
        trace = "id,time,source,destination,bytes,after\nb,0,2,1,1040,a+9\na,4,0,2,16,-\nc,0,1,0,8,a+3 b\n"
        self.put(t=trace)
        said = self.said("packets", "c", "t", 16, "--factor", 0.5)
        self.assertEqual(said, HEADER + "2,1,0,64,0,2+4\n2,1,0,1,0,2+4\n0,2,0,1,2,-\n1,0,0,1,0,2+1 0+0 1+0\n")
        self.put(d=said)
        # alone a takes 3 * 2 + 2 cycles from 2 on
        self.assertEqual(self.said("settle", "c", "d").splitlines()[1:3], ["2,1,0,64,14", "2,1,0,1,14"])

    def test_without_names_they_are_rows(self) -> None:
        self.put(t="time,source,destination,bytes,after\n0,0,1,1,\n0,1,0,1,0+2\n")
        self.assertEqual(self.said("packets", "c", "t", 16), HEADER + "0,1,0,1,0,-\n1,0,0,1,0,0+2\n")

    def test_what_is_refused(self) -> None:
        head = "id,time,source,destination,bytes,after\n"
        self.assertEachRefused(("packets c t 16", {"t": head + text}, sentence) for text, sentence in [
            ("a,0,0,1,1,b\n", "message 'a' is after 'b', which no packet is of"),
            ("a,0,0,1,1,-\na,0,0,1,1,a\n", "two messages are called 'a'"),
            ("a,0,0,1,1,b++\n", "'b++' is no list of messages with delays"),
            ("a,0,0,1,1,b\nb,0,0,1,99999999,-\n", "none of those is left out that others wait for"),
        ])


class Converters(FolderTest):
    """The scripts in examples that make traces of other formats."""

    def time_of(self, network: Network, *words: object) -> int:
        """When the last packet of a program is out, with flits of 16 bytes."""
        self.put(c=network)
        made = self.called([sys.executable, "examples/traces.py", *words])
        self.assertEqual(made.stderr, "")
        self.put(trace=made.stdout)
        self.put(messages=self.said("packets", "c", "trace", 16))
        self.put(t=self.said("settle", "c", "messages"))
        return max(int(row["out"]) for row in self.report("run", "c", "t"))

    def test_a_reduction_on_a_ring(self) -> None:
        """Six steps of 3 + 2 + 15 cycles, behind three of which are 32 cycles of work: no message waits for a link."""
        ring = Network("torus", (4,), 2, 4, 1, "dateline", 1000)
        self.assertEqual(self.time_of(ring, "goal", "examples/allreduce.goal"), 6 * 20 + 3 * 32)

    def test_a_chain_of_tasks(self) -> None:
        """A packet of four flits takes 8 cycles over a hop: three tasks on two nodes in turn, and one that shares a
        node with the one before it."""
        self.put(chain="4\n0 10 0\n1 20 1 0\n2 30 1 1\n4 7 1 2\n5 1 1 4\n")
        pair = Network("mesh", (2,), 2, 4, 1, "dor", 1000)
        self.assertEqual(self.time_of(pair, "stg", "chain", 2, 64), 10 + 8 + 20 + 8 + 30 + 7 + 8)

    def test_who_takes_which_message(self) -> None:
        """Of two messages with one tag the second recv takes the second; what an operation needs may stand behind."""
        self.put(goal="""num_ranks 2
rank 0 {
a: send 16b to 1 tag 3
b: send 16b to 1 tag 3
b requires w
w: calc 50
}
rank 1 {
x: recv 16b from 0 tag 3
y: recv 16b from 0 tag 3
z: send 16b to 0 tag 0
z requires y
}
""")
        said = self.called([sys.executable, "examples/traces.py", "goal", "goal"]).stdout.splitlines()
        self.assertEqual(said[1:], ["r0.a,0,0,1,16,-", "r0.b,50,0,1,16,-", "r1.z,0,1,0,16,r0.b+0"])
