"""'compare' on waves that are written by hand: a packet that goes through a router, and a design beside it."""
import re
from dataclasses import replace
from typing import Any

from support import IN_THE_WAY, LINE, TOP, FolderTest

from noc_tools.difference import reason
from noc_tools.findings import Finding

# Packet 5 comes in at router 1, which has the ports +0 and local, and goes on by +0.0: routed in cycle 0, granted in 1,
# and its one flit moves in 2.
MODEL = """$scope module noc $end $scope module router_1 $end
$scope module plus_0 $end
$var string 1 ! plus_0_verdict_0 $end
$var integer 32 " plus_0_packet_0 $end $var string 1 # plus_0_out_0 $end
$upscope $end
$scope module local $end
$var string 1 $ local_verdict_0 $end
$var integer 32 % local_packet_0 $end $var string 1 & local_out_0 $end
$upscope $end $upscope $end $upscope $end
$enddefinitions $end
#0 $dumpvars sEmpty ! bz " s- # sRouted $ b101 % s- & $end
#1 sGranted $ s+0.0 &
#2 sMoved $
#3 sEmpty $ bz % s- &
#4
"""
MAP = 'clock = "top.clock"\noffset = 1\nscope = "top"\n[signals]\n'
MOVED = 'moved = "moved[{index}]"\n'


def design(values: dict[int, str], variables: str = "$var wire 3 m moved [2:0] $end",
           edges: tuple[int, int] = (5, 10)) -> str:
    """A dump with a clock whose edges rise at 5, 15 and so on, and what changes at each time."""
    lines = ["$scope module top $end $var wire 1 c clock $end", variables, "$upscope $end", "$enddefinitions $end"]
    times = {time: f"{1 if time % edges[1] else 0}c" for time in range(0, 60, edges[0])}
    for time in sorted({*times, *values}):
        lines.append(f"#{time} {times.get(time, '')} {values.get(time, '')}")
    return "\n".join(lines) + "\n"


OCCUR = (
    "Verdicts that occur there: all but NoFlit, NoIdleChannel, LostChannel, NoCredit, LostInput, LostSwitch.\n"
)
# The edge at 15 ends cycle 0, so what is there before the edge at 35 is cycle 2: bit 2 of moved, which is local.0.
GOOD = {0: "b0 m", 25: "b100 m", 35: "b0 m"}


class Compares(FolderTest):
    def compared(self, signals: str = MOVED, values: dict[int, str] = GOOD, head: str = MAP,
                 **given: Any) -> tuple[int, str, str]:
        """How 'compare' ends with a map and a design."""
        self.put(**{"r.vcd": MODEL, "d.vcd": design(values, **given), "m": head + signals})
        ran = self.tool("compare", "r.vcd", "d.vcd", "--map", "m")
        return ran.returncode, ran.stdout, ran.stderr

    def assertAgrees(self, *words: Any, **given: Any) -> None:
        status, said, error = self.compared(*words, **given)
        self.assertEqual((status, error), (0, ""), said)
        self.assertIn("agree", said)

    def assertDiffers(self, line: str, *words: Any, **given: Any) -> None:
        status, said, error = self.compared(*words, **given)
        self.assertEqual((status, error), (8, ""), said)
        self.assertEqual(said.splitlines()[0], line)

    def test_what_agrees_is_counted(self) -> None:
        agreed = "4 cycles (cycles 0 to 3) of 2 channels agree: moved.\n" + OCCUR
        self.assertEqual(self.compared(), (0, agreed, ""))

    def test_waves_of_1_0_0_are_taken(self) -> None:
        """Their variables have no port in their names."""
        self.compared()
        self.put(**{"r.vcd": re.sub(" (plus_0|local)_", " ", MODEL)})
        ran = self.tool("compare", "r.vcd", "d.vcd", "--map", "m")
        agreed = "4 cycles (cycles 0 to 3) of 2 channels agree: moved.\n" + OCCUR
        self.assertEqual((ran.returncode, ran.stdout), (0, agreed))

    def test_only_cycles_that_both_have_are_compared(self) -> None:
        """The last edge, at 55, ends cycle 2 with this offset, before which the model has moved."""
        later = {time + 20 if time else 0: change for time, change in GOOD.items()}
        said = self.compared(values=later, head=MAP.replace("offset = 1", "offset = 3"))[1]
        self.assertEqual(said, "3 cycles (cycles 0 to 2) of 2 channels agree: moved.\n" + OCCUR)
        earlier = {0: "b0 m", 5: "b100 m", 15: "b0 m"}
        said = self.compared(values=earlier, head=MAP.replace("offset = 1", "offset = -1"))[1]
        occur = OCCUR.replace("all but ", "all but Routed, ")
        self.assertEqual(said, "3 cycles (cycles 1 to 3) of 2 channels agree: moved.\n" + occur)

    def test_a_move_that_is_missing(self) -> None:
        """What changes at the time of an edge is there for the next one."""
        self.assertEqual(self.compared(values={0: "b0 m"})[:2], (8, (
            "cycle 2, router 1, local.0: the model moves a flit (Moved), and the design does not.\n"
            "In the model packet 5 has +0.0 there, a flit, a credit, and wins the switch.\n"
            "In the design top.moved[2] is 0 before the edge at 35.\n"
        )))

    def test_a_move_too_many(self) -> None:
        """In cycle 1, at both channels: the first in the order of ports is told."""
        status, said, _ = self.compared(values={0: "b0 m", 15: "b101 m", 35: "b0 m"})
        self.assertEqual((status, said), (8, (
            "cycle 1, router 1, +0.0: the design moves a flit, and the model does not (Empty).\n"
            "In the model no head is routed there, and its buffer is empty.\n"
            "In the design top.moved[0] is 1 before the edge at 25.\n"
            "1 further channel differs in this cycle: router 1, local.0.\n"
        )))

    def test_why_the_model_grants_and_routes(self) -> None:
        granted = self.compared('granted = "moved[{index}]"\n')[1].splitlines()
        self.assertEqual(granted[:2], [
            "cycle 1, router 1, local.0: the model grants an output channel (Granted), and the design does not.",
            "In the model packet 5 asks there for +0.0, which is idle, and comes first in turn.",
        ])
        routed = self.compared('routed = "moved[{index}]"\n')[1].splitlines()
        self.assertEqual(routed[:2], [
            "cycle 0, router 1, local.0: the model routes a head (Routed), and the design does not.",
            "In the model the head of packet 5 is first in its buffer.",
        ])

    def test_an_unknown_value_differs(self) -> None:
        """The bits on the left that a value leaves out are as its first one, where that is unknown, and else 0."""
        line = "cycle 2, router 1, local.0: the model has moved 1 (Moved), and the design x."
        self.assertDiffers(line, values={0: "b0 m", 25: "bx00 m", 35: "b0 m"})
        self.assertDiffers(line, values={0: "b0 m", 25: "bx0 m", 35: "b0 m"})
        self.assertDiffers(line.replace("design x", "design 2"), values={0: "b0 m", 25: "b200 m", 35: "b0 m"})

    def test_an_offset_moves_cycle_0(self) -> None:
        later = {time + 20 if time else 0: change for time, change in GOOD.items()}
        self.assertAgrees(values=later, head=MAP.replace("offset = 1", "offset = 3"))
        self.assertDiffers(
            "cycle 0, router 1, local.0: the design moves a flit, and the model does not (Routed).",
            head=MAP.replace("offset = 1", "offset = 3"),
        )

    def test_an_offset_is_found(self) -> None:
        """Where the map has none: here the edge at 35 ends cycle 0, and those at 5 to 25 come before it."""
        later = {time + 20 if time else 0: change for time, change in GOOD.items()}
        without = MAP.replace("offset = 1\n", "")
        for values, offset, cycles in [(GOOD, 1, "4 cycles (cycles 0 to 3)"), (later, 3, "3 cycles (cycles 0 to 2)")]:
            status, said, _ = self.compared(values=values, head=without)
            line = f"{cycles} of 2 channels agree: moved. The offset is {offset}."
            self.assertEqual((status, said.splitlines()[0]), (0, line))

    def test_an_offset_that_would_fit_is_named(self) -> None:
        """Of the design in tests/rtl, where cycle 0 begins behind the third edge; what differs by itself has none."""
        self.put(**{"r.vcd": self.said("waves", "examples/rtl.toml", "examples/rtl.csv")})
        names = (TOP / "examples/rtl_map.toml").read_text()
        for offset, status in [(3, 0), (4, 8), (2, 8), (0, 8)]:
            self.put(m=names.replace("offset = 3", f"offset = {offset}"))
            ran = self.tool("compare", "r.vcd", "examples/rtl_right.vcd", "--map", "m")
            self.assertEqual(ran.returncode, status)
            told = "With offset = 3 in the map all cycles agree."
            self.assertEqual(ran.stdout.splitlines()[-1] == told, bool(status))
        wrong = self.said("compare", "r.vcd", "examples/rtl_freed.vcd", "--map", "examples/rtl_map.toml")
        self.assertNotIn("With offset", wrong)

    def test_cycles_from_one_on(self) -> None:
        """The design moves a flit too many in cycle 0, and one too few in cycle 2."""
        for words, first in [((), "cycle 0"), (("--from", 1), "cycle 2"), (("--from", 2), "cycle 2")]:
            self.put(**{"r.vcd": MODEL, "d.vcd": design({0: "b100 m", 15: "b0 m"}), "m": MAP + MOVED})
            ran = self.tool("compare", "r.vcd", "d.vcd", "--map", "m", *words)
            self.assertEqual(ran.stdout.partition(",")[0], first)
        ran = self.tool("compare", "r.vcd", "d.vcd", "--map", "m", "--from", 3)
        self.assertEqual(ran.stdout.splitlines()[0], "1 cycle (cycle 3) of 2 channels agree: moved.")
        ran = self.tool("compare", "r.vcd", "d.vcd", "--map", "m", "--from", 4)
        self.assertRefused(ran, "have no cycle from cycle 4 on in common", "compare")

    def test_coverage_counts_cycles(self) -> None:
        """Of the four cycles +0.0 is Empty in all, and local.0 has four verdicts once each; from cycle 2 on, two."""
        self.put(**{"r.vcd": MODEL, "d.vcd": design(GOOD), "m": MAP + MOVED})
        for words, rows in [((), ["+0,4,0,0,0", "local,1,1,1,1"]), (("--from", 2), ["+0,2,0,0,0", "local,1,0,0,1"])]:
            said = self.said("compare", "r.vcd", "d.vcd", "--map", "m", "--coverage", *words)
            header = ("port,empty,routed,granted,moved,no_flit,no_idle_channel,lost_channel,no_credit,"
                      "lost_input,lost_switch")
            self.assertEqual(said.splitlines()[2:], [header, *(f"{row},0,0,0,0,0,0" for row in rows)])

    def test_the_other_edge(self) -> None:
        """The edges at 10, 20 and so on fall: with offset 1 the one at 20 ends cycle 0."""
        falling = MAP + 'edge = "falling"\n[signals]\n'
        falling = falling.replace("[signals]\n", "", 1)
        self.assertAgrees(values={0: "b0 m", 32: "b100 m", 40: "b0 m"}, head=falling)

    def test_a_signal_that_shows_a_cycle_later(self) -> None:
        late = {time + 10 if time else 0: change for time, change in GOOD.items()}
        delayed = 'moved = { name = "moved[{index}]", delay = 1 }\n'
        self.assertAgrees(delayed, late)
        self.assertDiffers("cycle 2, router 1, local.0: the model moves a flit (Moved), and the design does not.",
                           values=late)
        status, said, _ = self.compared(delayed, {0: "b0 m"})
        self.assertEqual((status, said.splitlines()[2]), (8, "In the design top.moved[2] is 0 before the edge at 45."))

    def test_names_of_every_form(self) -> None:
        """Bits of a vector that counts up, a variable for each bit, one for each port, and arithmetic."""
        self.assertAgrees(variables="$var wire 3 m moved[0:2] $end", values={0: "b0 m", 25: "b1 m", 35: "b0 m"})
        each = "$var wire 1 n moved [0] $end\n$var\nwire 1 m moved [2]\n$end"
        self.assertAgrees(variables=each, values={0: "0m 0n", 25: "1m", 35: "0m"})
        ports = "$scope module east $end $var wire 1 n moved $end $upscope $end\n" \
            "$scope module core $end $var wire 1 m moved $end $upscope $end"
        named = MAP.replace("[signals]", 'ports = ["east", "west", "core"]\n[signals]')
        self.assertAgrees('moved = "{port}.moved"\n', {0: "0m 0n", 25: "1m", 35: "0m"}, named, variables=ports)
        self.assertAgrees('moved = "moved[{(port + router * 3 - 3) % 3 + channel}]"\n')

    def test_other_numbers_of_ports(self) -> None:
        """A design whose local port is port 0, and +0 port 1."""
        numbered = MAP.replace("[signals]", "ports = [1, 2, 0]\n[signals]")
        self.assertAgrees(values={0: "b0 m", 25: "b1 m", 35: "b0 m"}, head=numbered)

    def test_packets_and_output_channels_are_compared_where_the_model_has_them(self) -> None:
        both = "$var reg 8 p packet [7:0] $end $var reg 2 o out [1:0] $end"
        for kind, good, bad, said in [
            ("packet", "b101 p", "b111 p", "the model has packet 5 (Granted), and the design 7."),
            ("out", "b0 o", "b10 o", "the model has out 0, which is +0.0 (Granted), and the design 2."),
        ]:
            with self.subTest(kind=kind):
                named = f'{kind} = "{kind}"\n'
                self.assertAgrees(named, {5: good, 35: f"bx {good[-1]}"}, variables=both)
                line = f"cycle 1, router 1, local.0: {said}"
                self.assertDiffers(line, named, {5: good, 15: bad}, variables=both)

    def test_codes_of_verdicts(self) -> None:
        """Codes of the design's own, by a list; a verdict that is not in it is not compared."""
        codes = MAP.replace("[signals]", 'verdicts = ["Empty", "Moved", "", "Granted"]\n[signals]')
        coded = 'verdict = "moved[{index}]"\n', {0: "b0 m"}
        variables = "$var wire 2 m moved[0] $end $var wire 2 n moved[2] $end"
        good = {0: "b0 m b10 n", 15: "b11 n", 25: "b1 n", 35: "b0 n"}
        self.assertAgrees(coded[0], good, codes, variables=variables)
        self.assertDiffers("cycle 1, router 1, local.0: the model says Granted, and the design Moved.",
                           coded[0], {**good, 15: "b1 n"}, codes, variables=variables)
        self.assertDiffers("cycle 1, router 1, local.0: the model says Granted, and the design 2.",
                           coded[0], {**good, 15: "b10 n"}, codes, variables=variables)

    def test_stalls_name_what_the_model_lacks(self) -> None:
        """At router 1 of a line packet 0 waits in cycle 4 for packet 1, and for its tail to drain (docs/MODEL.md)."""
        never = "\n".join([
            "$scope module top $end $var wire 1 c clock $end $var wire 1 m moved $end $upscope $end",
            "$enddefinitions $end", "#0 0c 0m", *(f"#{time} {time % 2}c" for time in range(1, 60)),
        ])
        self.put(c=LINE, t=IN_THE_WAY, **{"d.vcd": never})
        self.put(**{"r.vcd": self.said("waves", "c", "t", "--from", 4, "--router", 1)})
        self.put(m=MAP.replace("offset = 1", "offset = 0") + 'no_idle_channel = "moved"\n')
        ran = self.tool("compare", "r.vcd", "d.vcd", "--map", "m")
        self.assertEqual(ran.stdout.splitlines()[:2], [
            "cycle 4, router 1, -0.0: the model stalls by NoIdleChannel, and the design does not.",
            "In the model packet 0 waits there, but no channel that it may take is free.",
        ])

    def test_each_reason(self) -> None:
        """Who won is named; a flit that leaves the network needs no credit."""
        at_router = {
            channel: Finding(4, 1, channel, verdict, packet, out, ()) for channel, verdict, packet, out in [
                ("+0.0", "LostChannel", 6, "local.0"), ("+0.1", "Granted", 7, "local.0"), ("-0.0", "Moved", 3, "+0.0"),
                ("+0.2", "Moved", 8, "local.1"), ("-0.1", "LostInput", 4, "+0.1"), ("-0.2", "NoFlit", 9, "+0.2"),
                ("local.0", "LostSwitch", 5, "+0.3"), ("local.1", "NoCredit", 2, "-0.0"),
            ]
        }
        for channel, said in {
            "+0.0": "packet 6 asks for local.0 there, but another packet was granted the channel (+0.1)",
            "+0.2": "packet 8 has local.1 there, a flit, and wins the switch",
            "-0.1": "packet 4 has +0.1 there, but another channel of its port went first (-0.0)",
            "-0.2": "packet 9 has +0.2 there, but its next flit has not come yet",
            "local.0": "packet 5 has +0.3 there, but another port went first (-0.0)",
            "local.1": "packet 2 has -0.0 there, but the next buffer has no free slot",
        }.items():
            self.assertEqual(reason(at_router[channel], [*at_router.values()]), said)


class Refuses(FolderTest):
    def refused(self, sentence: str, **files: Any) -> None:
        """A comparison is refused by one sentence."""
        words = {"r.vcd": MODEL, "d.vcd": design(GOOD), "m": MAP + MOVED} | {
            {"model": "r.vcd", "dut": "d.vcd", "map": "m"}[name]: content for name, content in files.items()
        }
        with self.subTest(sentence=sentence):
            self.put(**words)
            self.assertRefused(self.tool("compare", "r.vcd", "d.vcd", "--map", "m"), sentence, "compare")

    def test_maps(self) -> None:
        for text, sentence in [
            ("clock = ", "m is no map: Invalid value"),
            ("[signals]\nmoved = 'moved'\n", "m is no map: it names no clock"),
            ("clock = 'top.clock'\n", "m is no map: it names no signal"),
            (MAP, "m is no map: it names no signal"),
            (MAP + "goes = 'moved'\n", "there is no signal 'goes', the signals are empty, routed"),
            (MAP + "moved = 7\n", "the signal 'moved' is no name, nor a name with a delay of 0 to 1000"),
            (MAP + "moved = { name = 'm', delay = -1 }\n", "the signal 'moved' is no name"),
            ("reset = 'r'\n" + MAP + MOVED, "there is no key 'reset', the keys are clock, edge"),
            ("edge = 'both'\n" + MAP + MOVED, "an edge is rising or falling, not 'both'"),
            (MAP.replace("offset = 1", "offset = true") + MOVED, "the value of 'offset' has not the type"),
            ("verdicts = ['Stall']\n" + MAP + MOVED, "'verdicts' are of Empty, Routed"),
            ("ports = [1, 2]\n" + MAP + MOVED, "the map has 2 ports, and a router has 3"),
            (MAP + "moved = 'moved[{node}]'\n", "'{node}' is no arithmetic of router, port, channel, index"),
            (MAP + "moved = 'moved[{port / 0}]'\n", "'{port / 0}' is no arithmetic"),
            (MAP + "moved = '{len(port)}'\n", "'{len(port)}' is no arithmetic"),
            (MAP + "moved = 'shifted[{index}]'\n", "d.vcd has no signal 'top.shifted[0]', which the map names"),
            (MAP + "moved = 'moved[{index + 1}]'\n", "d.vcd has no signal 'top.moved[3]', which the map names"),
            (MAP.replace("top.clock", "top.clk") + MOVED, "d.vcd has no signal 'top.clk', which the map names"),
            (MAP.replace("offset = 1", "offset = 90") + MOVED, "r.vcd and d.vcd have no cycle in common"),
        ]:
            self.refused(sentence, map=text)

    def test_a_channel_that_the_design_has_not(self) -> None:
        self.put(c=replace(LINE, channels=2), t=IN_THE_WAY)
        self.refused(
            "d.vcd has no signal 'top.moved_1', which the map names", model=self.said("waves", "c", "t"),
            dut=design(GOOD, "$var wire 1 m moved_0 $end"), map=MAP + "moved = 'moved_{channel}'\n",
        )

    def test_numbers_that_are_too_large(self) -> None:
        """Of thousands of digits, and such as would take all memory or time; and a value that its variable cannot
        have, of which zeros in front are no part."""
        great, head = "9" * 5000, design(GOOD).split("#0", 1)[0]
        for text, sentence in [
            (head + f"#{great} 1c", "d.vcd is no VCD file: '#9999999999999999999' is no time"),
            (head + f"#{1 << 63} 1c", "'#9223372036854775808' is no time"),
            (design(GOOD, f"$var wire {great} m moved $end"), "declares no variable"),
            (design(GOOD, f"$var wire {10 ** 10} m moved $end"), "declares no variable"),
            (design(GOOD, "$var wire 3 m moved [999999999:0] $end"), "has more than 1048576 bits"),
            (design(GOOD, f"$var wire 3 m moved [{great}:0] $end"), "d.vcd has no signal 'top.moved[0]'"),
            (design(GOOD | {25: "b1100 m"}), "'b1100' has more than the 3 bits of its variable"),
        ]:
            self.refused(sentence, dut=text)
        for name in ("router_1 ", "plus_0 ", "verdict_0 "):
            model = MODEL.replace(name, f"{name.split('_')[0]}_{great} ")
            self.refused("r.vcd does not say what" if name == "plus_0 " else "r.vcd has no", model=model)
        self.refused("r.vcd has the cycle 999999999999, and noc runs at most", model=MODEL + "#999999999999\n")
        self.refused(f"d.vcd has no signal 'top.moved[{great}]'", map=MAP + f"moved = 'moved[{great}]'\n")
        self.refused("the signal 'moved' is no name", map=MAP + f"moved = {{ name = 'm', delay = {great[:30]} }}\n")
        self.put(**{"r.vcd": MODEL, "m": MAP + MOVED, "d.vcd": design(GOOD | {25: "b000100 m"})})
        self.assertIn(" agree: moved.", self.said("compare", "r.vcd", "d.vcd", "--map", "m"))

    def test_dumps(self) -> None:
        head, _ = design(GOOD).split("#0", 1)
        for text, sentence in [
            ("", "d.vcd is no VCD file: it has no $enddefinitions"),
            (b"\xff\xfe\x00", "d.vcd is no VCD file: '\\udcff\\udcfe\\x00' stands among its declarations"),
            (b"\0\0\0\0\0\0\0\1\x49", "d.vcd is no VCD file: it seems to be an FST file, which fst2vcd"),
            (b"\xfe\0\0\0\0\0\0\1\x49", "it seems to be an FST file, which fst2vcd"),
            ("$var wire 1", "d.vcd is no VCD file: it ends within a command"),
            ("$var wire 1 c $end $enddefinitions $end", "'wire 1 c' declares no variable"),
            (head + "#0 0c hello", "'hello' is no change of a value"),
            (head + "#0 0c b101", "'b101' changes no variable"),
            (head + "#7 0c #5 1c", "'#5' is no time behind 7"),
            (head + "#0 0c b0 m", "the clock 'top.clock' of d.vcd has no rising edge"),
        ]:
            self.refused(sentence, dut=text)
        self.refused("r.vcd has no channel of a router as 'noc-tools waves' writes them", model=design(GOOD))
        self.refused("r.vcd has no 'noc.router_1.plus_0.plus_0_out_0', as", model=MODEL.replace("0_out", "0_way"))
        for old, new in [
            ("sEmpty !", "sOdd !"), ('bz "', 'b1 "'), ("s- #", "s+0.0 #"), ("s- #", ""),
            ("sRouted $ b101", "sRouted $ bz"), ("sRouted $ b101", "sRouted $ b3"),
        ]:
            place = "+0.0" if "!" in old or '"' in old or "#" in old else "local.0"
            self.refused(f"r.vcd does not say what router 1, {place} does in cycle 0", model=MODEL.replace(old, new))
        for out in "s+1.0 &", "s+0.1 &", "s+0 &", "s- &":
            sentence = "r.vcd does not say what router 1, local.0 does in cycle 1"
            self.refused(sentence, model=MODEL.replace("s+0.0 &", out))
        self.assertRefused(self.tool("compare", "no.vcd", "d.vcd", "--map", "m"), "no.vcd", "compare")


# The files that have the parts of a law.
LAWS = {"every_cycle_is_right": "Headline", "verdicts_take_effect": "Effects"}


class Assertions(FolderTest):
    def test_each_has_its_law(self) -> None:
        """The comment over an assertion, its message and the page name the same, and the law has such parts."""
        text = (TOP / "noc_tools/assertions.sv").read_text()
        named = re.findall(r"^ +// (\w+), (\w+) \((.*)\):$", text, re.MULTILINE)
        self.assertEqual([name for name, _, _ in named], re.findall(r'\$error\("(\w+): router %0d, ', text))
        self.assertEqual(len(named), text.count("assert ("))
        rows = re.findall(r"^\| `(\w+)` \| `(\w+)` \((.*?)\) \|", (TOP / "docs/RTL.md").read_text(), re.MULTILINE)
        self.assertEqual(sorted((name, law, parts.replace("`", "")) for name, law, parts in rows), sorted(named))
        for name, law, parts in named:
            specs = (TOP / f"crates/noc_theory_headline/specs/{LAWS[law]}.antt").read_text()
            for part in parts.split(", "):
                self.assertIn(f"\n  pub {part} : ", specs, name)

    def test_a_line(self) -> None:
        """Router 0 has the ports +0 and local, 1 has all three and 2 has -0 and local: 110 111 101 from the highest."""
        self.put(c=LINE)
        text = self.said("assertions", "c")
        self.assertIn("on a router of a mesh of 3, 1 VCs", text)
        self.assertIn("parameter int PORTS = 3, CHANNELS = 1, BUFFER = 2,", text)
        self.assertIn("LINKS = 9'h1bd;", text)
        self.assertNotRegex(text, "@[A-Z_]+@")

    def test_out(self) -> None:
        self.put(c=LINE)
        ran = self.tool("assertions", "c", "--out", "made.sv")
        self.assertEqual((ran.returncode, ran.stdout), (0, ""))
        self.assertEqual((self.folder / "made.sv").read_text(), self.said("assertions", "c"))
        self.assertEqual(self.tool("assertions", "c", "--out", "made.sv").returncode, 0)
        self.assertRefused(self.tool("assertions", "c", "--out", "."), "directory", "assertions")
        self.assertRefused(self.tool("assertions", "c", "--out", "c"), "c is an input: name another file", "assertions")
