"""The network in SystemVerilog of tests/rtl, run by Icarus Verilog: it agrees with the program cycle by cycle, and what
is wrong in a mutant is found by 'compare' and by the assertions. Verilator binds these to the design."""
import re
import shutil
import subprocess
import unittest
from dataclasses import replace
from typing import Any

from support import HEADER, LINE, TOP, FolderTest

from noc_tools.findings import COLUMNS
from noc_tools.network import Network

ICARUS = shutil.which("iverilog") and shutil.which("vvp")
CHECKER = "noc_router_checker.sv"
SOURCES = ["flit", "round_robin", "flit_buffer", "router", "source", "network", "bench"]
MESH = Network("mesh", (3, 3), 2, 2, 1, "dor", 1000)
RING = Network("torus", (4,), 2, 3, 1, "dateline", 1000)
WIDE = Network("mesh", (4, 2), 4, 2, 2, "dor", 1000)
# The flits of packet 0 fill both slots at router 1 (cycles 3 and 4), where packet 1 keeps +0.0 up to cycle 6.
FULL = HEADER + "0,2,0,3,0\n1,2,0,2,0\n"
# The one flit of packet 1 goes by +0.0 at router 1 in cycle 2, and its credit is back in 6. Packet 0 asks from 4 on.
DRAINS = HEADER + "0,2,0,1,0\n1,2,0,1,0\n"
# Both packets have a channel of the link from router 1 to 2 in cycle 6. Packet 0 moved in cycle 5, so it is the turn of
# the port local.
IN_TURN = HEADER + "0,2,0,4,0\n1,2,0,4,3\n"
TWO_CHANNELS = replace(LINE, channels=2)
# A source, a text of it, and what stands in its place.
Edit = tuple[str, ...]
# What is wrong in each mutant: a text of a source, what stands in its place, a run that shows it, the first difference,
# the cycle of the first one where moves alone are compared, and the assertion that finds it too, if one does.
MUTANTS: dict[str, tuple[Any, ...]] = {
    "a credit too many": (
        "router", "credits[o*COUNT +: COUNT] <= BUFFER;", "credits[o*COUNT +: COUNT] <= BUFFER + 1;", LINE, FULL,
        "cycle 4, router 0, local.0: the design moves a flit, and the model does not (NoCredit).", 4, "credit_room",
    ),
    "fixed priority": (
        "round_robin", "pointer <= (choice + 1) % SIZE;", "pointer <= 0;", TWO_CHANNELS, IN_TURN,
        "cycle 6, router 1, -0.0: the design moves a flit, and the model does not (LostSwitch).", 6, "output_pointer",
    ),
    "a channel that is freed at the tail": (
        "router", "output_state[o*2 +: 2] <= P == LOCAL ? FREE : DRAINING;",
        "output_state[o*2 +: 2] <= FREE;", LINE, DRAINS,
        "cycle 4, router 1, -0.0: the design grants an output channel, and the model does not (NoIdleChannel).",
        5, "freed",
    ),
    "a move without a credit": (
        "router", "held != 0 && has_credit[i];", "held != 0;", LINE, FULL,
        "cycle 4, router 0, local.0: the design moves a flit, and the model does not (NoCredit).", 4, "move_credit",
    ),
    "a flit that is dropped where the buffer is read": (
        "router", ".write(landing[i])", ".write(landing[i] && !moved[i])", LINE, FULL,
        "cycle 4, router 0, local.0: the model says NoCredit, and the design NoFlit.", 9, "flits_kept",
    ),
    "a flit that is lost on a link": (
        "network", "= node[OTHER].flit_out_valid[BACK];", "= 0;", LINE, FULL,
        "cycle 3, router 1, -0.0: the model says Routed, and the design Empty.", 5, None,
    ),
}
# Packets of both other nodes go to node 2, and back.
CROWD = HEADER + "0,2,0,4,0\n1,2,0,4,0\n0,2,0,4,0\n1,2,0,4,0\n2,0,0,3,0\n1,0,0,3,0\n0,1,0,2,0\n"
# What is wrong where each of the other assertions fails: a text of a source, and what stands in its place.
BROKEN = {
    "grant_may": ("router", "asks[i] && grantee[asked[i*VC +: VC]*VC +: VC] == i;", "state[i*2 +: 2] == WAITING;"),
    "grant_in_turn": (
        "round_robin", "distance = SIZE - 1; distance >= 0; distance--", "distance = 0; distance < SIZE; distance++",
    ),
    "move_flit": ("router", "state[i*2 +: 2] == ACTIVE && held != 0 &&", "state[i*2 +: 2] == ACTIVE &&"),
    "move_in_turn": ("router", "picked[i] && port_wins[P];", "picked[i];"),
    "buffer_room": ("router", "held != 0 && has_credit[i];", "held != 0;"),
    "one_owner": ("router", "idle[o] = output_state[o*2 +: 2] == FREE;", "idle[o] = 1;"),
    "credits_kept": (
        "router", "credits[o*COUNT +: COUNT] - sent + credit_in[o];", "credits[o*COUNT +: COUNT] + credit_in[o];",
    ),
    "credit_back": ("router", "p != LOCAL && port_wins[p];", "port_wins[p];"),
    "no_link": ("network", "assign flit_in_valid[p] = 0;", "assign flit_in_valid[p] = 1;"),
    "routed_kept": ("router", "first[TAIL]) state[i*2 +: 2] <= IDLE;", "first[TAIL]) state[i*2 +: 2] <= WAITING;"),
    "granted_owns": ("router", "owned[i*VC +: VC] <= asked[i*VC +: VC];", "owned[i*VC +: VC] <= 0;"),
    "owner_kept": ("router", "state[i*2 +: 2] <= WAITING;", "state[i*2 +: 2] <= ACTIVE;"),
    "idle_kept": (
        "router", "if (given[o]) output_state[o*2 +: 2] <= OWNED;", "if (given[o]) output_state[o*2 +: 2] <= FREE;",
    ),
    "channel_pointer": ("round_robin", "pointer <= (choice + 1) % SIZE;", "pointer <= choice;"),
    "input_pointer": ("router", ".wins(port_wins[p])", ".wins(1'b1)"),
}


# Each assertion as its file has it: its name, its law, and the parts of that.
ASSERTED = (TOP / "noc_tools/assertions.sv").read_text()
LAWS = re.findall(r"// (\w+), (\w+) \(([\w, ]+)\):\n", ASSERTED)
# Where the parts of a law stand: they are fields of a record in a file.
RECORDS = {"every_cycle_is_right": ("Headline", "IsRightCycle"), "verdicts_take_effect": ("Effects", "IsRightStep")}


def has_verilator() -> bool:
    """Whether there is a Verilator that knows delays, and the compiler that it needs."""
    if not all(map(shutil.which, ["verilator", "g++", "make"])):
        return False
    version = subprocess.run(["verilator", "--version"], capture_output=True, text=True).stdout
    return version.startswith("Verilator 5")


def broken_by(said: str) -> set[str]:
    """The assertions that failed in a simulation."""
    return set(re.findall(r"^ERROR: .*: (\w+): router", said, re.MULTILINE))


class Laws(unittest.TestCase):
    def test_the_page_has_those_of_the_assertions(self) -> None:
        self.assertEqual([name for name, _, _ in LAWS], re.findall(r'\$error\("(\w+): ', ASSERTED))
        rows = re.findall(r"^\| `(\w+)` \| `(\w+)` \(([`\w, ]+)\) \|", (TOP / "docs/RTL.md").read_text(), re.MULTILINE)
        self.assertEqual(sorted((name, law, parts.replace("`", "")) for name, law, parts in rows), sorted(LAWS))

    def test_they_are_proved_and_have_these_parts(self) -> None:
        crate = TOP / "crates/noc_theory_headline"
        for law, (file, record) in RECORDS.items():
            self.assertRegex((crate / "src/laws.rt").read_text(), rf"fn {law}\(\)\n(?: .*\n)*? .*\b{record}\b")
            text = (crate / f"specs/{file}.antt").read_text()
            (fields,) = re.findall(rf"^pub record {record} .*\n((?: .*\n)+)", text, re.MULTILINE)
            parts = {part for _, other, some in LAWS if other == law for part in some.split(", ")}
            self.assertLessEqual(parts, set(re.findall(r"^  pub (\w+) :", fields, re.MULTILINE)))


class Memories(FolderTest):
    def test_words_by_hand(self) -> None:
        """Node 0 of a line sends one flit to 2, and later, though that stands first, two flits. Its router sends to its
        node by local.0 and .1, which are the channels 4 and 5, and to others by +0, the channels 0 and 1."""
        self.put(c=replace(LINE, channels=2), t=HEADER + "0,1,0,2,9\n0,2,0,1,3\n")
        said = self.said("memories", "c", "t", "made")
        self.assertEqual(said.split(), [
            "DIMENSIONS=1", "K0=3", "K1=1", "TORUS=0", "CLASSES=1", "CHANNELS=2", "BUFFER=2", "PACKETS=2", "CYCLES=20",
        ])
        comment = "// due 20, length 7, class 2, destination 8, packet 16\n"
        words = [(3 << 33) + (1 << 26) + (2 << 16) + 1, (9 << 33) + (2 << 26) + (1 << 16), 0]
        queue = "".join(f"{word:x}\n" for word in words)
        self.assertEqual((self.folder / "made/packets_0.hex").read_text(), comment + queue)
        self.assertEqual((self.folder / "made/packets_2.hex").read_text(), comment + "0\n0\n0\n")
        self.assertEqual((self.folder / "made/routes_0.hex").read_text(), "30\n3\n3\n")
        self.assertEqual((self.folder / "made/routes_1.hex").read_text(), "c\n30\n3\n")

    def test_a_table_has_no_routes(self) -> None:
        self.put(t=HEADER)
        self.said("memories", "examples/turns.toml", "t", "tabled")
        self.assertEqual({path.name[:7] for path in (self.folder / "tabled").iterdir()}, {"packets"})

    def test_what_is_refused(self) -> None:
        self.put(c=LINE, t=HEADER + "0,2,0,1,70\n", far=HEADER + "0,5,0,1,7\n", odd=HEADER + "0,2,0,1,x\n")
        self.assertEachRefused([
            ("memories c t out --widths 6,7,2,8,16", "the due of a packet is 70, which 6 bits do not hold"),
            ("memories c t out --widths 6,7,2,8", "--widths are 5 numbers above 0"),
            ("memories c far out", "packet 0 has a node that the network has not"),
            ("memories c odd out", "odd is no traffic"), ("memories c t c/out", "c/out: Not a directory"),
        ])


class Template(FolderTest):
    def test_it_has_each_input(self) -> None:
        """Those of the module, in their order, with widths; clock and reset have neither."""
        self.put(c=LINE)
        self.tool("assertions", "c", "--out", CHECKER, "--bind", "bind.sv")
        ports = (self.folder / CHECKER).read_text().partition(") (")[2].partition(");")[0]
        declared = re.findall(r"^ *input logic +(?:\[.*?\] *)?([\w, ]+?),? *(?://.*)?$", ports, re.MULTILINE)
        names = [name.strip() for line in declared for name in line.split(",")]
        template = (self.folder / "bind.sv").read_text()
        self.assertEqual(re.findall(r"^    \.(\w+)\(FILL_", template, re.MULTILINE)[2:], names)
        self.assertEqual(len(names), 18)
        self.assertRegex(template, r"\.owned\(FILL_owned\), +// \[VCS\*VC-1:0\] the output VC that it owns")


class RtlTest(FolderTest):
    def put_design(self, network: Network | str, traffic: str, edit: Edit | None = None) -> tuple[list[str], list[str]]:
        """Writes the design, with an edit of one of its sources, the checker and all that they read; their names, and
        the parameters of the bench."""
        self.put(c=network, t=traffic, **{f"{name}.sv": (TOP / f"tests/rtl/{name}.sv").read_text() for name in SOURCES})
        if edit:
            source, old, new = edit
            text = (self.folder / f"{source}.sv").read_text()
            self.assertEqual(text.count(old), 1)
            self.put(**{f"{source}.sv": text.replace(old, new)})
        self.tool("assertions", "c", "--out", CHECKER)
        parameters = self.said("memories", "c", "t", ".").splitlines()
        return [*(f"{name}.sv" for name in SOURCES), CHECKER], parameters


@unittest.skipUnless(ICARUS, "there is no Icarus Verilog here")
class Rtl(RtlTest):
    def simulated(self, network: Network | str, traffic: str, edit: Edit | None = None, checks: bool = False) -> str:
        """Runs the design, with an edit of one of its sources, and returns what the simulation says."""
        sources, parameters = self.put_design(network, traffic, edit)
        given = [*(f"-Pbench.{word}" for word in parameters), *(["-DCHECKS"] if checks else [])]
        built = self.called(["iverilog", "-g2012", "-Wall", "-s", "bench", "-o", "design", *given, *sources])
        self.assertEqual((built.returncode, built.stdout + built.stderr), (0, ""))
        ran = self.called(["vvp", "-N", "design"])
        self.assertEqual(ran.returncode, 0, ran.stderr)
        return ran.stdout

    def compared(self, names: str = "examples/rtl_map.toml") -> tuple[int, list[str]]:
        """How the design compares with the model, by a map."""
        self.put(**{"model.vcd": self.said("waves", "c", "t")})
        ran = self.tool("compare", "model.vcd", "dump.vcd", "--map", names)
        return ran.returncode, ran.stdout.splitlines()

    def assertAgrees(self, network: Network, channels: int, *words: object) -> None:
        """The design agrees under a load that it does not take, and breaks no assertion in its first 200 cycles."""
        self.put(c=network)
        traffic = self.said("traffic", "c", "uniform", *words)
        self.simulated(network, traffic)
        agreed = f"1000 cycles (cycles 0 to 999) of {channels} channels agree: moved, granted, verdict, packet, out."
        self.assertEqual(self.compared(), (0, [agreed, "Verdicts that occur there: all ten."]))
        rows = self.report("run", "c", "t", "--report", "stalls")
        never = [name for name in COLUMNS.values() if not sum(int(row[name]) for row in rows)]
        self.assertEqual(never, [])
        self.assertNotIn("ERROR", self.simulated(replace(network, cycles=200), traffic, checks=True))

    def test_the_dumps_of_the_examples(self) -> None:
        """They are of the design as it stands, and of the mutant that frees a channel at the tail."""
        network, traffic = ((TOP / f"examples/rtl.{end}").read_text() for end in ("toml", "csv"))
        freed = MUTANTS["a channel that is freed at the tail"][:3]
        for name, edit in [("right", None), ("freed", freed)]:
            self.simulated(network, traffic, edit)
            dumps = [(self.folder / path).read_text() for path in ("dump.vcd", f"examples/rtl_{name}.vcd")]
            made, kept = (dump.partition("$version")[2] for dump in dumps)
            self.assertEqual(made, kept, name)

    def test_a_mesh(self) -> None:
        """Of its 12 links each has two directions; with 9 injection ports these are 33 ports of two channels."""
        self.assertAgrees(MESH, 66, 1, 4)

    def test_a_ring(self) -> None:
        """Four links and four injection ports: 12 ports of two channels."""
        self.assertAgrees(RING, 24, 1, "1+6")

    def test_a_mesh_of_two_classes(self) -> None:
        """Ten links and eight injection ports: 28 ports of four channels."""
        self.assertAgrees(WIDE, 112, 1, "1+5", "--classes", "0,1")

    def test_what_is_wrong_is_found(self) -> None:
        moves, _, _ = (TOP / "examples/rtl_map.toml").read_text().partition("granted = ")
        for name, (source, old, new, network, traffic, line, cycle, assertion) in MUTANTS.items():
            with self.subTest(name):
                self.assertNotIn("ERROR", self.simulated(network, traffic, checks=True))
                self.assertEqual(self.compared()[0], 0)
                said = self.simulated(network, traffic, (source, old, new), checks=True)
                status, (first, *_) = self.compared()
                self.assertEqual((status, first), (8, line))
                self.put(moves=moves)
                self.assertTrue(self.compared("moves")[1][0].startswith(f"cycle {cycle}, "), self.compared("moves"))
                self.assertTrue(assertion in broken_by(said) if assertion else not broken_by(said), said)

    def test_each_assertion_fails_for_something(self) -> None:
        """In a run in which packets want the same channels and the same ports."""
        names = re.findall(r'\$error\("(\w+): ', (TOP / "noc_tools/assertions.sv").read_text())
        self.assertEqual({*BROKEN, *(mutant[-1] for mutant in MUTANTS.values())} - {None}, set(names))
        for name, edit in BROKEN.items():
            with self.subTest(name):
                self.assertIn(name, broken_by(self.simulated(TWO_CHANNELS, CROWD, edit, checks=True)))


# What Yosys 0.23 does not read: packages, files of memories, waves, and the messages of assertions.
UNREAD = re.compile(
    r"^ *import noc::\*;$|^(?:end)?package.*$|^ *initial \$(?:readmemh|dumpvars).*$|\s+else \$error\([^;]*\)(?=;)",
    re.MULTILINE,
)


@unittest.skipUnless(shutil.which("yosys"), "there is no Yosys here")
class Formal(RtlTest):
    """Whatever comes to a router of the line in its first eight cycles, no assertion is broken."""

    def proved(self, edit: Edit | None = None) -> tuple[int, str]:
        """How the proof ends of the design, with an edit of one of its sources, and what it says."""
        sources, _ = self.put_design(LINE, FULL, edit)
        for name in sources:
            self.put(**{name: UNREAD.sub("", (self.folder / name).read_text())})
        ran = self.called(["yosys", TOP / "tests/rtl/router.ys"])
        return ran.returncode, ran.stdout

    def test_no_assertion_is_broken(self) -> None:
        status, said = self.proved()
        self.assertIn("Base case for induction length 8 proven.", said)
        self.assertNotIn("model found", said)
        self.assertEqual(status, 0)

    def test_what_is_wrong_is_found(self) -> None:
        for name in ("a credit too many", "a channel that is freed at the tail"):
            with self.subTest(name):
                self.assertIn("model found for base case: FAIL!", self.proved(MUTANTS[name][:3])[1])


@unittest.skipUnless(has_verilator(), "there is no Verilator 5 with g++ and make here")
class InVerilator(RtlTest):
    def test_the_checker_is_clean(self) -> None:
        """Of networks of all shapes, and of sizes for which a count has no bits to spare."""
        for network in (
            LINE, MESH, RING, WIDE, Network("mesh", (2,), 1, 16, 1, "dor", 20),
            Network("mesh", (2, 3, 2), 8, 1, 4, "dor", 20), Network("torus", (16, 16), 3, 7, 1, "dor", 20),
        ):
            self.put(c=network)
            self.tool("assertions", "c", "--out", CHECKER)
            ran = self.called(["verilator", "--lint-only", "-Wall", CHECKER])
            self.assertEqual((ran.returncode, ran.stdout + ran.stderr), (0, ""))

    def test_it_is_bound_by_the_line_of_the_page(self) -> None:
        """And by the template, in which a signal of the same name stands for each input."""
        self.put(c=LINE)
        self.tool("assertions", "c", "--out", CHECKER, "--bind", "template.sv")
        template = (self.folder / "template.sv").read_text()
        filled = template.replace("FILL_module", "router").replace("FILL_router", "ROUTER")
        filled = filled.replace("FILL_count", "COUNT").replace("FILL_", "")
        (line,) = re.findall(r"^bind router .*", (TOP / "docs/RTL.md").read_text(), re.MULTILINE)
        for bound in (line, filled):
            with self.subTest(bound=bound):
                self.bound(bound)

    def bound(self, line: str) -> None:
        """No assertion fails in a design with this line, but for one where it begins with a credit too many."""
        source, old, new = MUTANTS["a credit too many"][:3]
        either = old.replace("BUFFER;", 'BUFFER + $test$plusargs("wrong");')
        sources, parameters = self.put_design(LINE, FULL, (source, old, either))
        self.put(**{"bind.sv": line})
        given = [*(f"-G{word}" for word in parameters), "-MAKEFLAGS", "OPT_GLOBAL=-O0"]
        words = ["verilator", "--binary", "--assert", "-Wno-fatal", "--top-module", "bench", "-o", "design"]
        built = self.called([*words, *given, *sources, "bind.sv"])
        self.assertEqual(built.returncode, 0, built.stderr)
        right, wrong = (self.called(["obj_dir/design", *more]).stdout for more in ((), ("+wrong",)))
        self.assertIn("$finish", right)
        self.assertNotIn("Error", right)
        self.assertIn("credit_room: router 0, ", wrong)
