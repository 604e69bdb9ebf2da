"""What commands take and refuse, how often they call the program, and how they end."""
import os
import re
import resource
import signal
import subprocess
import sys
import time
from dataclasses import replace
from subprocess import DEVNULL, PIPE
from typing import Any
from unittest.mock import patch

from support import HEADER, HUGE, IN_THE_WAY, LINE, SQUARE, TOP, FolderTest
from test_load import CURVE
from test_replay import data_of
from test_shrink import RING
from test_statistics import REPORT, REPORT_HEADER
from test_sweep import SMALL
from test_timeline import bars_of
from test_waves import Dump

from noc_tools import Refused, __version__ as VERSION
from noc_tools.cli import COMMANDS, options_of, parser_of
from noc_tools.program import Process

# What is given to a command of a run, and a part of the one sentence that it answers. LINE and IN_THE_WAY are the
# files c and t.
REFUSED = [
    ("why c t 3", "there is no packet 3: the traffic has 3"),
    ("why c t 0 20", "the run has the cycles 0 to 19"),
    ("why nothing t 0", "nothing: No such file or directory"),
    ("why c nothing 0", "nothing: No such file or directory"),
    ("why t t 0", "t is no configuration"),
    ("why c c 0", "c is no traffic"),
    ("why - - 0", "standard input can be one of the files"),
    ("why c broken 0", "broken is no traffic: row 0 is not five numbers"),
    ("why c late 0", "packet 0 is due in cycle 20, behind the end of the run"),
    ("why c late 0 20", "the run has the cycles 0 to 19"),
    ("timeline c late 0", "packet 0 is due in cycle 20, behind the end of the run"),
    ("timeline c t -1", "there is no packet -1"),
    ("replay c t --from 9 --to 8", "the run has the cycles 0 to 19"),
    ("replay c t --to 20", "the run has the cycles 0 to 19"),
    ("waves c t --from -1", "the run has the cycles 0 to 19"),
    ("waves c t --router 3", "there is no router 3: the network has 3"),
    ("waves c t --drain --to 999", "the run has the cycles 0 to 19"),
]
# What noc refuses it tells itself.
BY_NOC = ["waves c lost --drain", "waves c lost", "why c lost 0", "timeline c lost 0", "limit c lost"]
OF_HUGE = [
    "waves huge t", "why huge t 0", "why huge t 0 300", "timeline huge t 0", "replay huge t", "limit huge t",
    "ranks huge", "load huge 1 0.1 --pattern tornado", "latency huge --traffic t", "certify huge --out x",
    "shrink huge --out x",
]
# A call of each command that writes something; the files are those of setUp.
CALLS = {
    "ranks": "c", "limit": "c t", "table": "plane odd-even", "traffic": "c uniform 0.5 1", "stalls": "c", "energy": "c",
    "replay": "c t", "keys": "c", "timeline": "c t 2", "waves": "c t", "why": "c t 2", "latency": "c r",
    "load": "c 1 0.1 --window 8:20", "curves": "a=curve", "sweep": "small.toml", "draw": "results",
    "packets": "c seen 16", "replies": "classes t 2 1", "settle": "c t", "booksim": "examples/mesh88.booksim n.toml",
    "memories": "c t made", "assertions": "c", "certify": "--verify certificate", "shrink": "ring --out jam",
    "compare": "model.vcd examples/rtl_right.vcd --map examples/rtl_map.toml",
}
DEEP = "x = " + "[" * 3000 + "]" * 3000 + "\n"
STALLS_HEADER = (
    "router,port,vc,empty,routed,granted,moved,no_flit,no_idle_channel,lost_channel,no_credit,lost_input,lost_switch\n"
)
# Input that a library of Python cannot take, by standard input: the command, its words, the input, and a part of its
# sentence.
UNREADABLE = [
    ("keys", "/dev/stdin", DEEP.encode(), "nested too deep"),
    ("timeline", "- t 0", DEEP.encode(), "nested too deep"),
    ("table", "/dev/stdin odd-even", DEEP.encode(), "nested too deep"),
    ("stalls", "c", (STALLS_HEADER + "0" * 140_000 + "\n").encode(), "field larger than field limit"),
    ("stalls", "c", STALLS_HEADER.encode() + b"\xff", "not UTF-8"),
    ("why", "c - 0", HEADER.encode() + b"\xff", "standard input is no traffic"),
    ("why", "c - 0", HEADER.encode() + b"0" * 140_000, "field larger than field limit"),
    ("latency", "c", REPORT_HEADER.encode() + b"0" * 140_000, "field larger than field limit"),
    ("latency", "c", REPORT_HEADER.encode() + b"\xff\n", "not UTF-8"),
    ("latency", "/dev/stdin r", DEEP.encode(), "nested too deep"),
    ("load", "/dev/stdin 1 0.1", DEEP.encode(), "nested too deep"),
    ("curves", "a=/dev/stdin", CURVE.encode() + b"0" * 140_000, "field larger than field limit"),
]


def heed_signals() -> None:
    """Heeds signals that the caller has ignored, as nohup and a shell's background do."""
    signal.signal(signal.SIGINT, signal.default_int_handler)
    signal.signal(signal.SIGHUP, signal.SIG_DFL)


class OfARun(FolderTest):
    def calls_of(self, *words: object) -> int:
        """How often a command runs a network by the program."""
        log = self.folder / "calls"
        self.environment = self.in_place_of_the_program(f'#!/bin/sh\necho "$1" >> "{log}"\nexec "$PROGRAM" "$@"\n')
        self.put(calls="")
        self.tool(words[0], "c", "t", *words[1:])
        self.doCleanups()
        return sum(word in ("run", "trace") for word in log.read_text().split())

    def test_one_file_comes_by_standard_input(self) -> None:
        """The configuration or the traffic, or one of them by a pipe: the answers are the same."""
        for command, *words in [("why", 2), ("why", 2, 5), ("timeline", 2), ("waves", "--router", 1)]:
            named = self.said(command, "c", "t", *words)
            given = [self.said(command, "-", "t", *words, given=LINE.text())]
            given.append(self.said(command, "c", "-", *words, given=IN_THE_WAY))
            piped = f"./noc-tools {command} <(cat c) t {' '.join(map(str, words))}"
            self.assertTrue(named)
            self.assertEqual({named}, {*given, self.called(["bash", "-c", piped]).stdout}, command)
        given = data_of(self.said("replay", "-", "t", given=LINE.text()))
        self.assertEqual(given, data_of(self.said("replay", "c", "t")))

    def test_the_program_runs_once(self) -> None:
        """In cycle 1 packet 0 has the one channel of the port local, so packet 2 is in its queue. A life without a wait
        takes one run, and that of packet 2, which waits at its source alone, takes two."""
        words = [("timeline", 2), ("why", 2, 5), ("why", 2, 1), ("why", 1), ("waves",), ("replay",), ("why", 2)]
        self.assertEqual([self.calls_of(*each) for each in words], [1, 1, 1, 1, 1, 1, 2])

    def test_the_program_runs_once_more(self) -> None:
        """Packet 1 waits at two routers, one of which is not its source; and packet 2 is in its queue while a channel
        is left."""
        self.put(c=replace(LINE, channels=2, buffer=4), t=HEADER + "0,2,0,4,0\n1,2,0,4,3\n")
        self.assertEqual(self.calls_of("why", 1), 3)
        self.put(c=replace(LINE, channels=3), t=HEADER + "0,2,0,4,1\n0,2,0,4,0\n0,2,0,1,2\n")
        self.assertEqual(self.calls_of("why", 2, 6), 2)

    def test_commands_reach_the_end_of_a_run_that_drains(self) -> None:
        """Two flits over one hop, due in cycle 40, are out in 46, where the configuration has 20 cycles. With the 14
        events that each packet takes the limit is 68."""
        self.put(t=HEADER + "0,2,0,1,0\n0,1,0,2,40\n")
        life = self.said("why", "c", "t", 1, "--drain").splitlines()
        bars = bars_of(self.said("timeline", "c", "t", 1, "--drain"))
        times = Dump(self.said("waves", "c", "t", "--from", 45, "--drain")).times
        step = self.said("why", "c", "t", 1, 41, "--drain")
        data = data_of(self.said("replay", "-", "t", "--drain", given=LINE.text()))
        self.assertEqual(life[0], "packet 1, node 0 to node 1, 2 flits: due in cycle 40, out in cycle 46.")
        self.assertEqual(step, "packet 1, router 0, local.0: Granted. It gets +0.0 in this cycle.\n")
        drawn = ["cycle 40: Routed", "cycle 41: Granted", "cycles 42 to 43: Moved"]
        self.assertEqual(bars["router 0, local.0"], drawn)
        self.assertEqual((times[0], times[-1], data["last"]), (45, 68, 67))

    def test_what_is_refused(self) -> None:
        self.put(late=HEADER + "0,1,0,1,20\n", broken=HEADER + "0,1,0,one,0\n", lost=HEADER + "0,3,0,1,0\n")
        self.assertEachRefused(REFUSED)
        for words in BY_NOC:
            self.assertRefusedByNoc(words, 3, "fault network 2 BadNode row 0")

    def test_a_network_that_noc_does_not_take(self) -> None:
        """Its size is that which noc refuses; nothing is made of it before."""
        self.put(huge=HUGE)
        for words in OF_HUGE:
            self.assertRefusedByNoc(words, 3, "fault shape 2 BadRadix")


class Ends(FolderTest):
    FILES = FolderTest.FILES | {
        "plane": SQUARE, "classes": replace(LINE, channels=2, classes=2), "r": REPORT, "curve": CURVE,
        "small.toml": SMALL, "results": "kind,load,mean,accepted\nmesh,0.1,9,0.1\n",
        "seen": "time,source,destination,bytes\n0,0,1,9\n", "ring": RING,
    }

    def setUp(self) -> None:
        super().setUp()
        self.put(stalls=self.noc("run", "c", "t", "--report", "stalls").stdout)
        self.put(**{"model.vcd": self.said("waves", "examples/rtl.toml", "examples/rtl.csv")})
        self.tool("certify", "c", "--out", "certificate")

    def ends(self, command: str, **given: Any) -> tuple[int, str]:
        """The status of a command and its words on standard error."""
        with open(self.folder / "stalls", "rb") as stalls:
            words = [sys.executable, "noc-tools", command, *CALLS[command].split()]
            ran = self.called(words, stdin=stalls, capture_output=False, stderr=PIPE, **given)
        return ran.returncode, ran.stderr

    def test_each_command_writes_something(self) -> None:
        for command in CALLS:
            self.assertEqual(self.ends(command, stdout=DEVNULL), (0, ""), command)

    def test_a_full_output_is_said(self) -> None:
        for command in CALLS:
            with open("/dev/full", "wb") as full:
                ended = self.ends(command, stdout=full)
            sentence = f"noc-tools {command}: standard output: No space left on device\n"
            self.assertEqual(ended, (1, sentence))

    def test_a_closed_output_is_said(self) -> None:
        for command in CALLS:
            ended = self.ends(command, preexec_fn=lambda: os.close(1))
            self.assertEqual(ended, (1, f"noc-tools {command}: standard output is closed\n"))

    def test_closed_errors_are_not_said(self) -> None:
        """Nor are they on standard output: what is there is as ever."""
        for words in "latency c r --tolerance 0", "why nothing t 0", "wy":
            told = self.tool(*words.split())
            ran = self.called([sys.executable, "noc-tools", *words.split()], preexec_fn=lambda: os.close(2))
            self.assertTrue(told.stderr)
            self.assertEqual((ran.returncode, ran.stdout, ran.stderr), (told.returncode, told.stdout, ""))

    def test_a_reader_that_went_ends_it(self) -> None:
        for command in CALLS:
            reader, writer = os.pipe()
            os.close(reader)
            with open(writer, "wb") as pipe:
                self.assertEqual(self.ends(command, stdout=pipe), (141, ""), command)

    def test_unreadable_input_is_said(self) -> None:
        """One line that says why; with the environment in which Python reads strictly."""
        strict = self.environment | {"PYTHONIOENCODING": "utf-8:strict"}
        for command, words, given, sentence in UNREADABLE:
            with self.subTest(command=command, sentence=sentence):
                called = [sys.executable, "noc-tools", command, *words.split()]
                ran = self.called(called, input=given, text=False, env=strict)
                said = ran.stderr.decode()
                self.assertEqual((ran.returncode, ran.stdout, said.count("\n")), (1, b"", 1))
                self.assertTrue(said.startswith(f"noc-tools {command}: ") and sentence in said, said)

    def guarded(self, body: str) -> tuple[int, str, str]:
        """How a function ends that runs as a command does, though the caller may have interrupts ignored."""
        script = (
            "import signal, sys\nfrom noc_tools.cli import guarded\n"
            "signal.signal(signal.SIGINT, signal.default_int_handler)\n"
            f"sys.exit(guarded('x', lambda: {body}))\n"
        )
        ran = self.called([sys.executable, "-c", script])
        return ran.returncode, ran.stdout, ran.stderr

    def test_no_memory_is_said(self) -> None:
        """A number of bytes that no machine has."""
        self.assertEqual(self.guarded("bytearray(1 << 60)"), (1, "", "x: there is not enough memory\n"))

    def test_an_interrupt_ends_it(self) -> None:
        """What was written before goes out."""
        body = "print('some') or signal.raise_signal(signal.SIGINT)"
        self.assertEqual(self.guarded(body), (130, "some\n", ""))

    def test_a_full_disk_is_said_with_the_file(self) -> None:
        """A file of the command itself, of which no more than some bytes may be written, as on a full disk."""
        def bound() -> None:
            signal.signal(signal.SIGXFSZ, signal.SIG_IGN)
            resource.setrlimit(resource.RLIMIT_FSIZE, (20, 20))

        self.put(c=replace(LINE, classes=2, channels=2))
        ran = self.called([sys.executable, "noc-tools", "replies", "c", "t", "1", "1"], preexec_fn=bound)
        self.assertEqual((ran.returncode, ran.stdout), (1, ""))
        self.assertRegex(ran.stderr, r"^noc-tools replies: /\S+: File too large\n$")

    def test_signals_leave_no_folder(self) -> None:
        """While noc works, which takes ten minutes here; folders are made where TMPDIR says."""
        self.put(slow='#!/bin/sh\n[ $# -eq 0 ] && exit 0\n[ $1 = --which ] && exit 1\ntouch "$LOG"\nexec sleep 600\n',
                 c=replace(LINE, classes=2, channels=2))
        (self.folder / "slow").chmod(0o755)
        for name, words in ("certify", ("c", "--out", "certified")), ("replies", ("c", "t", 1, 1)):
            for number in (signal.SIGTERM, signal.SIGHUP, signal.SIGINT):
                room = self.folder / f"{name}_{number}"
                room.mkdir()
                log = self.folder / f"{name}_{number}.log"
                names = {"TMPDIR": room, "NOC": self.folder / "slow", "LOG": log}
                environment = self.environment | {key: str(path) for key, path in names.items()}
                called = [sys.executable, "noc-tools", name, *map(str, words)]
                ran = subprocess.Popen(called, cwd=self.folder, env=environment, stderr=subprocess.PIPE, text=True,
                                       preexec_fn=heed_signals)
                while not log.exists() and ran.poll() is None:
                    time.sleep(0.01)
                is_working = bool(list(room.iterdir()))
                ran.send_signal(number)
                self.assertEqual((ran.communicate()[1], ran.returncode, is_working), ("", 128 + number, True))
                self.assertEqual(list(room.iterdir()), [])
        self.assertFalse((self.folder / "certified").exists())

    def test_an_interrupt_while_modules_are_read(self) -> None:
        """Python reads the first file before it begins; an interrupt comes when a module of the package is wanted."""
        self.put(**{"sitecustomize.py": (
            "import os, signal, sys\n"
            "signal.signal(signal.SIGINT, signal.default_int_handler)\n"
            "def watch(event, details):\n"
            "    if event == 'import' and details[0] == 'noc_tools.errors':\n"
            "        os.kill(os.getpid(), signal.SIGINT)\n"
            "sys.addaudithook(watch)\n"
        )})
        self.addCleanup((self.folder / "sitecustomize.py").unlink)
        environment = self.environment | {"PYTHONPATH": str(self.folder)}
        ran = self.called([sys.executable, "noc-tools", "limit", "c", "t"], env=environment)
        self.assertEqual((ran.returncode, ran.stdout, ran.stderr), (-signal.SIGINT, "", ""))

    def test_no_thread_is_said(self) -> None:
        refused = RuntimeError("can't start new thread")
        with patch("noc_tools.program.Thread.start", side_effect=refused):
            with self.assertRaisesRegex(Refused, "the system gives no further thread"):
                Process("run", str(self.folder / "c"), str(self.folder / "t"))


class Help(FolderTest):
    def test_one_help_lists_all_commands(self) -> None:
        """Each with the first line of its own help, which has the whole text of its module."""
        ran = self.tool("--help")
        self.assertEqual((ran.returncode, ran.stderr), (0, ""))
        names = {path.stem for path in (TOP / "noc_tools/commands").glob("*.py")} - {"__init__"}
        self.assertEqual(set(COMMANDS), names)
        for name in COMMANDS:
            with self.subTest(command=name):
                (line,) = [line for line in ran.stdout.splitlines() if line.startswith(f"  {name} ")]
                text = (TOP / f"noc_tools/commands/{name}.py").read_text().split('"""')[1]
                self.assertEqual(line.split(maxsplit=1)[1], text.splitlines()[0])
                self.assertLess(len(line), 80)
                self.assertIn(" ".join(text.split()), " ".join(self.said(name, "--help").split()))

    def test_commands_stand_under_what_they_are_for(self) -> None:
        """Three headings, which are no commands, each with some."""
        listed = self.said("help").split("\n\n")[2:]
        self.assertEqual([text.splitlines()[0].split()[0] for text in listed], ["Ask", "Study", "Prove,"])
        for text, name in zip(listed, ["why", "sweep", "certify"]):
            self.assertRegex(text, rf"(?m)^  {name} ")

    def test_help_is_a_word_too(self) -> None:
        """Alone it says what --help says, and before a command the help of that command."""
        for words, same in [(["help"], ["--help"]), (["-h"], ["--help"]), (["help", "why"], ["why", "--help"])]:
            ran = self.tool(*words)
            self.assertEqual((ran.returncode, ran.stderr), (0, ""))
            self.assertEqual(ran.stdout, self.said(*same))

    def test_no_words_are_answered_by_the_list(self) -> None:
        """On standard error and with the status of wrong words, since nothing was asked for."""
        ran = self.tool()
        self.assertEqual((ran.returncode, ran.stdout, ran.stderr), (2, "", self.said("help")))

    def test_the_version_is_said(self) -> None:
        for word in "--version", "-V":
            ran = self.tool(word)
            self.assertEqual((ran.returncode, ran.stdout, ran.stderr), (0, f"noc-tools {VERSION}\n", ""))

    def test_another_command_is_refused(self) -> None:
        """The one that may have been meant is named, where one is near."""
        for words, hint in [
            (["wy"], "'wy'; did you mean 'why'?"), (["help", "latncy"], "'latncy'; did you mean 'latency'?"),
            (["noc"], "'noc'; 'noc-tools help' lists all"), ([""], "''; 'noc-tools help' lists all"),
        ]:
            ran = self.tool(*words)
            self.assertEqual((ran.returncode, ran.stdout), (2, ""))
            self.assertEqual(ran.stderr, f"noc-tools: there is no command {hint}\n")

    def test_an_option_is_not_shortened(self) -> None:
        """The one that may have been meant is named, where one is near."""
        near = [("--dra", "; did you mean '--drain'?"), ("--tabel=F", "; did you mean '--table'?"), ("--x", "")]
        for option, hint in near:
            ran = self.tool("why", "c", "t", 0, option)
            self.assertEqual((ran.returncode, ran.stdout), (2, ""))
            last = f"noc-tools why: error: unrecognized arguments: {option}{hint}\n"
            self.assertTrue(ran.stderr.endswith(last), ran.stderr)

    def test_help_is_as_wide_as_the_terminal(self) -> None:
        """But for lines that are indented, as those of a table."""
        for columns in 60, 100:
            self.environment = {**self.environment, "COLUMNS": str(columns)}
            lines = [line for line in self.said("sweep", "--help").splitlines() if not line.startswith(" ")]
            self.assertLessEqual(max(map(len, lines)), columns)
            self.assertLess(columns - 15, max(map(len, lines)))

    def test_examples_are_words_that_a_command_takes(self) -> None:
        """Each help has one, or forms in its beginning."""
        for name in COMMANDS:
            text = (TOP / f"noc_tools/commands/{name}.py").read_text().split('"""')[1]
            examples = re.findall(rf"^    (?:noc .*\| )?noc-tools {name}((?: [^ >]+)*)(?: > [\w.]+)?$", text, re.M)
            self.assertTrue(examples or re.search(rf"^    {name} ", text, re.M), name)
            for words in examples:
                options_of(parser_of(name), words.split())

    def test_no_command_takes_shortened_options(self) -> None:
        for name in COMMANDS:
            self.assertFalse(parser_of(name).allow_abbrev, name)
