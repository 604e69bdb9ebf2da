"""The files of studies: what of others stays, what results are refused, and what is no study."""
import os
import shutil
from unittest.mock import patch

from support import IN_THE_WAY, TOP
from test_sweep import SMALL, STUDY, SweepTest, lines_of

from noc_tools import Refused, Study
from noc_tools.curves import Axes
from noc_tools.study import drawing
from noc_tools.study.results import HEADER

# What a results.csv may hold that is none, what of one is left when it is cut off, and one without the later columns.
FOREIGN = [
    "my,own,data\n1,2,3\n4,5,6", "my only line, without an end", "my only line\n", "run,kind,mine", "\n",
    "run,kind,radix,rule,table,channels,buffer,classes,pattern,spots,share,packet_classes,length,cycles,window,"
    "tolerance,load,seed,ran,packets,flits,out,offered,accepted,mean,median,p95,p99,max,steady,program_digest,"
    "configuration_digest,traffic_digest,table_digest\n",
]
# A study of the network of turns_table.csv, in folders of any name.
TABLE_STUDY = """\
kind = "mesh"
radix = [2, 2]
rule = "table"
table = "t.csv"
channels = 1
buffer = 2
length = 2
load = 0.2
cycles = 60
"""
ODD = ["form\x0cfeed", "\x1c", "\x85", "\u2028", "line\nfeed", "carriage\rreturn", 'quote"\'', "$(x) ;", "comma,"]


class Files(SweepTest):
    def test_files_of_others_stay(self) -> None:
        """A foreign results.csv is refused as it is, and pictures that are named like no picture of a sweep stay."""
        for number, text in enumerate(FOREIGN):
            path = self.folder / f"foreign{number}.out" / "results.csv"
            path.parent.mkdir()
            path.write_text(text)
            for more in ((), ("--list",)):
                with self.subTest(text=text, more=more):
                    ran = self.sweep("small.toml", "--out", path.parent, *more)
                    self.assertRefused(ran, "other results than those of this sweep", "sweep")
                    self.assertEqual(path.read_text(), text)
        mine = ["latency_by_hand.svg", "p95_02.svg", "accepted_old.svg", "latency_2.svg.bak"]
        stale = ["latency_2.svg", "p95_10.svg"]
        self.sweep("small.toml", "--out", "drawn.out")
        for name in mine + stale:
            (self.folder / "drawn.out" / name).write_text("mine\n")
        self.sweep("small.toml", "--out", "drawn.out")
        left = {path.name for path in (self.folder / "drawn.out").iterdir()}
        own = {"results.csv", "saturation.csv", "latency.svg", "p95.svg", "p99.svg", "accepted.svg"}
        self.assertEqual(left, own | set(mine))

    def test_nothing_of_others_is_written_over(self) -> None:
        """A picture or a table beside which there are no results; and a table that is a link is replaced itself."""
        for name in ("latency.svg", "p99_2.svg", "saturation.csv"):
            (self.folder / "mine.out").mkdir()
            self.put(**{f"mine.out/{name}": "mine\n"})
            ran = self.sweep("small.toml", "--out", "mine.out")
            self.assertRefused(ran, f"mine.out/{name} is there, and no results.csv beside it", "sweep")
            self.assertEqual([path.name for path in (self.folder / "mine.out").iterdir()], [name])
            shutil.rmtree(self.folder / "mine.out")
        self.put(notes="mine\n")
        self.sweep("small.toml", "--out", "one.out")
        table = self.folder / "one.out/saturation.csv"
        text = table.read_text()
        table.unlink()
        table.symlink_to(self.folder / "notes")
        self.assertEqual(self.sweep("small.toml", "--out", "one.out").returncode, 0)
        self.assertEqual(((self.folder / "notes").read_text(), table.read_text()), ("mine\n", text))

    def test_files_of_one_run_go_over_no_others(self) -> None:
        """The same files again are no others."""
        words = *"--one kind=mesh radix=2x2 rule=dor channels=1 buffer=2 length=1 load=0.1 cycles=30".split(), "--files"
        (self.folder / "mine").mkdir()
        self.put(**{"mine/config.toml": "my own notes\n"})
        ran = self.sweep(*words, "mine")
        self.assertRefused(ran, "mine/config.toml is there, and is another file: name another folder", "sweep")
        self.assertEqual([path.name for path in (self.folder / "mine").iterdir()], ["config.toml"])
        self.assertEqual((self.folder / "mine/config.toml").read_text(), "my own notes\n")
        one, two = (self.sweep(*words, "kept") for _ in range(2))
        self.assertEqual((one.returncode, two.returncode, one.stdout), (0, 0, two.stdout))

    def test_a_pipe_is_no_file_of_results(self) -> None:
        (self.folder / "pipe.out").mkdir()
        os.mkfifo(self.folder / "pipe.out/results.csv")
        ran = self.sweep("small.toml", "--out", "pipe.out", timeout=300)
        self.assertRefused(ran, "pipe.out/results.csv is no plain file", "sweep")

    def test_a_header_that_was_cut_off_is_written_again(self) -> None:
        self.sweep("small.toml", "--out", "one.out")
        header = lines_of(self.folder / "one.out" / "results.csv")[0]
        cut = self.folder / "cut.out" / "results.csv"
        cut.parent.mkdir()
        cut.write_text(header[:50])
        self.assertEqual(self.sweep("small.toml", "--out", "cut.out").returncode, 0)
        self.assertEqual((lines_of(cut)[0], len(lines_of(cut))), (header, 9))

    def test_one_sweep_has_a_folder_at_a_time(self) -> None:
        with Study(self.folder / "small.toml", self.folder / "one.out"):
            ran = self.sweep("small.toml", "--out", "one.out")
        self.assertRefused(ran, "another sweep is at work on one.out/results.csv", "sweep")
        self.assertEqual(self.sweep("small.toml", "--out", "one.out", "--list").returncode, 0)

    def test_folders_may_have_odd_names(self) -> None:
        """The commands of --list, what they print, and a sweep itself, on a table in such a folder."""
        for name in ODD:
            with self.subTest(name=name):
                path = self.folder / "odd" / name
                path.mkdir(parents=True)
                shutil.copy(TOP / "examples" / "turns_table.csv", path / "t.csv")
                (path / "s.toml").write_text(TABLE_STUDY)
                given = {"text": False}
                listed = self.sweep(path / "s.toml", "--out", path / "o", "--list", **given)
                printed = self.called(["bash", "-c", os.fsdecode(listed.stdout)], **given)
                (path / "lines").write_bytes(printed.stdout)
                ran = [listed, self.sweep(path / "s.toml", "--out", path / "o", "--collect", path / "lines", **given)]
                ran += [self.sweep(path / "s.toml", "--out", path / "o2", **given) for _ in range(2)]
                self.assertEqual([one.returncode for one in ran], [0] * 4, [one.stderr for one in ran])
                one, two = ((path / out / "results.csv").read_bytes() for out in ("o", "o2"))
                self.assertEqual(one, two)


class Changed(SweepTest):
    """A study of which lines are changed by hand."""

    def changed(self, sentence: str, *changes: tuple[int, str, str], study: str = "small.toml") -> None:
        """Refused with a sentence where the words of these lines and columns are others; pictures and table stay."""
        path = self.folder / "one.out" / "results.csv"
        kept = path.read_text()
        rows = [line.split(",") for line in kept.splitlines()]
        for line, column, word in changes:
            rows[line][rows[0].index(column)] = word
        path.write_text("".join(",".join(row) + "\n" for row in rows))
        with self.subTest(changes=changes):
            self.assertRefused(self.sweep(study, "--out", "one.out"), sentence, "sweep")
            for name, data in self.kept.items():
                self.assertEqual((self.folder / "one.out" / name).read_bytes(), data)
        path.write_text(kept)

    def test_a_line_that_is_not_of_its_run(self) -> None:
        """Its settings or figures are others than those of any run of this name."""
        self.sweep("small.toml", "--out", "one.out")
        out = self.folder / "one.out"
        self.kept = {path.name: path.read_bytes() for path in out.iterdir() if path.name != "results.csv"}
        self.put(**{"search.toml": SMALL + "search = 0.2\n"})
        first, second = (row["run"] for row in self.results("one.out")[:2])
        self.changed(f"the line of the run {first} has the load 0.9, and its run has", (1, "load", "0.9"))
        for study in ("small.toml", "search.toml"):
            rule = f"the line of the run {first} has the rule west-first, and its run has dor"
            self.changed(rule, (1, "rule", "west-first"), study=study)
        self.changed("has the channels 8, and its run has 2", (1, "channels", "8"))
        self.changed("and its run has", (1, "run", second), (2, "run", first))
        self.changed("line 2: '-5' of the column 'ran' is no", (1, "ran", "-5"))
        self.changed("line 2: '301' of the column 'ran' is not 1 to 300", (1, "ran", "301"))
        self.changed("line 3: '-' of the column 'ran' is not 1 to 300", (2, "ran", "-"))
        for column in ("mean", "accepted", "p99"):
            for word in ("nan", "inf", "-1", "1e300"):
                self.changed(f"line 2: '{word}' of the column '{column}' is no number", (1, column, word))
        self.changed("one.out/results.csv has results of the programs", (1, "program_digest", "f" * 16))

    def test_results_of_another_program_are_told(self) -> None:
        """All of a study: it is drawn, and one line says which program made them. Nothing is said of the results of
        this one, nor where no program is there to be another one."""
        self.sweep("small.toml", "--out", "one.out")
        path = self.folder / "one.out" / "results.csv"
        digest = self.results("one.out")[0]["program_digest"]
        here = self.sweep("small.toml", "--out", "one.out")
        path.write_text(path.read_text().replace(f",{digest},", f",{'f' * 16},"))
        other = self.sweep("small.toml", "--out", "one.out")
        told = f"one.out/results.csv has results of the program {'f' * 16}, and this is {digest}: --verify N"
        self.assertEqual((here.returncode, other.returncode, other.stdout), (0, 0, here.stdout))
        self.assertEqual(here.stderr.count("has results of"), 0)
        self.assertEqual(other.stderr.count(f"noc-tools sweep: {told} makes some of the runs again\n"), 1)
        environment = self.environment | {"NOC": "/no/such", "PATH": "/no/such"}
        alone = self.sweep("small.toml", "--out", "one.out", env=environment)
        self.assertEqual((alone.returncode, alone.stdout, alone.stderr), (0, here.stdout, here.stderr))

    def test_a_picture_that_cannot_be_drawn_leaves_those_of_before(self) -> None:
        self.sweep("small.toml", "--out", "one.out")
        before = {path.name: path.read_bytes() for path in (self.folder / "one.out").iterdir()}

        def drawn(frames: object, axes: Axes, *told: object) -> str:
            if axes.y == "p99":
                raise Refused("it cannot be drawn")
            return "another picture"

        files = self.folder / "small.toml", self.folder / "one.out"
        with patch.object(drawing, "picture", drawn), Study(*files) as study:
            self.assertRaisesRegex(Refused, "it cannot be drawn", study.draw)
        after = {path.name: path.read_bytes() for path in (self.folder / "one.out").iterdir()}
        self.assertEqual(after, before)


class Tables(SweepTest):
    def test_a_table_is_known_by_what_is_in_it(self) -> None:
        """Beside the same table elsewhere no run is to be made, and beside another one of this name all are."""
        left = []
        for name, table in ("here", "turns_table.csv"), ("there", "turns_table.csv"), ("there", "other.csv"):
            (self.folder / name).mkdir(exist_ok=True)
            (self.folder / name / "s.toml").write_text(TABLE_STUDY.replace("load = 0.2", "load = [0.1, 0.2]"))
            text = (self.folder / "examples" / "turns_table.csv").read_text()
            other = text.replace("0,1,local,0,2,+1,0\n", "0,1,local,0,2,-0,0\n")
            (self.folder / name / "t.csv").write_text(other if table == "other.csv" else text)
            if name == "here":
                self.assertEqual(self.sweep("here/s.toml", "--out", "one.out").returncode, 0)
            left.append(self.sweep(f"{name}/s.toml", "--out", "one.out", "--list").stdout.count("\n"))
        self.assertEqual(left, [0, 0, 2])


PLAYED_STUDY = """\
kind = "mesh"
radix = [3]
rule = "dor"
channels = 1
buffer = 2
traffic = "t.csv"
load = 1
"""
# Without what says nothing of a traffic file.
PLAYED = "".join(f"{line}\n" for line in STUDY.splitlines() if not line.startswith(("length", "seed")))
ON_STUDY = [
    ("", STUDY + "chanels = 2\n", "s.toml has an unknown setting 'chanels': the settings are kind, radix"),
    ("", STUDY.replace('kind = "mesh"\n', ""), "s.toml: 'kind' is not set"),
    ("", STUDY.replace("length = 4", "length = 4.5"), "'length' is a whole number of 1 or more, not 4.5"),
    ("", STUDY.replace("length = 4", "length = 0"), "'length' is a whole number of 1 or more, not 0"),
    ("", STUDY.replace("[1, 2, 3, 4, 5]", "[1, 1]"), "'seed' has a value twice"),
    ("", STUDY.replace("[1, 2, 3, 4, 5]", "[]"), "'seed' has no value"),
    ("", STUDY.replace("[8, 8]", "8"), "'radix' is a list of numbers, not 8"),
    ("", STUDY.replace('"mesh"', "3"), "'kind' is a text, not 3"),
    ("", STUDY.replace("0.02", "-0.02"), "'load' is a number of 0 or more, not -0.02"),
    ("", STUDY + "cases = 3\n", "'cases' is a list of tables of settings"),
    ("", STUDY + "cases = []\n", "'cases' is a list of tables of settings"),
    ("", STUDY + "cases = [{ chanels = 3 }]\n", "s.toml: cases has an unknown setting 'chanels'"),
    ("", STUDY + "cases = [{ flit_bytes = 4 }, { channels = 4 }]\n",
     "loads are in bytes in some runs and in flits in others"),
    ("", STUDY + 'unit = "words"\n', "'unit' is one of flits, bytes, payload, packets, not 'words'"),
    ("", STUDY + 'unit = "bytes"\n', "the unit 'bytes' needs 'flit_bytes'"),
    ("", STUDY + 'unit = "payload"\nflit_bytes = 4\n', "the unit 'payload' needs 'packet_bytes'"),
    ("", STUDY + "packet_bytes = 8\n", "'packet_bytes' needs 'flit_bytes'"),
    ("", STUDY + "packet_bytes = 8\nflit_bytes = 4\n", "'length' is 2 by 'packet_bytes', so it is not said, or as 2"),
    ("", STUDY + "packet_bytes = 0\nflit_bytes = 4\n", "'packet_bytes' is a whole number of 1 or more, not 0"),
    ("", STUDY + "parts = 1\n", "'parts' is true or false, not 1"),
    ("", STUDY + "search = 0\n", "'search' is a number above 0, not 0"),
    ("", STUDY + 'at = "0.1"\n', "'at' is a number above 0, not '0.1'"),
    ("", STUDY + "at = 0.15\n", "s.toml: 'at' is one of the loads, and 0.15 is none of them"),
    ("", STUDY + 'frames = "colour"\n', "s.toml: 'frames', 'colour', 'dash' and 'along' are settings, and 'colour' is"),
    ("", STUDY + "along = 3\n", "s.toml: 'frames', 'colour', 'dash' and 'along' are settings, and 3 is none"),
    ("", STUDY + 'dash = "load"\n', "s.toml: a curve has all values of 'load', which so tells no curves apart"),
    ("", STUDY + 'frames = ["rule", "seed"]\n', "s.toml: a curve has all values of 'seed', which so tells no curves"),
    ("", STUDY + 'along = "buffer"\ncolour = "buffer"\n', "s.toml: a curve has all values of 'buffer', which so tells"),
    ("", STUDY + 'table = "foreign"\n', "s.toml: 'table' is for the rule 'table', and there are none here"),
    ("", STUDY + "share = 0.5\n", "s.toml: 'share' is for the pattern 'hot-spot', and there are none here"),
    ("", STUDY + 'cases = [{ spots = [3] }, { pattern = "hot-spot" }]\n', "s.toml: cases: 'spots' is for the pattern"),
    ("", STUDY + 'pattern = "hot-spot"\nshare = 1.5\n', "the share of a hot spot is 0 to 1, not 1.5"),
    ("", STUDY + "measured_classes = [1]\n", "a class does not exist: the classes are 0 to 0"),
    ("", STUDY + "burst = [5, 0]\n", "'burst' is a whole number of 1 or more, not 0"),
    ("", STUDY + "burst = [5, 6, 7]\n", "'burst' is 2 numbers with ':' between them, not '5:6:7'"),
    ("", STUDY + "replies = [0, 1, 4]\n", "'replies' is 4 numbers for each level of replies, not 3"),
    ("", STUDY + "replies = [0, 1, 4, 9]\n", "replies are of another class than requests, and the classes are 0 to 0"),
    ("", STUDY + "classes = 2\nreplies = [0, 1, 65, 9]\n", "noc takes no kind=mesh"),
    ("", STUDY.replace("length = 4", 'length = "4+x"'), "a length is a number of flits, or several as 1+8, not '4+x'"),
    ("", PLAYED + 'traffic = "missing.csv"\n', "missing.csv: No such file or directory"),
    ("", PLAYED + 'traffic = "foreign"\n', "foreign is no traffic"),
    ("", PLAYED + 'traffic = "t"\nseed = [1, 2]\n', "s.toml: 'seed' is for runs whose traffic is no file, and"),
    ("", PLAYED + 'cases = [{ traffic = "t", length = 4 }, { length = 4 }]\n', "s.toml: cases: 'length' is for runs"),
    ("", STUDY.replace('"dor"', '"odd-even"').replace("[8, 8]", "[4]"), "odd-even is for a mesh of two dimensions"),
    ("", STUDY.replace('"dor"', '"odd-even"').replace("8, 8", "999, 999"), "noc takes no mesh of 999x999 for odd-even"),
    ("", PLAYED_STUDY.replace("load = 1", "load = 1e-320"), "t.csv: at a load of 9.99989e-321 its packets never come"),
    ("--verify 1", STUDY, "0 runs have results: so many can be made again, and at least one"),
    ("", STUDY + 'pattern = "zigzag"\n', "there is no pattern 'zigzag': the patterns are uniform"),
    ("", STUDY + "window = [100, 151]\n", "B at most the 150 cycles of the run, not [100, 151]"),
    ("", STUDY.replace('"dor"', '"dateline"'), "noc takes no kind=mesh radix=8x8 rule=dateline"),
    ("", STUDY.replace('"dor"', '"table"') + 'table = "missing.csv"\n', "missing.csv: No such file or directory"),
    ("", STUDY.replace("[8, 8]", "[3, 3]") + 'pattern = "shuffle"\n', "9 nodes are no power of two"),
    ("", STUDY.replace("0.02, ", "5, "), "a load is 0 or more, and at most the length of a packet"),
    ("", "radix = [8\n", "s.toml is no TOML: "),
    ("", "x = " + "[" * 3000 + "]" * 3000 + "\n", "nested too deep"),
    ("--collect lines", STUDY, "lines: line 1 is no result of a run of this study"),
    ("--collect foreign", STUDY, "foreign: line 1 is no result of a run of this study"),
    ("--collect long", STUDY, "field larger than field limit"),
    ("--collect missing", STUDY, "missing: No such file or directory"),
    ("--jobs 0", STUDY, "at least one job is needed"),
    ("--top -1", STUDY, "--top is a number above 0"),
    ("--files kept", STUDY, "--files is for --one"),
    ("--list --collect lines", STUDY, "--list only prints commands: --collect and --verify are for another call"),
    ("--list --verify 1", STUDY, "--list only prints commands"),
    ("--out lines", STUDY, "lines: File exists"),
]
ONE = "--one kind=mesh rule=dor buffer=2 length=1 load=0.1"
OTHERS = [
    ("missing.toml", "missing.toml: No such file or directory"),
    ("s.txt", "a study that does not end in .toml needs --out FOLDER"),
    ("--one kind=mesh", "'radix' is not set"),
    (f"{ONE} radix=8x8 channels=1 parts=maybe", "'parts' is yes or no, not 'maybe'"),
    ("--one channels", "'channels' is no SETTING=VALUE: the settings are kind"),
    ("--one colour=red", "'colour=red' is no SETTING=VALUE"),
    (f"{ONE} radix=8x8 channels=one", "'channels' is a number, not 'one'"),
    (f"{ONE} radix=8x8 channels=1 flit_bytes={'9' * 400}", "'flit_bytes' is a number, not '999"),
    (f"{ONE} radix=8x8 channels=1 burst=5:{'9' * 400}", "'burst' is 2 numbers with ':' between them, not '5:999"),
    *((f"{ONE} radix=2x2 channels=1 cycles=30 {more}", "--one takes --files and nothing else")
      for more in ("--list", "--out o", "--verify 1", "--top 9", "--collect lines")),
    (f"{ONE} radix=8y8 channels=1", "'radix' is numbers with 'x' between them, not '8y8'"),
    ("", "either STUDY.toml or --one is needed"),
    ("s.txt --one kind=mesh", "either STUDY.toml or --one is needed"),
]


class Refusals(SweepTest):
    def test_studies_that_make_no_sense(self) -> None:
        one = self.sweep(*ONE.split(), "radix=2x2", "channels=1", "cycles=30").stdout
        self.assertEqual(len(one.split(",")), len(HEADER))
        self.put(lines="1,2,3\n", foreign=one, long="0" * 140_000 + "\n", **{"t.csv": IN_THE_WAY + "0,1,0,1,9\n"})
        for words, text, sentence in ON_STUDY:
            shutil.rmtree(self.folder / "s", ignore_errors=True)
            self.assertEachRefused([(f"sweep s.toml {words}", {"s.toml": text}, sentence)])

    def test_words_that_make_no_sense(self) -> None:
        self.put(**{"s.txt": STUDY})
        self.assertEachRefused((f"sweep {words}", sentence) for words, sentence in OTHERS)

    def test_what_noc_refuses_has_its_line_and_status(self) -> None:
        words = "kind=mesh radix=2x2 rule=dateline channels=1 buffer=2 length=1 load=0.1"
        self.assertRefusedByNoc(f"sweep --one {words}", 4, "fault relation .*")
