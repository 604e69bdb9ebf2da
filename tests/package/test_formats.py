"""docs/FORMATS.md: the lines of its table of mistakes, and its recipe for data frames."""
import csv
import importlib.util
import io
import re
import sys

from support import HEADER, PROGRAM, TOP, FolderTest

from noc_tools.network import Network
from noc_tools.relation import TABLE_HEADER

FORMATS = (TOP / "docs/FORMATS.md").read_text()
FOUR = Network("mesh", (4, 4), 1, 2, 1, "dor", 100).text()
ODD = FOUR.replace("channels = 1", "channels = 3").replace("classes = 1", "classes = 2")
BY_TABLE = FOUR.replace("[4, 4]", "[2]").replace("dor", "table")
GOOD = HEADER + "0,1,0,1,0\n"
ROWS = ["0,0,local,0,1,+0,0", "0,1,-0,0,1,local,0", "0,1,local,0,0,-0,0", "0,0,+0,0,0,local,0"]
RUN, EXPLAIN, RANKS = "run c t", "explain c t --router 0 --cycle 100", "ranks c"
# A line of the page, and what is run: words, configuration, traffic, and the rows of a table.
MISTAKES: list[tuple[str, str, str, str, list[str]]] = [
    ("config 5 UnknownKey", RUN, FOUR.replace("channels", "chanels"), GOOD, []),
    ("config 4 BadToml", RUN, FOUR.replace('"dor"', "dor"), GOOD, []),
    ("config 4 BadToml", RUN, FOUR.replace('kind =', "kind"), GOOD, []),
    ("config 4 BadToml", "run t c", FOUR, GOOD, []),
    ("config 1 ReadFailed", "run nothing t", FOUR, GOOD, []),
    ("config 1 ReadFailed", "run - t", FOUR, GOOD, []),
    ("config 1 ReadFailed", "run examples t", FOUR, GOOD, []),
    ("config 8 BadValue key rule", RUN, FOUR.replace("dor", "xy"), GOOD, []),
    ("config 8 BadValue key channels", RUN, FOUR.replace("channels = 1", "channels = 16"), GOOD, []),
    ("shape 2 BadRadix", RUN, FOUR.replace("[4, 4]", "[20]"), GOOD, []),
    ("relation 1 WrongShape", RUN, FOUR.replace("dor", "dateline"), GOOD, []),
    ("relation 1 WrongShape", RUN, FOUR.replace("dor", "dateline").replace("mesh", "torus"), GOOD, []),
    ("relation 1 WrongShape", RUN, FOUR.replace("dor", "adaptive"), GOOD, []),
    ("relation 1 WrongShape", RUN, ODD, GOOD, []),
    ("traffic 9 BadHeader", RUN, FOUR, "source,destination,length,due\n0,1,1,0\n", []),
    ("traffic 9 BadHeader", RUN, FOUR, GOOD.replace("destination", "dst"), []),
    ("traffic 9 BadHeader", RUN, FOUR, GOOD.replace(",", ", "), []),
    ("traffic 11 BadNumber row 0 column 4", RUN, FOUR, HEADER + "0,1,0,1,1.5\n", []),
    ("network 2 BadNode row 1", RUN, FOUR, GOOD + "0,16,0,1,0\n", []),
    ("network 3 BadClass row 0", RUN, FOUR, HEADER + "0,1,1,1,0\n", []),
    ("network 4 BadLength row 0", RUN, FOUR, HEADER + "0,1,0,100,0\n", []),
    ("network 5 TooMany", RUN, FOUR, HEADER + "0,1,0,1,0\n" * 20001, []),
    ("option 4 NoTable", RUN, BY_TABLE, GOOD, None),
    ("table 12 BadPort row 0 column 5", RUN, BY_TABLE, GOOD, ["0,0,local,0,1,0,0", *ROWS[1:]]),
    ("table 12 BadPort row 0 column 5", RUN, BY_TABLE, GOOD, ["0,0,local,0,1,E,0", *ROWS[1:]]),
    ("relation 3 NotMinimal class 0 router 1 port local vc 0 dst 2 out -0 vc 0", RUN, BY_TABLE.replace("[2]", "[3]"),
     GOOD, ["0,1,local,0,2,-0,0"]),
    ("relation 6 NoWay class 0 router 0 port local vc 0 dst 1", RUN, BY_TABLE, GOOD, ROWS[1:]),
    ("rank 1 NoGenerated", RANKS, BY_TABLE, GOOD, ROWS),
    ("rank 1 NoGenerated", RANKS, FOUR.replace("mesh", "torus"), GOOD, []),
    ("option 1 BadCycle", EXPLAIN, FOUR, GOOD, []),
    ("joined 13 NoSplit", "", FOUR + GOOD, GOOD, []),
]


class Limits(FolderTest):
    def test_the_stack_and_the_memory_of_the_page_are_enough(self) -> None:
        """For words of 32 bits, with six channels in two dimensions, and of 64 bits, with eight."""
        (stack,), (memory,) = (re.findall(rf"\(`ulimit -{letter} (\d+)`\)", FORMATS) for letter in "sv")
        self.put(t=GOOD)
        for channels in (6, 8):
            self.put(c=Network("mesh", (2, 2), channels, 2, 1, "dor", 100))
            # (a shell sets the limit for the program alone: Python itself has no room below it)
            for limit in (f"ulimit -s {stack}", f"ulimit -v {memory}"):
                for words in (["run", "c", "t"], ["trace", "c", "t"], ["run", "c", "t", "--workers", "4"]):
                    ran = self.called(["bash", "-c", f'{limit} && exec "$0" "$@"', PROGRAM, *words])
                    self.assertEqual((ran.returncode, ran.stderr), (0, ""), (channels, limit, words))


class Formats(FolderTest):
    def test_mistakes_have_the_lines_of_the_page(self) -> None:
        """Each mistake gives its line, and the page has these lines and no others."""
        page = FORMATS[FORMATS.index("## Mistakes"):]
        lines = re.findall(r"^\| `fault ([^`]+)` \|", page[:page.index("\n## ", 1)], re.MULTILINE)
        self.assertEqual(set(lines), {line for line, *_ in MISTAKES})
        for line, words, text, traffic, rows in MISTAKES:
            with self.subTest(line=line, words=words):
                self.put(c=text, t=traffic, table="\n".join([TABLE_HEADER, *(rows or []), ""]))
                table = ["--table", "table"] if rows else []
                ran = self.called([self.folder / "noc", *words.split(), *table], input=text + traffic)
                self.assertEqual((ran.stdout, ran.stderr), ("", f"fault {line}\n"))

    def test_each_verdict_has_its_column(self) -> None:
        """The table of the page has the names of a trace beside the columns of a stall report, in their order."""
        named = re.findall(r"^\| `([A-Z]\w+)` \| `([a-z_]+)` \|", FORMATS, re.MULTILINE)
        self.put(c=FOUR, t=HEADER + "0,5,0,3,0\n1,5,0,3,0\n4,5,0,9,0\n1,2,0,4,0\n")
        header = self.noc("run", "c", "t", "--report", "stalls").stdout.splitlines()[0]
        self.assertEqual([column for _, column in named], header.split(",")[3:])
        seen = {row["verdict"] for row in self.report("trace", "c", "t")}
        self.assertLessEqual(seen, {verdict for verdict, _ in named})
        self.assertGreater(len(seen), 5)

    def test_data_frames_keep_port_names(self) -> None:
        """The page's recipe where there is pandas, and else what it says of the csv module: what is read and written
        is the same file."""
        (recipe,) = re.findall(r"^```python\n(import pandas\n.*?)^```$", FORMATS, re.MULTILINE | re.DOTALL)
        self.put(c=Network("torus", (3, 3), 3, 2, 1, "adaptive", 20), t=HEADER + "0,4,0,3,0\n4,0,0,3,0\n")
        calls = {"ranks": "ranks c", "findings": "explain c t --cycle 3 --router 0", "latency": "run c t"}
        texts = {name: self.noc(*words.split()).stdout for name, words in calls.items()}
        self.put(**{f"{name}.csv": text for name, text in texts.items()})
        if importlib.util.find_spec("pandas"):
            self.assertEqual(self.called([sys.executable, "-c", recipe]).returncode, 0)
            self.assertEqual((self.folder / "again.csv").read_text(), texts["ranks"])
            return
        for text in texts.values():
            rows, copy = list(csv.DictReader(text.splitlines())), io.StringIO()
            writer = csv.DictWriter(copy, rows[0], lineterminator="\n")
            writer.writeheader()
            writer.writerows(rows)
            self.assertEqual(copy.getvalue(), text)
            self.assertTrue(any(row.get("port") in ("+0", "-0", None) for row in rows))
