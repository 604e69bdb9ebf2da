"""What tests of the package share: a folder where its commands run beside the program, and networks."""
import csv
import os
import shutil
import subprocess
import sys
import tempfile
import unittest
import xml.etree.ElementTree as ElementTree
from collections.abc import Iterable, Iterator
from pathlib import Path
from random import Random
from typing import Any

from noc_tools.network import Network
from noc_tools.traffic import HEADER as TRAFFIC_HEADER

TOP = Path(__file__).resolve().parents[2]
PROGRAM = Path(os.environ.setdefault("NOC", str(TOP / "noc"))).resolve()
SVG = "{http://www.w3.org/2000/svg}"
HEADER = TRAFFIC_HEADER + "\n"
LINE = Network("mesh", (3,), 1, 2, 1, "dor", 20)
SQUARE = Network("mesh", (8, 8), 1, 2, 1, "dor", 400)
# A network of which nothing can be made that has a place for each node.
HUGE = Network("mesh", (999, 999, 999), 1, 2, 1, "dor", 400)
# Node 0 sends one flit through router 1, whose node sends one too, both to node 2; and node 0 sends three more flits.
IN_THE_WAY = HEADER + "0,2,0,1,0\n1,2,0,1,0\n0,2,0,3,0\n"


class FolderTest(unittest.TestCase):
    """A test in a folder with a copy of the package, the launcher and the program side by side, and the examples."""

    maxDiff = None
    FILES: dict[str, Any] = {"c": LINE, "t": IN_THE_WAY}
    folder: Path
    environment: dict[str, str]

    @classmethod
    def setUpClass(cls) -> None:
        cls.folder = Path(cls.enterClassContext(tempfile.TemporaryDirectory(prefix="noc-test-")))
        for name in ("noc_tools", "examples"):
            shutil.copytree(TOP / name, cls.folder / name)
        shutil.copy(TOP / "noc-tools", cls.folder)
        (cls.folder / "noc").symlink_to(PROGRAM)
        cls.environment = {name: value for name, value in os.environ.items() if name != "NOC"}

    def setUp(self) -> None:
        self.put(**self.FILES)

    def put(self, **files: Any) -> None:
        """Writes files: texts, bytes or configurations."""
        for name, content in files.items():
            text = content.text() if isinstance(content, Network) else content
            (self.folder / name).write_bytes(text if isinstance(text, bytes) else text.encode())

    def called(self, words: Iterable[object], **given: Any) -> "subprocess.CompletedProcess[Any]":
        """How a call in the folder ends; the environment has no program, so the one beside the package runs."""
        given = {"capture_output": True, "text": True, "timeout": 600, "env": self.environment, **given}
        return subprocess.run([*map(str, words)], cwd=self.folder, **given)

    def tool(self, *words: object, given: Any = None) -> "subprocess.CompletedProcess[Any]":
        """How a command of the package ends."""
        return self.called([sys.executable, "noc-tools", *words], input=given)

    def said(self, *words: object, given: Any = None) -> str:
        """What a command of the package prints."""
        return self.tool(*words, given=given).stdout

    def drawn(self, *words: object, **given: Any) -> ElementTree.Element:
        """The picture that a command draws."""
        return ElementTree.fromstring(self.said(*words, **given))

    def noc(self, *words: object) -> "subprocess.CompletedProcess[Any]":
        """How the program ends."""
        return self.called([self.folder / "noc", *words])

    def report(self, *words: object) -> list[dict[str, str]]:
        """The rows of a report of the program."""
        return list(csv.DictReader(self.noc(*words).stdout.splitlines()))

    def made(self, pattern: str, *words: object) -> list[tuple[int, ...]]:
        """The packets of a pattern."""
        lines = self.said("traffic", "c", pattern, *words).splitlines()[1:]
        return [tuple(map(int, line.split(","))) for line in lines]

    def assertRefused(self, ran: "subprocess.CompletedProcess[str]", sentence: str, name: str) -> None:
        """One line that says why, with the command's name, and nothing else."""
        self.assertEqual((ran.returncode, ran.stdout, ran.stderr.count("\n")), (1, "", 1), ran.stderr)
        self.assertIn(sentence, ran.stderr)
        self.assertTrue(ran.stderr.startswith(f"noc-tools {name}: "), ran.stderr)

    def assertEachRefused(self, cases: Iterable[tuple[Any, ...]], given: Any = None) -> None:
        """Each case is a command with its words, files where it needs some, and a part of the one sentence that answers
        it."""
        for words, *files, sentence in cases:
            with self.subTest(words=words, sentence=sentence):
                self.put(**dict(*files))
                self.assertRefused(self.tool(*words.split(), given=given), sentence, words.split()[0])

    def assertRefusedByNoc(self, words: str, status: int, line: str) -> None:
        """What noc refuses it tells itself, by its line and its status; a further line may say what that means."""
        with self.subTest(words=words, line=line):
            ran = self.tool(*words.split())
            self.assertEqual((ran.returncode, ran.stdout), (status, ""))
            self.assertRegex(ran.stderr, f"^{line}\n(noc-tools {words.split()[0]}: .*\n)?$")

    def in_place_of_the_program(self, script: str) -> dict[str, str]:
        """Puts a script where the package looks for the program, until the test is over; the environment of a call,
        which names the program."""
        noc = self.folder / "noc"
        program = noc.readlink()
        noc.unlink()
        self.addCleanup(noc.symlink_to, program)
        self.addCleanup(noc.unlink)
        self.put(noc=script)
        noc.chmod(0o755)
        return self.environment | {"PROGRAM": str(program)}


def texts_of(root: ElementTree.Element) -> list[str]:
    """The words of a picture."""
    return [text.text for text in root.iter(f"{SVG}text")]


def made_networks(count: int) -> Iterator[tuple[Network, str]]:
    """Small networks of all rules with more traffic than they take."""
    random = Random(1)

    def below(bound: int) -> int:
        return int(random.random() * bound)

    for number in range(count):
        rule = ["dor", "dateline", "west-first", "adaptive"][number % 4]
        either = ["mesh", "torus"][below(2)]
        kind = {"dor": either, "dateline": "torus", "west-first": "mesh", "adaptive": either}[rule]
        radix = 2 + below(3), 2 + below(3)
        classes, nodes = 1 + below(2), radix[0] * radix[1]
        if rule == "adaptive":
            channels = 3 + below(2) if kind == "torus" else classes * 2
            classes = 1 if kind == "torus" else classes
        else:
            channels = classes * (2 if rule == "dateline" else 1 + below(2))
        rows = [(below(nodes), below(nodes), below(classes), 1 + below(9), below(12)) for _ in range(3 * nodes)]
        lines = [",".join(map(str, row)) + "\n" for row in rows if row[0] != row[1]]
        yield Network(kind, radix, channels, 1 + below(3), classes, rule, 40), HEADER + "".join(lines)
