"""The folder of a certificate: what its files say, that each changed byte in it is found, and its picture."""
import math
import os
import re
import shutil
import subprocess
import sys
import unittest
import xml.etree.ElementTree as ET
from collections.abc import Iterable, Iterator
from dataclasses import replace
from hashlib import sha256
from pathlib import Path
from threading import Thread
from typing import Any
from unittest.mock import patch

from support import HEADER, LINE, PROGRAM, SVG, TOP, FolderTest
from test_replay import data_of
from test_shrink import RING, minimal_adaptive

from noc_tools import Refused, certificate, claims, dependencies
from noc_tools.certificate import GIVEN
from noc_tools.network import Network
from noc_tools.page import heading, html, linked, listed, markdown, paragraph, tabled, verbatim
from noc_tools.ranks import NoRanks, ranks_found
from noc_tools.relation import Channels, of_network

DATELINE, ADAPTIVE, BY_TABLE = "examples/ring_dateline.toml", "examples/adaptive.toml", "examples/turns.toml"
# The table of the four left turns, in which one packet goes the other way.
OTHER_WAY = ("0,1,local,0,2,+1,0", "0,1,local,0,2,-0,0")
CERTIFICATE = {
    "configuration.toml", "ranks.csv", "answer.txt", "graph.svg", "program.txt", "certificate.html", "certificate.md",
    "SHA256SUMS",
}
JAM = {
    "configuration.toml", "circle.txt", "traffic.csv", "graph.svg", "replay.html", "program.txt",
    "counterexample.html", "counterexample.md", "SHA256SUMS",
}


# Certifies the file c, in whose place another one is put when 'noc check' has ended.
SAVED_MEANWHILE = """
import os, sys
from noc_tools import certificate
from noc_tools.cli import main

def saved_meanwhile(*words, report=certificate.report):
    said = report(*words)
    if words[0] == "check":
        os.replace("saved", "c")
    return said

certificate.report = saved_meanwhile
sys.exit(main(["certify", "c", "--out", "out"]))
"""


class CertificateTest(FolderTest):
    def setUp(self) -> None:
        self.out = self.folder / "out"
        self.addCleanup(shutil.rmtree, self.out, ignore_errors=True)

    def certify(self, *words: object, folder: str | Path = "out", status: int = 0, **given: Any) -> dict[str, str]:
        """Makes a folder, and returns its texts by the names of its files."""
        ran = self.called([sys.executable, "noc-tools", "certify", *words, "--out", folder], **given)
        self.assertEqual(ran.returncode, status, ran.stderr)
        return {path.name: path.read_text() for path in (self.folder / folder).iterdir()}

    def certify_table(self) -> dict[str, str]:
        """The same of a table with given ranks."""
        turns = (TOP / "examples/turns_table.csv").read_text()
        self.put(table=turns.replace(*OTHER_WAY))
        return self.certify(BY_TABLE, "--table", "table", "--ranks", "examples/turns_ranks.csv")

    def sums_hold(self) -> bool:
        """Whether the digests are those of the files, as another program sees it."""
        ran = subprocess.run(["sha256sum", "--check", "--quiet", "SHA256SUMS"], cwd=self.out, capture_output=True)
        return ran.returncode == 0


class Folders(CertificateTest):
    def test_a_rule_with_a_formula(self) -> None:
        files = self.certify(DATELINE)
        self.assertEqual(set(files), CERTIFICATE)
        self.assertEqual(files["configuration.toml"], (TOP / DATELINE).read_text())
        self.assertEqual(files["ranks.csv"], self.noc("ranks", DATELINE).stdout)
        self.assertEqual(files["answer.txt"], "accepted\n")
        self.assertTrue(self.sums_hold())

    def test_a_table_with_ranks(self) -> None:
        files = self.certify_table()
        self.assertEqual(set(files), CERTIFICATE | {"table.csv"})
        self.assertEqual(files["table.csv"], (self.folder / "table").read_text())
        self.assertEqual(files["ranks.csv"], (TOP / "examples/turns_ranks.csv").read_text())
        command = "$ noc check configuration.toml --table table.csv --ranks ranks.csv\naccepted\n"
        self.assertIn(command, files["certificate.md"])

    def test_ranks_that_are_found(self) -> None:
        """With escape channels, where no ranks of all channels are."""
        files = self.certify(ADAPTIVE, "--find")
        self.assertEqual(files["ranks.csv"], self.said("ranks", ADAPTIVE, "--escape"))

    def test_the_program_is_told(self) -> None:
        said = dict(line.split(" ", 1) for line in self.certify(DATELINE)["program.txt"].splitlines())
        digest = subprocess.run(["sha256sum", PROGRAM], capture_output=True, text=True).stdout.split()[0]
        version = dict(line.split(" ", 1) for line in self.noc("--version").stdout.splitlines())
        self.assertEqual(said, {**version, "built": said["built"], "sha256": digest})

    def test_the_kit_that_built_the_program_is_told(self) -> None:
        """By the file beside it, where that is of this program, also for a link to it."""
        other, beside = self.folder / "other", self.folder / "other.kit"
        shutil.copy(PROGRAM, other)
        digest = subprocess.run(["sha256sum", other], capture_output=True, text=True).stdout.split()[0]
        link = self.folder / "link"
        link.symlink_to(other)
        said = {"a kit logic 5": f"built a kit logic 5\nsha256 {digest}\n", "none": "", "of no lines": "built",
                "a kit of another": "built a kit\nsha256 0\n"}
        for name, text in said.items():
            beside.write_text(text)
            known = name if name == "a kit logic 5" else "unknown"
            with self.subTest(name):
                files = self.certify(DATELINE, folder=f"out/{name}", env=self.environment | {"NOC": str(link)})
                self.assertIn(f"\nbuilt {known}\n", files["program.txt"])
                self.assertIn(f"The Rattle kit that built the program (`{known}`, ", files["certificate.md"])
        beside.unlink()
        files = self.certify(DATELINE, folder="out/alone", env=self.environment | {"NOC": str(other)})
        self.assertIn("\nbuilt unknown\n", files["program.txt"])

    def test_the_kit_of_the_page_is_that_of_the_program(self) -> None:
        source = (TOP / "crates/noc_cli/src/version.rt").read_text()
        kit = re.search(r'pub const KIT: &str = "(.*)";', source)[1]
        self.assertRegex((TOP / "docs/PROVED.md").read_text(), rf"\(`{kit}`, with `logic [0-9a-f]{{16}}`\)")

    def test_a_circle_in_place_of_ranks(self) -> None:
        self.put(c=RING)
        ran = self.tool("certify", "c", "--find", "--out", "out")
        circle = self.tool("ranks", "c").stderr.splitlines()[1:]
        self.assertEqual((ran.returncode, ran.stdout, ran.stderr.splitlines()[1:5]), (1, "", circle))
        self.assertIn("4 packets with 4 flits in all get stuck", ran.stderr.splitlines()[5])
        files = {path.name: path.read_text() for path in self.out.iterdir()}
        self.assertEqual(set(files), JAM)
        self.assertEqual(files["circle.txt"].splitlines(), circle)
        self.assertEqual(self.noc("run", "out/configuration.toml", "out/traffic.csv").returncode, 5)
        self.assertTrue(self.sums_hold())
        page = files["counterexample.md"]
        self.assertIn("So these packets wait for one another: 0, 1, 2, 3.", page)
        self.assertIn("| 3 | 3 | 1 | 0 | 1 | 0 |", page)
        self.assertIn("traffic.csv --report summary > /dev/null\n$ echo $?\n5\n", page)
        self.assertNotIn("escape", page)

    def test_packets_that_are_out_do_not_wait(self) -> None:
        """Packet 0 is out, but holds the others up as they come; it is not told of at the end, where two channels for
        each class leave room for escape channels."""
        network = Network("mesh", (3, 3), 2, 2, 1, "table", 300)
        self.put(c=network, table=minimal_adaptive(network))
        page = self.certify("c", "--table", "table", "--find", status=1)["counterexample.md"]
        self.assertIn("Nor were ranks found with the lowest channels of each class as escape channels.", page)
        waiting = page.split("## Who waits for whom at the end")[1].split("\n## ")[0]
        told = re.findall(r"^packet (\d+),", waiting, re.MULTILINE)
        report = self.report("run", "c", "out/traffic.csv", "--table", "table")
        self.assertTrue(told)
        self.assertEqual({report[int(number)]["out"] for number in told}, {"-"})

    def test_the_replay_shows_the_end_of_the_jam(self) -> None:
        """Ten cycles after the last event, and no more."""
        self.put(c=RING)
        page = self.certify("c", "--find", status=1)["replay.html"]
        counts = dict(line.split() for line in
                      self.noc("run", "c", "out/traffic.csv", "--report", "summary").stdout.splitlines())
        self.assertEqual(data_of(page)["last"], int(counts["last_event"]) + 10)
        self.assertIn("configuration.toml, traffic.csv: torus of 4", page)

    def test_what_is_refused(self) -> None:
        self.put(c=LINE, file="", ring=RING, t=Network("mesh", (2, 2), 1, 2, 1, "table", 60))
        (self.folder / "empty").mkdir(exist_ok=True)
        cases = [
            ("certify", "CONFIG and --out FOLDER are needed"),
            ("certify c", "CONFIG and --out FOLDER are needed"),
            ("certify --out out", "CONFIG and --out FOLDER are needed"),
            ("certify nothing --out examples", "examples is there, and is no empty folder"),
            ("certify c --out file", "file is there, and is no empty folder"),
            ("certify nothing --out out", "nothing: No such file or directory"),
            ("certify ring --out out", "dor on a torus has no ranks by formula: give --ranks F, or --find"),
            ("certify t --table examples/turns_table.csv --out out", "a table has no ranks by formula"),
            ("certify c --verify empty", "--verify takes a folder and nothing else"),
            ("certify --find --verify empty", "--verify takes a folder and nothing else"),
            ("certify --verify nothing", "nothing is no folder"),
            ("certify --verify file", "file is no folder"),
            ("certify --verify empty", "empty has no file SHA256SUMS, so it is no certificate"),
        ]
        self.assertEachRefused((words, {}, sentence) for words, sentence in cases)
        self.assertFalse(self.out.exists())

    def test_what_noc_refuses(self) -> None:
        """Nothing is made then."""
        rising = "fault rank 2 NotRising class 0 router 3 port -1 vc 0 dst 2 out -0 vc 0 ranks 4 1\n"
        given = "--table", "examples/turns_table.csv", "--ranks", "examples/turns_ranks.csv", "--out", "out"
        ran = self.tool("certify", BY_TABLE, *given)
        more = "noc-tools certify: by the rank file packets may go on from rank 4 to rank 1, which is not greater\n"
        self.assertEqual((ran.returncode, ran.stdout, ran.stderr), (4, "", rising + more))
        cases = {"--find": "fault option 4 NoTable", f"--find --table {BY_TABLE}": "fault table 9 BadHeader"}
        for words, line in cases.items():
            ran = self.tool("certify", BY_TABLE, *words.split(), "--out", "out")
            self.assertEqual((ran.returncode, ran.stdout, ran.stderr.splitlines()[0]), (3, "", line))
        ran = self.tool("certify", DATELINE, "--ranks", "nothing", "--out", "out")
        self.assertRefused(ran, "nothing: No such file or directory", "certify")
        self.assertFalse(self.out.exists())

    def test_what_is_certified_is_what_was_checked(self) -> None:
        """A configuration that is saved anew when 'noc check' has ended: a torus, which can deadlock by this rule."""
        self.put(c=LINE, saved=replace(LINE, kind="torus"), script=SAVED_MEANWHILE)
        ran = self.called([sys.executable, "script"], env=self.environment | {"PYTHONPATH": str(self.folder)})
        self.assertEqual(ran.returncode, 0, ran.stderr)
        self.assertFalse((self.folder / "saved").exists())
        self.assertEqual((self.out / "configuration.toml").read_text(), LINE.text())

    def test_files_may_be_pipes(self) -> None:
        """Each is read once."""
        os.mkfifo(self.folder / "pipe")
        self.addCleanup(os.unlink, self.folder / "pipe")
        Thread(target=(self.folder / "pipe").write_text, args=(LINE.text(),), daemon=True).start()
        self.assertEqual(self.certify("pipe")["configuration.toml"], LINE.text())

    def test_two_calls_make_one_folder(self) -> None:
        """Into a folder that is there, and into one that is not, of which none is left behind."""
        self.put(c=LINE)
        words = [sys.executable, "noc-tools", "certify", "c", "--out", "out"]
        for is_there in (False, True):
            if is_there:
                self.out.mkdir()
            calls = [subprocess.Popen(words, cwd=self.folder, env=self.environment, stdout=subprocess.DEVNULL,
                                      stderr=subprocess.PIPE, text=True) for _ in range(3)]
            told = "".join(call.communicate()[1] for call in calls)
            self.assertEqual(sorted(call.returncode for call in calls), [0, 1, 1], told)
            self.assertRegex(told, "noc-tools certify: (another call makes out|out is there, and is no empty folder)")
            self.assertTrue(self.sums_hold())
            shutil.rmtree(self.out)
        self.tool("certify", "nothing", "--out", "deep/deeper")
        self.assertFalse((self.folder / "deep").exists())

    def test_a_call_leaves_the_folder_of_another(self) -> None:
        """One that another call holds stays, also where this call made it; and one that another took away while this
        call looked is not made again."""
        for taken in (BlockingIOError, FileNotFoundError):
            def turned(handle: int, how: int, taken: type[OSError] = taken) -> None:
                if taken is BlockingIOError:
                    raise BlockingIOError
                self.out.rmdir()
            with self.subTest(taken=taken), patch("fcntl.flock", turned):
                with self.assertRaisesRegex(Refused, f"another call makes {self.out}"), certificate.room(str(self.out)):
                    self.fail("this call makes it too")
                self.assertEqual(self.out.is_dir(), taken is BlockingIOError)

    def test_a_script_that_names_no_program_is_refused(self) -> None:
        """Its digest would not be that of the program."""
        self.put(c=LINE)
        environment = self.in_place_of_the_program('#!/bin/sh\nexec "$PROGRAM" "$@"\n')
        ran = self.called([sys.executable, "noc-tools", "certify", "c", "--out", "out"], env=environment)
        self.assertRefused(ran, "noc --which does not say which program it runs", "certify")


class Verified(CertificateTest):
    def verify(self, **given: Any) -> tuple[int, str]:
        ran = self.called([sys.executable, "noc-tools", "certify", "--verify", "out"], **given)
        return ran.returncode, ran.stdout

    def assertDiffers(self, name: str) -> None:
        """This file alone is another one. Where it was given, and is right as it is, others do not follow from it."""
        status, said = self.verify()
        others = [line for line in said.splitlines() if not line.endswith(f" does not follow from {name} as of now")]
        self.assertEqual((status, others), (1, [f"{name} differs"]))
        self.assertTrue(name in GIVEN or said.count("\n") == 1, said)

    def look_at_each_file(self, names: Iterable[str], parts: Iterable[float]) -> None:
        """A changed byte in any of these files is found in this file, at places that are these parts of it."""
        self.assertEqual(self.verify(), (0, "each file is as it was made\n"))
        for name in sorted(names):
            path = self.out / name
            data = path.read_bytes()
            for place in {int((len(data) - 1) * part) for part in parts}:
                with self.subTest(name=name, place=place):
                    path.write_bytes(data[:place] + bytes([data[place] ^ 1]) + data[place + 1:])
                    self.assertDiffers(name)
            path.write_bytes(data)

    def test_each_changed_byte_of_a_certificate(self) -> None:
        self.look_at_each_file(self.certify_table(), (0, 0.5, 1))

    def test_each_changed_byte_of_a_jam(self) -> None:
        self.put(c=RING)
        self.look_at_each_file(self.certify("c", "--find", status=1), (0.5,))

    def test_other_inputs_that_are_right_too(self) -> None:
        """A comment, or a length of a run, with which all could have been made; and ranks that are accepted."""
        self.certify(DATELINE)
        changes = {"configuration.toml": ("cycles = 60", "cycles = 61"), "ranks.csv": (",8\n", ",9\n")}
        for name, change in changes.items():
            path = self.out / name
            text = path.read_text()
            path.write_text(text.replace(*change))
            self.assertNotEqual(path.read_text(), text)
            self.assertDiffers(name)
            path.write_text(text)

    def test_a_missing_file_and_one_more(self) -> None:
        for name in self.certify_table():
            path = self.out / name
            data = path.read_bytes()
            path.unlink()
            status, said = self.verify()
            self.assertEqual(status, 1)
            self.assertEqual(said, "" if name == "SHA256SUMS" else f"{name} is missing\n")
            path.write_bytes(data)
        self.put(**{"out/more.txt": "more"})
        self.assertEqual(self.verify(), (1, "more.txt does not belong to it\n"))

    def forge(self, **contents: str) -> None:
        """Puts other contents into the folder, and digests that fit."""
        for name, content in contents.items():
            (self.out / name).write_text(content)
        there = sorted(path for path in self.out.iterdir() if path.name != "SHA256SUMS")
        lines = (f"{sha256(path.read_bytes()).hexdigest()}  {path.name}\n" for path in there)
        (self.out / "SHA256SUMS").write_text("".join(lines))

    def test_another_program_covers_nothing_up(self) -> None:
        """A page, an answer and a picture are forged, with one more page, and so is a digit of the program's digest."""
        files = self.certify(DATELINE)
        program = files["program.txt"]
        digit = "0" if program[-2] != "0" else "1"
        self.forge(**{
            "program.txt": program[:-2] + digit + "\n", "answer.txt": "accepted, within 10 cycles\n",
            "graph.svg": "<svg/>", "more.html": "forged",
            "certificate.md": files["certificate.md"].replace("Whatever the traffic", "Whatever the links"),
        })
        status, said = self.verify()
        self.assertEqual(status, 1)
        for line in (
            "answer.txt differs", "certificate.md differs", "graph.svg differs", "more.html does not belong to it",
            "program.txt differs: this program is another one than that of the folder",
        ):
            self.assertIn(line + "\n", said)

    def test_a_given_file_covers_nothing_up(self) -> None:
        """A comment more in the configuration, and a page that is forged with its digest."""
        files = self.certify(DATELINE)
        self.forge(**{"certificate.md": files["certificate.md"].replace("Whatever the traffic", "Whatever the links")})
        self.put(**{"out/configuration.toml": files["configuration.toml"] + "# more\n"})
        self.assertEqual(self.verify(), (1, (
            "configuration.toml differs\ncertificate.md does not follow from configuration.toml as of now\n"
        )))

    def test_all_that_is_there_is_looked_at(self) -> None:
        """A folder, a pipe, a link to nothing, and one to what never ends."""
        self.certify(DATELINE)
        (self.out / "more").mkdir()
        os.mkfifo(self.out / "pipe")
        (self.out / "link").symlink_to("/no/such")
        (self.out / "answer.txt").unlink()
        (self.out / "answer.txt").symlink_to("/dev/zero")
        self.assertEqual(self.verify(timeout=300), (1, (
            "answer.txt is no plain file\nlink does not belong to it\nmore does not belong to it\n"
            "pipe does not belong to it\n"
        )))
        (self.out / "SHA256SUMS").unlink()
        os.mkfifo(self.out / "SHA256SUMS")
        ran = self.tool("certify", "--verify", "out")
        self.assertRefused(ran, "out has no file SHA256SUMS, so it is no certificate", "certify")

    def test_no_search_for_what_is_no_certificate(self) -> None:
        """A configuration of a large network alone, for which a search for a jam takes minutes; and a traffic that does
        not get stuck in the place of its jam."""
        self.out.mkdir()
        large = Network("torus", (16, 16), 8, 2, 1, "dor", 2000)
        self.forge(**{"configuration.toml": large.text()})
        ran = self.called([sys.executable, "noc-tools", "certify", "--verify", "out"], timeout=300)
        told = "the folder has neither ranks.csv nor circle.txt and traffic.csv, so it is no certificate"
        self.assertRefused(ran, told, "certify")
        self.forge(**{"traffic.csv": HEADER + "0,1,0,1,0\n", "circle.txt": ""})
        ran = self.called([sys.executable, "noc-tools", "certify", "--verify", "out"], timeout=300)
        self.assertRefused(ran, "a run of traffic.csv does not get stuck", "certify")

    def test_a_jam_is_not_searched_again(self) -> None:
        """A ring with two million cycles; and a large network for which a search takes minutes. Its traffic gets stuck
        with less, too."""
        self.put(c=replace(RING, cycles=2_000_000))
        self.certify("c", "--find", status=1)
        self.assertEqual(self.verify(timeout=300), (0, "each file is as it was made\n"))
        large = Network("torus", (16, 16), 8, 2, 1, "dor", 2_000_000)
        steps = [(node, (node + 1) % 16, (node + 2) % 16) for node in range(16)]
        self.forge(**{
            "configuration.toml": large.text(),
            "circle.txt": "".join(f"class 0 to node {c}: router {a}, +0.0 -> router {b}, +0.0\n" for a, b, c in steps),
            "traffic.csv": HEADER + "".join(f"{node},{(node + 7) % 16},0,1,0\n" for node in [*range(16)] * 100),
        })
        ran = self.called([sys.executable, "noc-tools", "certify", "--verify", "out"], timeout=300)
        told = "a run of traffic.csv gets stuck without one of its packets too, or with one that is a flit shorter"
        self.assertRefused(ran, told, "certify")

    def test_a_jam_that_is_none(self) -> None:
        """Each has digests that fit. The search makes packets of the first 500 cycles alone."""
        self.put(c=RING)
        files = self.certify("c", "--find", status=1)
        traffic, circle = files["traffic.csv"], files["circle.txt"]
        lines = circle.splitlines(keepends=True)
        less = "a run of traffic.csv gets stuck without one of its packets too, or with one that is a flit shorter"
        for name, content, told in (
            ("traffic.csv", traffic.rpartition("\n0")[0] + "\n", "a run of traffic.csv does not get stuck"),
            ("traffic.csv", traffic + "0,1,0,1,0\n", less),
            ("traffic.csv", traffic.replace(",1,0\n", ",2,0\n", 1), less),
            ("traffic.csv", traffic + "0,1,0,1,500\n", "traffic.csv has a packet that is due in cycle 500 or later"),
            ("traffic.csv", HEADER + "0,1,0,1,0\n" * 2001, "traffic.csv has 2001 packets: of more than 2000"),
            ("traffic.csv", traffic + f"0,1,0,{'9' * 5000},0\n", "traffic.csv has a packet that is not five numbers"),
            ("circle.txt", "".join(lines[1:]), "the lines of circle.txt close no circle"),
            ("circle.txt", circle + circle, "the lines of circle.txt close no circle"),
            ("circle.txt", "forged\n", "the lines of circle.txt close no circle"),
            ("circle.txt", circle.replace("class 0", "class 7", 1), "circle.txt has a line that is no dependency"),
            ("circle.txt", re.sub("to node .", "to node 1", circle), "circle.txt has a line that is no dependency"),
        ):
            with self.subTest(name=name, told=told):
                self.forge(**{name: content})
                self.assertRefused(self.tool("certify", "--verify", "out"), told, "certify")
                self.forge(**{"traffic.csv": traffic, "circle.txt": circle})

    def test_another_program(self) -> None:
        """The same program with a byte more at its end."""
        self.certify(DATELINE)
        other = self.folder / "other"
        other.write_bytes(PROGRAM.read_bytes() + b"\0")
        other.chmod(0o755)
        found = self.verify(env=self.environment | {"NOC": str(other)})
        self.assertEqual(found, (1, "program.txt differs: this program is another one than that of the folder\n"))

    def test_the_same_inputs_make_the_same_bytes(self) -> None:
        """Wherever they are, and whatever their names: no path is told, nor when it was."""
        self.put(c=RING, **{"renamed": RING})
        (self.folder / "deep").mkdir(exist_ok=True)
        self.addCleanup(shutil.rmtree, self.folder / "deep")
        for words, status in ((DATELINE,), 0), (("c", "--find"), 1):
            with self.subTest(words=words):
                one = self.certify(*words, status=status)
                name = words[0].replace("c", "renamed") if status else words[0]
                absolute = self.folder / name, *words[1:]
                other = self.certify(*absolute, folder=self.folder / "deep/other", status=status)
                self.assertEqual(one, other)
                self.assertNotIn(str(self.folder), "".join(one.values()))
                shutil.rmtree(self.out)
                shutil.rmtree(self.folder / "deep/other")


class Pages(CertificateTest):
    def test_it_says_which_network_and_why(self) -> None:
        """Three by three routers have 12 links, so 24 directions with two channels each: 48, and 24 of them escape."""
        page = self.certify(ADAPTIVE)["certificate.md"]
        self.assertTrue(page.startswith("# Certificate of deadlock freedom: mesh of 3 by 3, adaptive\n"))
        self.assertIn("| shape | mesh of 3 by 3, 9 routers |\n| routes | the rule `adaptive` |", page)
        self.assertIn("Of the 48 link channels 24 have a rank and are escape channels", page)
        self.assertIn("(Duato)", page)
        self.assertNotIn("Dally", page)

    def test_all_channels_ranked_is_the_other_condition(self) -> None:
        page = self.certify(DATELINE)["certificate.md"]
        self.assertIn("Each of the 16 link channels has a rank", page)
        self.assertNotIn("Duato", page)

    def test_it_stands_alone(self) -> None:
        self.put(c=RING)
        cases: list[tuple[str, str, set[str]]] = [
            (DATELINE, "certificate.html", set()), ("c --find", "counterexample.html", {"replay.html"}),
        ]
        for words, name, files in cases:
            page = self.certify(*words.split(), status=len(files))[name]
            self.assertEqual(set(re.findall(r'(?:src|href)="([^"]*)"', page)), files)
            self.assertEqual(set(re.findall(r"\w+://[^\"' ]+", page)), {"http://www.w3.org/2000/svg"})
            self.assertIn((self.out / "graph.svg").read_text(), page)
            shutil.rmtree(self.out)

    def test_what_it_names_is_proved(self) -> None:
        """Each contract and each crate stands on the page of what is proved, in the crate that is named with it."""
        proved = (TOP / "docs/PROVED.md").read_text()
        sections = dict(re.findall(r"^### `(\w+)`\n(.*?)(?=^##)", proved, re.MULTILINE | re.DOTALL))
        for item in claims.CONTRACTS:
            names = re.findall(r"`([\w:]+)`", item.split(":", 1)[0] if "::" not in item else item.split(": ")[0])
            *contracts, crate = names
            self.assertTrue(contracts)
            for contract in contracts:
                self.assertIn(f"`{contract}`", sections[crate])

    def test_blocks_in_both_forms(self) -> None:
        blocks = [
            heading("A"), paragraph("see `x<y`"), listed(["one", "two"]), tabled(["k", "v"], [["a", "`b`"]]),
            verbatim(["$ a < b"]), linked("there", "file"),
        ]
        text = markdown("T & U", blocks)
        self.assertEqual(text, (
            "# T & U\n\n## A\n\nsee `x<y`\n\n- one\n- two\n\n| k | v |\n| --- | --- |\n| a | `b` |\n\n"
            "```\n$ a < b\n```\n\n[there](file)\n"
        ))
        page = html("T & U", blocks)
        for part in (
            "<h1>T &amp; U</h1>", "<h2>A</h2>", "<p>see <code>x&lt;y</code></p>",
            "<ul>\n<li>one</li>\n<li>two</li>\n</ul>",
            "<tr><th>k</th><th>v</th></tr>\n<tr><td>a</td><td><code>b</code></td></tr>", "<pre>$ a &lt; b</pre>",
            '<p><a href="file">there</a></p>',
        ):
            self.assertIn(part, page)


def graph_of(network: Network) -> dependencies.Graph:
    """The graph of a network by the ranks that are found."""
    relation = of_network(Channels(network))
    return dependencies.Graph(relation, ranks_found(relation))


def titles(picture: str) -> list[str]:
    """What each arrow or cell of a picture says."""
    found = ET.fromstring(picture).iter(f"{SVG}g")
    return [group.find(f"{SVG}title").text for group in found if group.get("class") == "dependency"]


def sampled(path: str) -> list[tuple[float, ...]]:
    """Points along the lines and curves of a path, which is of 'M', 'C' and 'L' with a pair after each or three."""
    places = [tuple(map(float, pair.split(","))) for pair in re.sub("[MCL]", " ", path).split()]
    found, rest = [places[0]], places[1:]
    for kind in re.findall("[CL]", path):
        ends, rest = ([found[-1], *rest[:3]], rest[3:]) if kind == "C" else ([found[-1], rest[0]], rest[1:])
        degree = len(ends) - 1
        for step in range(1, 101):
            t = step / 100
            parts = [math.comb(degree, n) * (1 - t) ** (degree - n) * t ** n for n in range(degree + 1)]
            found.append(tuple(sum(part * end[axis] for part, end in zip(parts, ends)) for axis in (0, 1)))
    return found


def boxes_in(picture: str) -> dict[str, tuple[float, float, float, float]]:
    """The boxes of a picture by their names: the edges to the left, above, to the right and below."""
    found = {}
    for group in ET.fromstring(picture).iter(f"{SVG}g"):
        drawn, name = group.find(f"{SVG}rect"), group.find(f"{SVG}text")
        if drawn is not None and name is not None:
            x, y, width, height = (float(drawn.get(key)) for key in ("x", "y", "width", "height"))
            found[name.text] = x, y, x + width, y + height
    return found


def arrows_in(picture: str) -> Iterator[tuple[str, str, list[tuple[float, ...]]]]:
    """The arrows of a picture: the names of the boxes that each says it joins, and points along it."""
    for group in ET.fromstring(picture).iter(f"{SVG}g"):
        if group.get("class") == "dependency":
            one, other = group.find(f"{SVG}title").text.split(" -> ")
            yield one, other, sampled(group.find(f"{SVG}path").get("d"))


def is_in(point: tuple[float, ...], box: tuple[float, float, float, float]) -> bool:
    """Whether a point is in a box."""
    return box[0] < point[0] < box[2] and box[1] < point[1] < box[3]


class Pictures(unittest.TestCase):
    def test_a_dateline(self) -> None:
        """Up the ring four steps follow one another, from channel 0 to channel 1 behind router 3; down it packets go
        one hop, and so none."""
        picture = graph_of(Network("torus", (4,), 2, 1, 1, "dateline", 60)).picture()
        self.assertEqual(titles(picture), [
            "2 +0.0 -> 3 +0.0", "3 +0.0 -> 0 +0.1", "0 +0.1 -> 1 +0.1", "1 +0.1 -> 2 +0.1",
        ])

    def test_channels_that_are_alike_share_a_box(self) -> None:
        """A line of three routers with two channels: two steps, each from both channels to both."""
        graph = graph_of(Network("mesh", (3,), 2, 1, 1, "dor", 60))
        self.assertEqual(graph.dependencies, 8)
        self.assertEqual(titles(graph.picture()), ["0 +0.0,1 -> 1 +0.0,1", "2 -0.0,1 -> 1 -0.0,1"])

    def test_the_arrows_are_all_dependencies(self) -> None:
        """An arrow stands for as many as its two boxes have channels, multiplied; some channels of one link and rank
        lead on to others, and some do not."""
        graph = graph_of(Network("torus", (4, 4), 2, 1, 1, "dateline", 60))
        ends = [[1 + name.count(",") for name in title.split(" -> ")] for title in titles(graph.picture())]
        self.assertEqual(sum(one * other for one, other in ends), graph.dependencies)

    def test_each_arrow_leads_to_the_right(self) -> None:
        for network in (Network("mesh", (4, 4), 2, 2, 1, "dor", 60), Network("mesh", (3, 3), 2, 2, 1, "adaptive", 60)):
            picture = graph_of(network).picture()
            paths = re.findall(r'<path d="M([\d.]+),\S+ C\S+ \S+ ([\d.]+),', picture)
            self.assertEqual(len(paths), len(titles(picture)))
            self.assertTrue(all(float(start) < float(end) for start, end in paths))

    def test_no_arrow_runs_behind_a_box(self) -> None:
        """Points along each arrow lie in no box, and its ends at the middles of the sides of its two, whatever it
        passes on its way."""
        for network in (
            Network("mesh", (3, 3), 1, 2, 1, "dor", 60), Network("mesh", (5, 4), 1, 2, 1, "dor", 60),
            Network("mesh", (4, 3), 2, 2, 1, "west-first", 60),
            Network("torus", (4, 3), 2, 2, 1, "dateline", 60),
            Network("mesh", (3, 2, 3), 1, 2, 1, "dor", 60),
        ):
            picture = graph_of(network).picture()
            boxes = boxes_in(picture)
            for one, other, points in arrows_in(picture):
                with self.subTest(network=network, arrow=(one, other)):
                    behind = [box for box in boxes.values() if any(is_in(at, box) for at in points)]
                    (_, above, right, below), (left, top, _, bottom) = boxes[one], boxes[other]
                    self.assertEqual(behind, [])
                    self.assertEqual(points[0], (right, (above + below) / 2))
                    self.assertEqual(points[-1], (left - dependencies.TIP, (top + bottom) / 2))

    def test_ranks_that_do_not_rise_are_refused(self) -> None:
        relation = of_network(Channels(LINE))
        with self.assertRaisesRegex(Refused, "the ranks do not rise along the channel dependency graph"):
            dependencies.Graph(relation, dict.fromkeys(relation.channels.links(), 1))

    def test_no_two_boxes_lie_on_one_another(self) -> None:
        picture = graph_of(Network("mesh", (4, 4), 2, 2, 1, "dor", 60)).picture()
        places = re.findall(r'<rect x="([\d.]+)" y="([\d.]+)" width="84"', picture)
        self.assertEqual((len(places), len(set(places))), (48, 48))

    def test_a_large_graph_is_a_square(self) -> None:
        """All eight dependencies of a line of three routers lead from rank 1 to rank 2."""
        graph = graph_of(Network("mesh", (3,), 2, 1, 1, "dor", 60))
        with patch.object(dependencies, "MOST_BOXES", 0):
            picture = graph.picture()
        self.assertEqual(titles(picture), ["rank 1 to rank 2: 8 dependencies"])

    def test_a_circle(self) -> None:
        """Each arrow says whose packets go along it."""
        relation = of_network(Channels(RING))
        with self.assertRaises(NoRanks) as caught:
            ranks_found(relation)
        picture = dependencies.circle_picture(relation.channels, caught.exception.circle)
        words = [text.text for text in ET.fromstring(picture).iter(f"{SVG}text")]
        for node in range(4):
            self.assertIn(f"class 0 to node {node}", words)
            self.assertIn(f"{node} +0.0", words)
