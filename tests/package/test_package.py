"""The package as a library: what a notebook finds, what it refuses, and which program it calls."""
import os
import shutil
import sys
import unittest
from collections.abc import Callable
from dataclasses import replace

import noc_tools
from noc_tools import program, results, study

from support import LINE, PROGRAM, TOP, FolderTest

TINY = replace(LINE, cycles=4)


class Names(unittest.TestCase):
    def test_scripts_of_1_0_0_find_what_makes_a_run_of_a_study(self) -> None:
        self.assertIs(results.line_of, study.line_of)


class Library(FolderTest):
    def setUp(self) -> None:
        super().setUp()
        self.files = self.folder / "c", self.folder / "t"

    def test_a_run_has_packets_and_counts(self) -> None:
        """Packet 1 takes five cycles. Packet 0 is behind it: it is granted its channel in cycle 6, moves at router 1 in
        7, and leaves router 2 in 10. Packet 2 is out in 17, as its life says by hand in test_why."""
        run = noc_tools.run(*self.files)
        self.assertEqual((run.status, [packet.out for packet in run.packets]), (0, [10, 5, 17]))
        self.assertEqual(run.latencies, [10, 5, 17])

    def test_files_and_values_are_the_same(self) -> None:
        """A network, packets or a demand in the place of their files."""
        run = noc_tools.run(*self.files)
        again = noc_tools.run(LINE, run.packets)
        self.assertEqual((again.packets, again.counts), (run.packets, run.counts))
        self.assertEqual(list(again.trace()), list(noc_tools.trace(*self.files)))
        self.assertEqual(noc_tools.latencies(LINE, self.files[1]), run.latencies)
        self.assertEqual(noc_tools.Network.read(self.files[0]), LINE)
        asked = noc_tools.run(LINE, noc_tools.Demand("uniform", 0.5, 2, seed=3))
        self.assertEqual([packet.row for packet in asked.packets], self.made("uniform", 0.5, 2, "--seed", 3))

    def test_a_trace_is_chosen(self) -> None:
        found = noc_tools.trace(*self.files, router=1, packet=0, first=4, last=5)
        self.assertEqual([(each.cycle, each.channel, each.verdict) for each in found], [
            (4, "-0.0", "NoIdleChannel"), (5, "-0.0", "NoIdleChannel"),
        ])
        found = noc_tools.trace(*self.files, packet=1, verdicts=("Routed", "Moved"))
        self.assertEqual([(each.cycle, each.router, each.verdict) for each in found], [
            (0, 1, "Routed"), (2, 1, "Moved"), (3, 2, "Routed"), (5, 2, "Moved"),
        ])

    def test_a_run_that_is_cut_or_stuck(self) -> None:
        """No packet is out after four cycles, and a run that drains has them all. The ring waits for itself."""
        self.assertEqual(noc_tools.latencies(TINY, self.files[1]), [])
        self.assertEqual(len(noc_tools.latencies(TINY, self.files[1], drain=True)), 3)
        ring = noc_tools.run(TOP / "examples/ring.toml", TOP / "examples/ring.csv")
        self.assertEqual((ring.status, ring.latencies, ring.counts["left"]), (5, [], 4))
        self.assertIsNone(ring.counts["latency_max"])

    def test_what_is_refused_is_an_error(self) -> None:
        """With the line and the status of noc where noc refuses."""
        cases: list[tuple[Callable[[], object], str, int]] = [
            (lambda: noc_tools.run(replace(LINE, rule="odd"), self.files[1]), "fault config 8 BadValue key rule", 3),
            (lambda: noc_tools.run(replace(LINE, radix=(2,)), self.files[1]), "fault network 2 BadNode row 0", 3),
            (lambda: list(noc_tools.trace(LINE, self.files[1], router=3)), "fault option 2 BadRouter", 3),
            (lambda: noc_tools.run("nothing", "t"), "nothing: No such file or directory", 1),
            (lambda: noc_tools.Demand("wave", 0.1, 1).traffic(LINE), "there is no pattern 'wave'", 1),
        ]
        for call, reason, status in cases:
            with self.subTest(reason=reason), self.assertRaises(noc_tools.Refused) as caught:
                call()
            self.assertIn(reason, str(caught.exception))
            self.assertEqual(caught.exception.status, status)


class Program(FolderTest):
    def which(self, **environment: str) -> str:
        """The program that the package calls in the folder."""
        script = "from noc_tools import program; print(program.program())"
        ran = self.called([sys.executable, "-c", script], env={**self.environment, **environment})
        return ran.stdout.strip() or ran.stderr.splitlines()[-1]

    def test_where_it_is_found(self) -> None:
        """$NOC comes before the file beside the package, that before the one that pip put there with --target, and that
        before PATH."""
        other, target = self.folder / "other", self.folder / "bin/noc"
        other.mkdir()
        target.parent.mkdir()
        for copy in (other / "noc", other / "mine", target):
            shutil.copy(PROGRAM, copy)
        path = f"{other}:{os.environ['PATH']}"
        beside = self.folder / "noc"
        self.assertEqual(self.which(NOC=str(other / "mine"), PATH=path), str(other / "mine"))
        self.assertEqual(self.which(PATH=path), str(beside))
        beside.rename(self.folder / "gone")
        self.assertEqual(self.which(PATH=path), str(target))
        target.unlink()
        self.assertEqual(self.which(PATH=path), str(other / "noc"))
        self.assertIn("there is no noc: it is looked for in $NOC", self.which(PATH="/nowhere"))
        (self.folder / "gone").rename(beside)

    def test_a_script_names_what_it_runs(self) -> None:
        """One that does not is called itself, and has no digest."""
        names = f'#!/bin/sh\n[ "$1" = --which ] && echo {PROGRAM} && exit\nexec {PROGRAM} "$@"\n'
        self.put(names=names, silent=f'#!/bin/sh\nexec {PROGRAM} "$@"\n', broken="#!/bin/sh\nexit 3\n")
        for name in ("names", "silent", "broken"):
            (self.folder / name).chmod(0o755)
        self.assertEqual(self.which(NOC=str(self.folder / "names")), str(PROGRAM))
        self.assertEqual(self.which(NOC=str(self.folder / "silent")), str(self.folder / "silent"))
        self.assertIn("broken runs no program", self.which(NOC=str(self.folder / "broken")))
        self.assertEqual(self.which(NOC="/nowhere/noc").split(": ", 1)[1], "/nowhere/noc: No such file or directory")

    def test_nothing_is_built(self) -> None:
        """A script that stands for ./noc writes down all that it is called with. The program is not there, or not of
        the sources as they stand, or has no file that says so; and then all is well. No call has it run or build."""
        built, log = self.folder / "built", self.folder / "log"
        self.put(script=f'#!/bin/sh\necho "$1" >> {log}\ncase $1 in --which) echo {built} ;; --sources) echo new ;; *)'
                        f' exit 1 ;; esac\n')
        script = self.folder / "script"
        script.chmod(0o755)
        told = f"call {script} once, which proves and builds it in some half an hour, or set NOC to a program"
        missing = f"no program is built, there is no {built}: {told}"
        self.assertEqual(self.which(NOC=str(script)).split(": ", 1)[1], missing)
        ran = self.called([sys.executable, "noc-tools", "load", "c", 1, "10%"], env=self.environment | {"NOC": script})
        self.assertRefused(ran, missing, "load")
        self.put(built="the program")
        stale = f"{built} is not of the sources as they stand: {told}"
        self.assertEqual(self.which(NOC=str(script)).split(": ", 1)[1], stale)
        for sources, time, found in ("old\n", 5, stale), ("new\n", 6, stale), ("new\n", 5, str(built)):
            self.put(**{"built.sources": sources})
            os.utime(built, ns=(5, 5))
            os.utime(self.folder / "built.sources", ns=(time, time))
            self.assertIn(found, self.which(NOC=str(script)))
        self.assertEqual(set(log.read_text().split()), {"--which", "--sources"})

    def test_a_digest_is_of_the_file(self) -> None:
        """The first digits of the SHA-256 of nothing."""
        self.put(nothing="")
        self.assertEqual(program.digest(self.folder / "nothing"), "e3b0c44298fc1c14")
