"""./test and its parts, in a copy whose scripts do nothing but write down that they were called."""
import os
import re
import shutil
import subprocess
import tempfile
import unittest
from pathlib import Path

from support import TOP

WITH_PROGRAM = ["run_cases", "run_tour", "run_tests", "run_process", "hostile", "hostile_tools"]
QUICK = [*WITH_PROGRAM, "mypy", "flake8", "run_build", "run_names"]
# The scripts of the parts, by their names.
SCRIPTS = {path.stem: path.relative_to(TOP) for path in (TOP / "tests").rglob("*.py")
           if path.stem in {*WITH_PROGRAM, "run_build", "run_names", "run_avx2", "run_growth"}}
CALLED = """import sys
open("journal", "a").write("{name}\\n")
print("{passed} passed, {failed} failed")
sys.exit({failed})
"""


class Parts(unittest.TestCase):
    def setUp(self) -> None:
        room = tempfile.TemporaryDirectory(prefix="noc-parts-")
        self.addCleanup(room.cleanup)
        self.top = Path(room.name)
        (self.top / "crates/noc/out").mkdir(parents=True)
        self.write("test", (TOP / "test").read_text())
        self.write("noc", "#!/bin/sh\necho the sources\n")
        for name in SCRIPTS:
            self.script(name, 2, 0)
        makes = "touch crates/noc/out/noc; chmod +x crates/noc/out/noc; echo 30 passed, 0 failed"
        for name, does in ("rt", makes), ("mypy", ":"), ("flake8", ":"):
            self.write(f"bin/{name}", f"#!/bin/sh\n[ \"$1\" != version ] || exit 0\necho {name} >> journal\n{does}\n")

    def write(self, name: str, text: str) -> None:
        path = self.top / name
        path.parent.mkdir(exist_ok=True)
        path.write_text(text)
        path.chmod(0o755)

    def script(self, name: str, passed: int, failed: int) -> None:
        path = self.top / SCRIPTS[name]
        path.parent.mkdir(parents=True, exist_ok=True)
        path.write_text(CALLED.format(name=name, passed=passed, failed=failed))

    def build(self) -> None:
        self.write("crates/noc/out/noc", "")
        self.write("crates/noc/out/noc.sources", "the sources\n")

    def run_test(self, *parts: str) -> tuple[int, str, list[str]]:
        """The status, the last line, and what was called."""
        journal = self.top / "journal"
        journal.write_text("")
        path = f"{self.top}/bin:{os.environ['PATH']}"
        ran = subprocess.run([self.top / "test", *parts], env={**os.environ, "PATH": path, "RT": "rt"},
                             capture_output=True, text=True)
        self.said = ran.stdout
        return ran.returncode, ran.stdout.splitlines()[-1], journal.read_text().split()

    def test_quick_is_all_that_needs_no_proof(self) -> None:
        self.build()
        status, last, called = self.run_test("quick")
        self.assertEqual((status, last, sorted(called)), (0, "18 passed, 0 failed", sorted(QUICK)))
        self.assertNotIn("not of the sources", self.said)

    def test_parts_run_in_their_order_and_once(self) -> None:
        self.build()
        twice = self.run_test("names", "growth", "names")
        self.assertEqual(twice, (0, "4 passed, 0 failed", ["run_growth", "run_names"]))

    def test_without_a_part_all_run(self) -> None:
        status, _, called = self.run_test()
        without_avx2 = [it for it in called if it != "run_avx2"]
        self.assertEqual(without_avx2, ["rt", *QUICK[:8], "run_growth", *QUICK[8:]])
        kept = self.top / "crates/noc/out/noc.sources"
        self.assertEqual(kept.read_text(), "the sources\n")
        self.assertEqual(kept.stat().st_mtime_ns, kept.with_name("noc").stat().st_mtime_ns)
        # The stand-in makes no program for AVX2, which is a failure where the processor has it.
        self.assertEqual(status, 1 if "run_avx2" in called else 0)

    def test_the_gate_says_what_it_took(self) -> None:
        """Two processes of a command of the kit work for two seconds each, and it waits for one more."""
        busy = "python3 -c 'import time\nwhile time.process_time() < 2.2: pass'"
        makes = f"{busy} & {busy} & wait; sleep 1; touch crates/noc/out/noc; chmod +x crates/noc/out/noc"
        self.write("bin/rt", f"#!/bin/sh\n[ \"$1\" != version ] || exit 0\n{makes}\necho 30 passed, 0 failed\n")
        self.run_test("gate")
        line = r"^test: the gate took (\d+) min (\d\d) s by the clock, and 0 min (\d\d) s of processor time$"
        minutes, seconds, processor = map(int, re.search(line, self.said, re.MULTILINE).groups())
        self.assertLessEqual(3, 60 * minutes + seconds)
        self.assertIn(processor, range(3, 8))

    def test_what_fails_counts(self) -> None:
        self.build()
        self.script("run_cases", 3, 1)
        self.assertEqual(self.run_test("cases", "names")[:2], (1, "5 passed, 1 failed"))
        (self.top / SCRIPTS["run_cases"]).write_text("print('nothing')\n")
        self.assertEqual(self.run_test("cases")[:2], (1, "0 passed, 1 failed"))
        self.assertEqual(self.run_test("quick")[:2], (1, "16 passed, 1 failed"))

    def test_a_word_that_names_no_part_is_refused(self) -> None:
        self.build()
        self.assertEqual(self.run_test("cases", "nonsense"), (1, "0 passed, 1 failed", []))
        self.assertIn("there is no part 'nonsense'", self.said)
        self.assertEqual(self.run_test("quick", "cases"), (1, "0 passed, 1 failed", []))

    def test_a_program_that_is_missing_or_old_is_told(self) -> None:
        self.assertEqual(self.run_test("cases", "tour"), (1, "0 passed, 2 failed", []))
        self.build()
        self.write("crates/noc/out/noc.sources", "other sources\n")
        self.assertEqual(self.run_test("cases")[:2], (0, "2 passed, 0 failed"))
        self.assertIn("crates/noc/out/noc is not of the sources as they stand", self.said)

    def ci(self, user: int) -> tuple[list[str], list[str]]:
        """What .ci/run says, where a user has no program that tests want, and apt-get has all of them but one."""
        self.write(".ci/run", (TOP / ".ci/run").read_text())
        self.write("test", "#!/bin/sh\necho 2 passed, 0 failed\n")
        shutil.rmtree(self.top / "bin")
        self.write("bin/id", f"#!/bin/sh\necho {user}\n")
        installs = 'case "$*" in update* | *mypy) exit 1;; esac; for name; do :; done; ln -s id "bin/$name"'
        self.write("bin/apt-get", f'#!/bin/sh\necho "$1" >> journal; {installs}\n')
        for name in ("bash", "sh", "dirname", "readlink", "timeout", "ln"):
            (self.top / "bin" / name).symlink_to(shutil.which(name))
        (self.top / "journal").write_text("")
        alone = {"PATH": str(self.top / "bin")}
        ran = subprocess.run([self.top / ".ci/run"], env=alone, capture_output=True, text=True)
        return ran.stdout.splitlines(), (self.top / "journal").read_text().split()

    def test_ci_installs_what_it_can(self) -> None:
        """One that is refused keeps none of the others; and only root may install. What is installed here is called as
        its package, so a program that has another name is still missing. There is no Python that could tell of
        libraries."""
        listed = re.search(r"^programs=\(([^)]*)\)", (TOP / ".ci/run").read_text(), re.M)[1].split()
        packages = [name.partition("=")[2] or name for name in listed]
        missing = [package for name, package in zip(listed, packages) if "=" in name or name == "mypy"]
        last, told = "2 passed, 0 failed", "ci: not installed:"
        self.assertEqual(self.ci(0), ([f"{told} {' '.join(missing)}", last], ["update", *["install"] * len(listed)]))
        self.assertEqual(self.ci(1000), ([f"{told} {' '.join(packages)}", last], []))
