"""What the repository has for a forge and for git: the workflow, the hooks, and what CI
installs."""
import os
import re
import shutil
import subprocess
import tempfile
import unittest
from importlib.util import find_spec
from pathlib import Path
from typing import Any

from support import PROGRAM, TOP

WORKFLOW, HOOKS = TOP / ".github/workflows/test.yml", TOP / ".pre-commit-config.yaml"
PRE_COMMIT, PYTEST = map(shutil.which, ("pre-commit", "pytest"))
# The parts of ./test that need neither the kit nor a built program.
WITHOUT_KIT = {"python", "build", "names"}
# A constant of a test that is the path of a program, or of several.
LOOKS_FOR = r"^[A-Z][A-Z0-9_, ]* = .*shutil\.which[^)]*\)"
# Programs that come with another one, or stand in its place.
OTHER_NAMES = {"vvp", "chromium-browser", "google-chrome"}


def read(path: Path) -> Any:
    """What a file in YAML says."""
    from yaml import safe_load
    return safe_load(path.read_text())


@unittest.skipUnless(find_spec("yaml"), "there is no PyYAML here")
class Forge(unittest.TestCase):
    def steps(self, job: str) -> list[list[str]]:
        """The commands of a job."""
        steps = read(WORKFLOW)["jobs"][job]["steps"]
        return [step["run"].split() for step in steps if "run" in step]

    def test_all_tests_run_where_the_kit_is(self) -> None:
        self.assertEqual(self.steps("all"), [[".ci/run"]])
        self.assertTrue((TOP / ".ci/run").stat().st_mode & 0o100)

    def test_some_tests_run_without_the_kit(self) -> None:
        """They are parts of ./test, of which none needs a program."""
        *_, words = self.steps("without-kit")
        self.assertEqual((words[0], set(words[1:])), ("./test", WITHOUT_KIT))
        parts = re.findall(r"^(?:parts=')?(\w+) +quick ", (TOP / "test").read_text(), re.M)
        self.assertLessEqual(WITHOUT_KIT, set(parts))

    def test_hooks_are_parts_of_the_test(self) -> None:
        hooks = [hook for repository in read(HOOKS)["repos"] for hook in repository["hooks"]]
        entries = [hook["entry"].split() for hook in hooks if hook["language"] == "system"]
        self.assertEqual({words[0] for words in entries}, {"./test"})
        self.assertLessEqual({word for words in entries for word in words[1:]}, WITHOUT_KIT)

    def test_a_subject_has_at_most_72_columns(self) -> None:
        """A hook of this language refuses a message in which its pattern is found."""
        hooks = read(HOOKS)["repos"][0]["hooks"]
        (hook,) = [hook for hook in hooks if hook["language"] == "pygrep"]
        for columns, is_found in (72, False), (73, True):
            message = f"{'x' * columns}\n\n{'y' * 99}\n"
            self.assertEqual(bool(re.search(hook["entry"], message, re.MULTILINE)), is_found)

    @unittest.skipUnless(PRE_COMMIT, "there is no pre-commit here")
    def test_pre_commit_takes_the_hooks(self) -> None:
        ran = subprocess.run([PRE_COMMIT, "validate-config", HOOKS], capture_output=True, text=True)
        self.assertEqual((ran.returncode, ran.stdout), (0, ""))


class Tools(unittest.TestCase):
    def test_ci_installs_what_tests_look_for(self) -> None:
        """Each program without which a test is left out."""
        listed = re.search(r"^programs=\(([^)]*)\)", (TOP / ".ci/run").read_text(), re.M)[1].split()
        looked_for = set()
        for path in TOP.glob("tests/*/test_*.py"):
            for line in re.findall(LOOKS_FOR, path.read_text(), re.M):
                looked_for |= set(re.findall(r'"([\w-]+)"', line))
        self.assertLess({"twine", "help2man", "pre-commit"}, looked_for)
        found = {each.partition("=")[0] for each in listed}
        self.assertEqual(looked_for - found - OTHER_NAMES, set())


@unittest.skipUnless(PYTEST, "there is no pytest here")
class ByPytest(unittest.TestCase):
    """The tests run by pytest too."""

    def lines(self, top: Path, *words: str, **environment: str) -> tuple[int, list[str]]:
        """How pytest ends, and the lines that it says."""
        given = {**os.environ, **environment}
        ran = subprocess.run([PYTEST, "-q", "-p", "no:cacheprovider", *words], cwd=top, env=given,
                             capture_output=True, text=True)
        return ran.returncode, (ran.stdout + ran.stderr).strip().splitlines()

    def ran(self, top: Path, **environment: str) -> tuple[int, str]:
        """How it ends on one module, and the last line that it says."""
        status, lines = self.lines(top, "tests/build/test_version.py", **environment)
        return status, lines[-1]

    def test_it_finds_each_module(self) -> None:
        """Here those beside the package, of which it would leave out a folder by itself."""
        status, lines = self.lines(TOP, "--collect-only", "--ignore=tests/package", NOC=str(PROGRAM))
        found = {line.partition("::")[0] for line in lines if "::" in line}
        there = {path.relative_to(TOP).as_posix() for path in TOP.glob("tests/*/test_*.py")
                 if path.parent.name != "package"}
        self.assertEqual((status, found), (0, there))

    def test_as_many_pass(self) -> None:
        status, last = self.ran(TOP, NOC=str(PROGRAM))
        module = unittest.defaultTestLoader.loadTestsFromName("test_version")
        self.assertEqual((status, last.split(" in ")[0]), (0, f"{module.countTestCases()} passed"))

    def test_nothing_is_built_for_it(self) -> None:
        """Where no program is built, it says so before the first test."""
        with tempfile.TemporaryDirectory(prefix="noc-test-") as name:
            for file in ("noc", "release/choose.sh", "tests/conftest.py",
                         "tests/build/test_version.py"):
                (Path(name) / file).parent.mkdir(parents=True, exist_ok=True)
                shutil.copy(TOP / file, Path(name) / file)
            status, last = self.ran(Path(name), NOC="")
        self.assertEqual(status, 1)
        self.assertRegex(last, "there is no program .*/crates/noc/out/noc(_avx2)?: call ./noc, ")
