#!/usr/bin/env python3
"""Runs the tests that unittest knows with a program: all of tests/*/test_*.py, or those of these names.

    run_tests.py PROGRAM [-k PATTERN].. [NAME..]

Where no name is given, the modules run side by side, each in a process of its own. What differs is shown for each test
that fails, and why each one is left out that is. The last line is 'N passed, M failed', and the status is 0 where all
passed, else 1.
"""
import argparse
import os
import re
import subprocess
import sys
import unittest
from collections.abc import Iterator, Sequence
from concurrent.futures import ThreadPoolExecutor
from pathlib import Path

TOP = Path(__file__).resolve().parent.parent
MODULES = sorted(TOP.glob("tests/**/test_*.py"))
COUNTS = re.compile(r"(\d+) passed, (\d+) failed\n\Z")


def loaded(loader: unittest.TestLoader, names: Sequence[str]) -> Iterator[unittest.TestSuite]:
    """The tests of these names; of a module that is left out as a whole a line says why."""
    for name in names:
        try:
            yield loader.loadTestsFromName(name)
        except unittest.SkipTest as reason:
            print(f"left out: {name}: {reason}")


def run_names(names: Sequence[str], patterns: Sequence[str]) -> tuple[int, int]:
    """Runs tests in this process, and returns how many passed and how many failed."""
    loader = unittest.TestLoader()
    loader.testNamePatterns = [f"*{word}*" for word in patterns] or None
    suite = unittest.TestSuite(loaded(loader, names))
    result = unittest.TextTestRunner(stream=sys.stdout, verbosity=0).run(suite)
    for test, reason in result.skipped:
        print(f"left out: {test.id()}: {reason}")
    # (a part of a test counts as the test, and what is set up for a class is no test that ran)
    failed = {getattr(test, "test_case", test) for test, _ in result.failures + result.errors}
    ran = result.testsRun - len(result.skipped)
    return ran - sum(isinstance(test, unittest.TestCase) for test in failed), len(failed)


def run_module(program: Path, module: str, patterns: Sequence[str]) -> str:
    """What a process says that runs one module."""
    words = [sys.executable, __file__, str(program), module, *(f"-k{word}" for word in patterns)]
    return subprocess.run(words, stdin=subprocess.DEVNULL, stdout=subprocess.PIPE, stderr=subprocess.STDOUT,
                          text=True).stdout


def run_all(program: Path, patterns: Sequence[str]) -> tuple[int, int]:
    """Runs all modules, the largest first, and shows what is said where a test failed or was left out."""
    modules = sorted(MODULES, key=lambda path: path.stat().st_size, reverse=True)
    passed = failed = 0
    with ThreadPoolExecutor(len(os.sched_getaffinity(0))) as pool:
        for said in pool.map(lambda path: run_module(program, path.stem, patterns), modules):
            counts = COUNTS.search(said)
            good, bad = map(int, counts.groups()) if counts else (0, 1)
            shown = said if bad else "".join(re.findall(r"^left out.*\n", said, re.MULTILINE))
            print(shown, end="", flush=True)
            passed, failed = passed + good, failed + bad
    return passed, failed


def main() -> int:
    parser = argparse.ArgumentParser(description=__doc__, formatter_class=argparse.RawDescriptionHelpFormatter)
    parser.add_argument("program", type=Path)
    parser.add_argument("names", metavar="NAME", nargs="*", help="a module, or one of its tests: test_why.Lives")
    parser.add_argument("-k", metavar="PATTERN", action="append", default=[], help="tests with this in their names")
    options = parser.parse_args()
    os.environ["NOC"] = str(options.program.resolve())
    # (what a test imports stands in the folder of any kind of tests)
    sys.path[:0] = [str(TOP), str(TOP / "release"), *map(str, dict.fromkeys(path.parent for path in MODULES))]
    if options.names:
        passed, failed = run_names(options.names, options.k)
    else:
        passed, failed = run_all(options.program, options.k)
    print(f"{passed} passed, {failed} failed")
    return 0 if passed and not failed else 1


if __name__ == "__main__":
    sys.exit(main())
