#!/usr/bin/env python3
"""Runs a program on every end-to-end case of a folder.

    run_cases.py PROGRAM FOLDER [--seconds S] [--jobs N]

A case is a folder with the files args (one word of the command line a line), expected_stdout, expected_stderr and
expected_status, with stdin where something stands there, and with the files that the words name. The program runs
inside it. Its standard output and its status must be the expected ones, and so must its standard error, except where
the status 2 is expected: the text about wrong words isn't fixed. Each case that fails is shown, and the last line is
'N passed, M failed'. The exit status is 0 where there are cases and all passed, else 1.
"""
import argparse
import os
import subprocess
import sys
from concurrent.futures import ThreadPoolExecutor
from pathlib import Path

WRONG_WORDS = 2


def first_difference(got: bytes, expected: bytes) -> str:
    """Says where two texts differ first."""
    got_lines, expected_lines = got.split(b"\n"), expected.split(b"\n")
    for number, (has, wants) in enumerate(zip(got_lines, expected_lines), 1):
        if has != wants:
            return f"line {number} is {has[:200]!r}, expected {wants[:200]!r}"
    return f"{len(got_lines)} lines, expected {len(expected_lines)}"


def complaints(program: Path, case: Path, seconds: float) -> list[str]:
    """Runs one case and returns a line for each way in which it fails."""
    words = (case / "args").read_text().splitlines()
    expected_status = int((case / "expected_status").read_text())
    stdin = case / "stdin"
    text = stdin.read_bytes() if stdin.exists() else b""
    try:
        ran = subprocess.run([program, *words], input=text, capture_output=True, cwd=case, timeout=seconds)
    except subprocess.TimeoutExpired:
        return [f"no end within {seconds:g} s"]
    except OSError as error:
        return [f"it doesn't start: {error.strerror}"]
    found = []
    if ran.returncode != expected_status:
        found.append(f"the status is {ran.returncode}, expected {expected_status}")
    texts = [("standard output", ran.stdout, "expected_stdout")]
    if expected_status != WRONG_WORDS:
        texts.append(("standard error", ran.stderr, "expected_stderr"))
    for name, got, file in texts:
        expected = (case / file).read_bytes()
        if got != expected:
            found.append(f"{name} differs: {first_difference(got, expected)}")
    return found


def run_all(program: Path, folder: Path, seconds: float = 300, jobs: int | None = None) -> tuple[int, int]:
    """Runs a program on all cases, shows those that fail, and returns how many passed and how many failed."""
    cases = sorted(it.parent for it in folder.resolve().glob("*/expected_status"))
    with ThreadPoolExecutor(jobs or os.cpu_count() or 1) as pool:
        results = list(pool.map(lambda case: complaints(program.resolve(), case, seconds), cases))
    for case, found in zip(cases, results):
        if found:
            print(f"{case.name}:", *found, sep="\n  ")
    failed = sum(map(bool, results))
    return len(cases) - failed, failed


def main() -> int:
    parser = argparse.ArgumentParser(description="Runs a program on every end-to-end case of a folder.")
    parser.add_argument("program", type=Path)
    parser.add_argument("folder", type=Path)
    parser.add_argument("--seconds", type=float, default=300, help="time for one case")
    parser.add_argument("--jobs", type=int, default=os.cpu_count() or 1, help="cases side by side")
    options = parser.parse_args()
    passed, failed = run_all(options.program, options.folder, options.seconds, options.jobs)
    print(f"{passed} passed, {failed} failed")
    return 0 if passed and not failed else 1


if __name__ == "__main__":
    sys.exit(main())
