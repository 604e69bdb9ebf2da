#!/usr/bin/env python3
"""Runs every command that the pages show, and compares what it prints with what the page says.

    run_tour.py PROGRAM PAGE.. [--blocks PAGE].. [--seconds S]

A fenced block whose first line begins with '$ ' is a transcript: a line '$ COMMAND', its further lines as '> MORE',
and then what the command prints, standard error included. A block opened with four backticks may hold lines of three.
The command must print exactly that. A status other than 0 must be shown by a command '$ echo $?' right after it.

Each section of a page has a folder of its own, with a copy of examples/ and of the package, and with PROGRAM as ./noc
and as crates/noc/out/noc_avx2. A command may write files there, and a section needs none but the commands of the
page's introduction, which are run before it. In a page behind --blocks each block has a folder of its own instead.
Each command that fails is shown with the difference, and the last line is 'N passed, M failed'. The exit status is 0
where there are commands and all passed, else 1.
"""
import argparse
import difflib
import re
import shutil
import subprocess
import sys
import tempfile
from collections.abc import Iterable
from dataclasses import dataclass
from pathlib import Path

TOP = Path(__file__).resolve().parents[2]
FENCED = re.compile(r"^(```+)[^`\n]*\n(.*?)^\1$", re.MULTILINE | re.DOTALL)
HEADING = re.compile(r"^##+ ", re.MULTILINE)
SHOWS_STATUS = "echo $?"


@dataclass
class Command:
    line: int
    words: str
    output: str = ""
    shows_status: bool = False


def transcript_of(first_line: int, body: Iterable[str]) -> list[Command]:
    """The commands of a block in their order, each with what it is said to print."""
    found = []
    for number, line in enumerate(body, first_line):
        if line.startswith("$ "):
            found.append(Command(number, line[2:]))
        elif line.startswith((">\n", "> ")) and not found[-1].output:
            found[-1].words += line[2:] or "\n"
        else:
            found[-1].output += line
    for command, following in zip(found, found[1:]):
        command.shows_status = following.words.strip() == SHOWS_STATUS
    return found


def sections_of(page: str, by_blocks: bool) -> list[list[Command]]:
    """The commands of the introduction, and of each section or block; a line in a block is no heading."""
    sections: list[list[Command]] = [[]]
    end = 0
    for block in FENCED.finditer(page):
        if by_blocks or HEADING.search(page, end, block.start()):
            sections.append([])
        end = block.end()
        body = block[2].splitlines(keepends=True)
        if body and body[0].startswith("$ "):
            sections[-1] += transcript_of(page.count("\n", 0, block.start(2)) + 1, body)
    return sections


def complaints(command: Command, status_before: int, folder: Path, seconds: float) -> tuple[int, list[str]]:
    """Runs a command; returns its status and a line for each way in which it fails."""
    words = f"(exit {status_before})\n{command.words}"
    try:
        ran = subprocess.run(
            ["bash", "-c", words],
            cwd=folder, stdin=subprocess.DEVNULL, stdout=subprocess.PIPE, stderr=subprocess.STDOUT, timeout=seconds,
        )
    except subprocess.TimeoutExpired:
        return 1, [f"no end within {seconds:g} s"]
    found = []
    if ran.returncode != 0 and not command.shows_status:
        found.append(f"the status is {ran.returncode}, and the page does not show it")
    if ran.stdout != command.output.encode():
        told, printed = command.output.splitlines(), ran.stdout.decode(errors="replace").splitlines()
        found += difflib.unified_diff(told, printed, "the page", "the program", lineterm="")
    return ran.returncode, found


def make_folder(folder: Path, program: Path) -> None:
    """Copies the examples, the package and the program."""
    for name in ("examples", "noc_tools"):
        shutil.copytree(TOP / name, folder / name)
    shutil.copy(TOP / "noc-tools", folder)
    (folder / "crates/noc/out").mkdir(parents=True)
    for place in ("noc", "crates/noc/out/noc_avx2"):
        (folder / place).symlink_to(program)


def failures(commands: Iterable[Command], folder: Path, seconds: float) -> list[tuple[Command, list[str]]]:
    """Runs commands one after the other; those that fail, each with the ways in which it does."""
    found, status = [], 0
    for command in commands:
        status, ways = complaints(command, status, folder, seconds)
        if ways:
            found.append((command, ways))
    return found


def run_page(program: Path, page: Path, by_blocks: bool, seconds: float) -> tuple[int, int]:
    """Returns how many commands of the page passed and how many failed."""
    introduction, *sections = sections_of(page.read_text(), by_blocks)
    failed = []
    for section in [list[Command](), *filter(None, sections)]:
        with tempfile.TemporaryDirectory(prefix="noc-tour-") as name:
            make_folder(Path(name), program)
            before = failures(introduction, Path(name), seconds)
            failed += failures(section, Path(name), seconds) if section else before
    for command, ways in failed:
        print(f"{page}, line {command.line}: {command.words.rstrip()}", *ways, sep="\n  ")
    commands = len(introduction) + sum(map(len, sections))
    if not commands:
        print(f"{page}: no command in it")
        return 0, 1
    return commands - len(failed), len(failed)


def main() -> int:
    parser = argparse.ArgumentParser(description="Runs every command that the pages show and compares what it prints.")
    parser.add_argument("program", type=Path)
    parser.add_argument("pages", type=Path, nargs="*")
    parser.add_argument("--blocks", type=Path, action="append", default=[], metavar="PAGE",
                        help="a page in which each block of commands works without the others")
    parser.add_argument("--seconds", type=float, default=300, help="time for one command")
    options = parser.parse_args()
    program, pages = options.program.resolve(), [*options.blocks, *options.pages]
    if not pages:
        parser.error("no page is named")
    counts = [run_page(program, page, page in options.blocks, options.seconds) for page in pages]
    passed, failed = map(sum, zip(*counts))
    print(f"{passed} passed, {failed} failed")
    return 1 if failed else 0


if __name__ == "__main__":
    sys.exit(main())
