"""Completions of noc-tools and manual pages of noc and noc-tools, made of what these say of their
words, by shtab and help2man."""
import os
import re
import shlex
import shutil
import subprocess
import sys
from argparse import ArgumentParser
from collections.abc import Callable, Iterator
from concurrent.futures import ThreadPoolExecutor
from functools import partial
from pathlib import Path
from tempfile import TemporaryDirectory
from typing import NamedTuple

TOP = Path(__file__).resolve().parent.parent
sys.path.insert(0, str(TOP))
from noc_tools.cli import COMMANDS, NAME, module_of  # noqa: E402

# What stands for the name of a file or a folder in the words of commands.
FILES = ("CONFIG", "TRAFFIC", "F", "FILE", "FOLDER", "REPORT", "TRACE", "STUDY.toml",
         "REFERENCE.vcd", "DUT.vcd")
# Where the completions of each shell are looked for.
COMPLETIONS = {f"share/bash-completion/completions/{NAME}": "bash",
               f"share/zsh/site-functions/_{NAME}": "zsh"}
# A program that says what a help says, in the form that help2man knows: each further form of a call
# with 'or', and an empty line behind each example. A line is as long as it likes.
CALL = """#!/bin/sh
COLUMNS=999 {call} --help 2>&1 |
    sed -e '1s/^usage:/Usage:/' -e '/^Usage:/,/^$/s/^ \\{{7\\}}noc/  or:  noc/' -e '/^  \\+noc/G'
"""
# shtab 1.5.5 has bash complete the first of several choices alone; it takes them all by this in
# place of that.
ALL_CHOICES = ('choices_var="${current_action}_choices"\n',
               'choices_var="${current_action}_choices[*]" IFS=$\'\\n\'\n')
# What makes a text.
Make = Callable[[], str]
SEE_ALSO = "[SEE ALSO]\n.BR {}\n"


def first_line(command: str) -> str:
    """What a command does, in a line."""
    found: str = module_of(command).__doc__.splitlines()[0]
    return found


def whole_parser() -> ArgumentParser:
    """One parser of all commands, which shtab reads."""
    from shtab import FILE
    parser = ArgumentParser(NAME)
    parser.add_argument("-V", "--version", action="version", help="print the version", version="")
    commands = parser.add_subparsers()
    for command in COMMANDS:
        one = commands.add_parser(command, help=first_line(command).replace("%", "%%"))
        module_of(command).add_arguments(one)
        for action in one._actions:
            # (a dict of choices are commands for shtab)
            action.choices = action.choices and list(action.choices)
            if action.metavar in FILES:
                action.complete = FILE  # type: ignore[attr-defined]
    of_help = commands.add_parser("help", help="Prints the help of a command.")
    of_help.add_argument("command", choices=COMMANDS)
    return parser


def completion(shell: str) -> str:
    """The completions for a shell."""
    words = ["shtab", f"--shell={shell}", f"--prog={NAME}", f"--prefix={NAME.replace('-', '_')}",
             f"{Path(__file__).stem}.{whole_parser.__name__}"]
    return text_of(words, PYTHONPATH=str(Path(__file__).parent)).replace(*ALL_CHOICES)


def text_of(words: list[str], **environment: str) -> str:
    """What a program writes."""
    given = {**os.environ, **environment}
    return subprocess.run(words, env=given, stdout=subprocess.PIPE, text=True, check=True).stdout


def released() -> tuple[str, str]:
    """The last version of CHANGELOG.md, and the seconds of its date."""
    found = re.search(r"^## (\S+) - (\S+)$", (TOP / "CHANGELOG.md").read_text(), re.MULTILINE)
    assert found
    return found[1], text_of(["date", "--utc", f"--date={found[2]}", "+%s"]).strip()


class Page(NamedTuple):
    """A manual page: what is called for its help, in a line what that does, and the pages that it
    names."""

    call: list[str]
    told: str
    others: list[str]


def manual(noc: Path) -> dict[str, Page]:
    """The manual pages by their names: those of noc-tools, and those of noc by a program of it."""
    tools = [sys.executable, str(TOP / NAME)]
    told = "commands over noc, a simulator of networks-on-chip"
    pages = {NAME: Page(tools, told, ["noc", *(f"{NAME}-{command}" for command in COMMANDS)])}
    for command in COMMANDS:
        pages[f"{NAME}-{command}"] = Page([*tools, command], first_line(command), [NAME])
    said = subprocess.run([noc, "--help"], capture_output=True, text=True).stderr
    told, *_ = said.splitlines() or [""]
    listed = said.partition("Options:")[0]
    commands = dict(re.findall(r"^  (\w+)  +([A-Z].*)$", listed, re.MULTILINE))
    commands.pop("help", None)
    if commands:
        pages["noc"] = Page([str(noc)], told, [*(f"noc-{command}" for command in commands), NAME])
    for command, what in commands.items():
        pages[f"noc-{command}"] = Page([str(noc), command], what, ["noc"])
    return pages


def manual_page(name: str, page: Page) -> str:
    """The text of a manual page."""
    version, date = released()
    told = page.told.rstrip(".")
    with TemporaryDirectory() as folder:
        call, see_also = Path(folder) / name, Path(folder) / "see_also"
        call.write_text(CALL.format(call=shlex.join(page.call)))
        call.chmod(0o755)
        see_also.write_text(SEE_ALSO.format(" (1),\n.BR ".join(page.others) + " (1)"))
        words = ["help2man", "--no-info", f"--name={told[0].lower()}{told[1:]}",
                 f"--include={see_also}", f"--version-string={version}", f"--source=noc {version}"]
        return text_of([*words, str(call)], SOURCE_DATE_EPOCH=date)


def texts(noc: Path) -> dict[str, tuple[str, dict[str, Make]]]:
    """What can be made, by the program that makes it: what it is in words, and what makes each
    file."""
    scripts: dict[str, Make] = {path: partial(completion, shell)
                                for path, shell in COMPLETIONS.items()}
    pages: dict[str, Make] = {f"share/man/man1/{name}.1": partial(manual_page, name, page)
                              for name, page in manual(noc).items()}
    return {"shtab": ("completions", scripts), "help2man": ("manual pages", pages)}


def write(folder: Path, noc: Path) -> Iterator[str]:
    """Writes what can be made into a folder, and tells what is left out. The help of noc is that of
    a program of it."""
    for program, (what, made) in texts(noc).items():
        if not shutil.which(program):
            yield f"there is no {program}, so {what} are left out"
            continue
        with ThreadPoolExecutor(len(os.sched_getaffinity(0))) as pool:
            tasks = {path: pool.submit(make) for path, make in made.items()}
            for path, task in tasks.items():
                (folder / path).parent.mkdir(parents=True, exist_ok=True)
                (folder / path).write_text(task.result())
