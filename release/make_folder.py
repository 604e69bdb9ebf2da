#!/usr/bin/env python3
"""Makes a folder with the simulator, its commands and the pages, for who has no kit. './noc
--install DIR' calls this.

    make_folder.py DIR PROGRAM..     copies these programs, files noc and noc_avx2, and all else
    make_folder.py --check WORD..    looks whether the words name one folder that can be made

DIR is empty or not there, and in no folder that is copied. Its noc runs the program for its
processor. 'pip wheel DIR' makes a wheel of the same files. Manual pages and completions for bash
and zsh are made of what the commands say of their words, where help2man and shtab are there; else a
line says that they are left out. What a page says between the comments 'only in the repository' and
'end' is left out too. A link to what is not installed becomes its text, and where it stands in
brackets alone it goes. The exit status is 1, with a line on standard error, where the folder cannot
be made, and then nothing of it is left.
"""
import argparse
import os
import re
import shutil
import sys
from collections.abc import Iterator, Sequence
from pathlib import Path

import help_files

TOP = Path(__file__).resolve().parent.parent
# What is installed under its name in the repository; of a folder all goes that is in it. Some pages
# are of the repository alone.
OF_REPOSITORY = ("ARCHITECTURE.md", "COLUMNS.md", "DECISIONS.md", "DEVELOPING.md")
KEPT = ("noc-tools", "noc_tools", "pyproject.toml", "release/make_wheel.py", "examples",
        "README.md", "CHANGELOG.md",
        "CITATION.cff", "LICENSE", "LICENSE-MIT", "LICENSE-APACHE", "NOTICE",
        *(f"docs/{path.name}" for path in sorted((TOP / "docs").glob("*.md"))
          if path.name not in OF_REPOSITORY))
# What stands in the repository elsewhere than in the folder.
MOVED = {"noc": "release/noc", "lib/noc/choose.sh": "release/choose.sh"}
PROGRAMS = "lib/noc"
ONLY_IN_REPOSITORY = re.compile(r"^<!-- only in the repository -->\n.*?^<!-- end -->\n",
                                re.MULTILINE | re.DOTALL)
# A link, and one that stands in brackets by itself.
LINK = r"(?<!!)\[([^]]*)\]\((?!https?:)([^)#]+)(?:#[^)]*)?\)"
LINKS = re.compile(rf"\s\({LINK}\)|{LINK}")
WRONG_NAME = ("--install needs the name of one folder, which is empty or not there, and in none "
              "that is copied")


def can_be_made(words: Sequence[str]) -> bool:
    """Whether the words are the name of one folder, which is empty or not there, and in none that
    is copied."""
    if len(words) != 1 or not words[0]:
        return False
    folder = Path(words[0]).resolve()
    is_apart = not any(folder.is_relative_to(TOP / name) for name in (*KEPT, "docs", "release"))
    return is_apart and (not folder.exists() or folder.is_dir() and not any(folder.iterdir()))


def files_of(name: str) -> Iterator[str]:
    """The names of the files that a name of the repository stands for."""
    path = TOP / name
    for each in sorted(path.rglob("*")) if path.is_dir() else [path]:
        if each.is_file() and each.parent.name != "__pycache__":
            yield each.relative_to(TOP).as_posix()


def installed(programs: Sequence[Path]) -> dict[str, Path]:
    """All files of the folder by their names in it, with what they are copies of; a program may
    have a file beside it that says which kit built it."""
    found = {name: TOP / name for kept in KEPT for name in files_of(kept)}
    found |= {name: TOP / source for name, source in MOVED.items()}
    for program in programs:
        for path in (program, program.with_name(f"{program.name}.kit")):
            if path.exists():
                found[f"{PROGRAMS}/{path.name}"] = path
    return found


def page_of(name: str, names: dict[str, Path]) -> str:
    """What a page says where there are neither sources nor kit."""
    def linked(found: re.Match[str]) -> str:
        text, target = found[3], found[2] or found[4]
        is_installed = os.path.normpath(Path(name).parent / target) in names
        return found[0] if is_installed else text or ""
    return LINKS.sub(linked, ONLY_IN_REPOSITORY.sub("", names[name].read_text()))


def make(folder: Path, programs: Sequence[Path]) -> None:
    """Makes the folder."""
    names = installed(programs)
    for name, source in names.items():
        target = folder / name
        target.parent.mkdir(parents=True, exist_ok=True)
        if name.endswith(".md"):
            target.write_text(page_of(name, names))
        else:
            shutil.copy(source, target)
    for reason in help_files.write(folder, programs[0]):
        print(f"noc: {reason}", file=sys.stderr)


def take_away(folder: Path) -> None:
    """Takes away what is in a folder."""
    for path in folder.iterdir() if folder.exists() else ():
        shutil.rmtree(path) if path.is_dir() else path.unlink()


def main() -> int | str:
    formatter = argparse.RawDescriptionHelpFormatter
    parser = argparse.ArgumentParser(description=__doc__, formatter_class=formatter)
    parser.add_argument("--check", action="store_true", help="make nothing")
    parser.add_argument("words", metavar="DIR PROGRAM", nargs="*")
    options = parser.parse_args()
    if options.check or len(options.words) < 2:
        return 0 if can_be_made(options.words) else f"noc: {WRONG_NAME}"
    folder, *programs = map(Path, options.words)
    try:
        make(folder, programs)
    except OSError as error:
        take_away(folder)
        return f"noc: {folder} could not be written: {error.strerror}"
    names = " and ".join(path.name for path in programs)
    print(f"noc: {folder} has {names}, noc-tools and the pages", file=sys.stderr)
    return 0


if __name__ == "__main__":
    sys.exit(main())
