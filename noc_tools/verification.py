"""Verifies the folder of a certificate: makes its files again, and names each that is not what it was.

The files that follow from those that were given are made as the program of the folder makes them, by what program.txt
says of it. So another program hides no file that was changed.
"""
import os
import re
from collections.abc import Iterator, Mapping
from pathlib import Path

from .certificate import (
    CIRCLE, GIVEN, PROGRAM, RANKS, SUMS, Content, Files, certified, copied, stuck, version, version_in, with_pages,
)
from .claims import TRAFFIC
from .errors import Refused
from .files import read_bytes
from .jam import jam_in
from .program import sha256_of

SUM_LINE = re.compile(r"([0-9a-f]{64})  (\S+)")
# No file of a certificate has more bytes: so many does noc take of a text.
MOST_BYTES = 1 << 26


class Kept:
    """What is in a folder: its plain files, each read once, the names of all else, and the digests that it knows."""

    def __init__(self, folder: Path) -> None:
        self.files: Files = {}
        self.others: list[str] = []
        for entry in os.scandir(folder):
            # (what is no plain file may never end)
            if entry.is_file(follow_symlinks=False) and entry.stat(follow_symlinks=False).st_size <= MOST_BYTES:
                self.files[entry.name] = read_bytes(entry.path)
            else:
                self.others.append(entry.name)
        if SUMS not in self.files:
            raise Refused(f"{folder} has no file {SUMS}, so it is no certificate")
        lines = self.files[SUMS].decode(errors="replace").splitlines()
        self.sums = {found[2]: found[1] for found in map(SUM_LINE.fullmatch, lines) if found}

    @property
    def names(self) -> set[str]:
        """The names of all that is there."""
        return {*self.files, *self.others}

    def is_as_known(self, name: str) -> bool:
        """Whether a file has the digest that the folder knows of it."""
        return name in self.files and self.sums.get(name) == sha256_of(self.files[name])

    def changed(self) -> list[str]:
        """The files of which all others follow, where they are not as the folder knows them."""
        given = GIVEN[:3] if RANKS in self.files else GIVEN
        return [name for name in given if (name in self.names or name in self.sums) and not self.is_as_known(name)]

    def line(self, name: str, is_wanted: bool) -> str:
        """What is to be said of one that is not what it was."""
        if name not in self.names:
            return f"{name} is missing"
        if not is_wanted:
            return f"{name} does not belong to it"
        return f"{name} is no plain file" if name in self.others else f"{name} differs"


def made_again(there: Files) -> Content:
    """What is in a folder, made of the files that were given; a jam of those that say what it is, without a search."""
    with copied({name: there[name] for name in GIVEN if name in there}) as inputs:
        if inputs.ranks:
            return certified(inputs)
        if not (inputs.circle and inputs.traffic):
            raise Refused(f"the folder has neither {RANKS} nor {CIRCLE} and {TRAFFIC}, so it is no certificate")
        return stuck(inputs, jam_in(inputs.config, inputs.circle, inputs.traffic, inputs.table))


def by_digests(kept: Kept) -> Iterator[str]:
    """A line for each file that is not as the folder knows it, where none of them can be made again."""
    for name in sorted(kept.names | set(kept.sums)):
        if name != SUMS and not kept.is_as_known(name):
            yield kept.line(name, name in kept.sums)


def by_bytes(kept: Kept, made: Mapping[str, bytes], changed: list[str]) -> Iterator[str]:
    """A line for each file that is not what was made again. Where files that were given have changed, what is as the
    folder knows it may follow from what they were before."""
    for name in changed:
        yield kept.line(name, True)
    for name in sorted((kept.names | set(made)) - set(changed)):
        if name in kept.others or kept.files.get(name) != made.get(name) and not (changed and name == SUMS):
            follows_not = bool(changed) and name in made and kept.is_as_known(name)
            now = f"{name} does not follow from {', '.join(changed)} as of now"
            yield now if follows_not else kept.line(name, name in made)


def differing(folder: Path) -> Iterator[str]:
    """A line for each file of a folder that is not what it was, or is missing, or does not belong to it."""
    kept, present, changed = Kept(folder), version(), []
    theirs = (version_in(kept.files[PROGRAM]) if kept.is_as_known(PROGRAM) else None) or present
    try:
        content = made_again(kept.files)
    except Refused:
        yield from by_digests(kept)
        if all(map(kept.is_as_known, {*GIVEN} & {*kept.names, *kept.sums})):
            raise
        return
    made = with_pages(content, theirs)
    found = [name for name in {*kept.names, *made} if kept.files.get(name) != made.get(name)]
    if found != [SUMS]:
        # (else the list of digests alone is another one)
        changed = kept.changed()
        made = with_pages(content, theirs, {name: kept.sums[name] for name in changed if name in kept.sums})
    yield from by_bytes(kept, made, changed)
    if theirs != present:
        yield f"{PROGRAM} differs: this program is another one than that of the folder"


def verify(folder: str) -> Iterator[str]:
    """Makes a folder again; a line for each file that differs."""
    path = Path(folder)
    if not path.is_dir():
        raise Refused(f"{folder} is no folder")
    return differing(path)
