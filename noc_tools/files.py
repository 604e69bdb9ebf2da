"""Files as texts and as rows of CSV, and texts into files; what cannot be had is refused with a sentence."""
import csv
import os
import sys
from collections.abc import Iterable, Iterator, Sequence
from io import StringIO
from pathlib import Path
from typing import TextIO

from .errors import Refused, refusing

STANDARD_INPUT = "-"


def standard_input() -> TextIO:
    """What comes in by standard input."""
    if sys.stdin is None:
        raise Refused("standard input is closed")
    return sys.stdin


def read_bytes(path: str | Path, name: str | None = None) -> bytes:
    """What is in a file; a sentence calls it by `name`."""
    with refusing(OSError, f"{name or path}: "):
        return Path(path).read_bytes()


def read_text(path: str | Path, kind: str, name: str | None = None) -> str:
    """The text of a file of some kind in UTF-8, with or without a byte order mark; a sentence calls it by `name`."""
    with refusing(UnicodeDecodeError, f"{name or path} is no {kind}: "):
        return read_bytes(path, name).decode("utf-8-sig")


def read_lines(path: str | Path, kind: str, name: str | None = None) -> Iterable[str]:
    """The lines of a file as a reader of CSV takes them: a line feed in quotes stays what it is."""
    return StringIO(read_text(path, kind, name), newline="")


def each_row(lines: Iterable[str], kind: str, name: str) -> Iterator[list[str]]:
    """The rows of CSV of some kind, one by one, without empty ones."""
    unread = f"{name} is no {kind}: "
    with refusing(csv.Error, unread), refusing(UnicodeDecodeError, f"{unread}it is not UTF-8"):
        yield from filter(None, csv.reader(lines))


def csv_rows(lines: Iterable[str], kind: str, name: str) -> list[list[str]]:
    """All of them."""
    return list(each_row(lines, kind, name))


def named_rows(lines: Iterable[str], header: Sequence[str], kind: str, name: str) -> list[dict[str, str]]:
    """The rows of CSV below a header that has these names, by the names of the header."""
    found, *rows = csv_rows(lines, kind, name) or [[]]
    if not set(header) <= set(found):
        raise Refused(f"{name} is no {kind}")
    for number, row in enumerate(rows, 2):
        if len(row) != len(found):
            raise Refused(f"{name}: line {number} has not the {len(found)} fields of the header")
    return [dict(zip(found, row)) for row in rows]


# ---- writing


def write(path: str | Path, content: str | bytes) -> None:
    """Writes a file, a text in UTF-8; a sentence names it where there is no room for it."""
    with refusing(OSError, f"{path}: "):
        Path(path).write_bytes(content if isinstance(content, bytes) else content.encode())


def put(path: str | Path, text: str) -> None:
    """Puts a text in UTF-8 in the place of a file, or of a link, at once: whoever reads finds all of it or what was
    there before. Into a device or a pipe it is written."""
    goal, part = Path(path), Path(f"{path}.{os.getpid()}.part")
    with refusing(OSError, f"{path}: "):
        if goal.exists() and not goal.is_file():
            goal.write_text(text, encoding="utf-8")
            return
        try:
            part.write_text(text, encoding="utf-8")
            part.replace(goal)
        finally:
            part.unlink(missing_ok=True)


def check_output(path: str, begins: str, inputs: Iterable[str | None]) -> None:
    """Refuses to write where an input is, or in the place of a file that does not begin as what is to be written."""
    if not os.path.exists(path):
        return
    if any(given is not None and os.path.exists(given) and os.path.samefile(path, given) for given in inputs):
        raise Refused(f"{path} is an input: name another file")
    if os.path.isfile(path) and not read_bytes(path).startswith(begins.encode()):
        raise Refused(f"{path} is there, and is none of those that are written here: name another file")


def csv_line(fields: Iterable[str]) -> str:
    """A line of CSV. What stands in quotes may have any character, a carriage return and a line feed too."""
    text = StringIO(newline="")
    csv.writer(text, lineterminator="\r\n").writerow(fields)
    return text.getvalue().removesuffix("\r\n") + "\n"
