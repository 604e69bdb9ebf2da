"""Reads VCD files (value change dump, IEEE 1364): those of 'waves', and those of RTL simulators."""
import re
from collections.abc import Collection, Iterator
from pathlib import Path
from typing import IO, NamedTuple

from .errors import Refused

# The range of bits behind a name, and what is asked of a name: one of its bits, or some.
RANGE = re.compile(r"(.*)\[(-?\d{1,9}):(-?\d{1,9})\]")
BITS = re.compile(r"(.*)\[(-?\d{1,9})(?::(-?\d{1,9}))?\]")
# The most bits of a variable, and the latest time.
MOST_BITS, LATEST = 1 << 20, (1 << 63) - 1
# Values of a time: by the sign of each variable that changes.
Changes = dict[str, str]
# With one of these bytes a file of the form FST begins; as they are read here.
OF_FST = "\0", "\udcfe"
SCALARS, VECTORS = frozenset("01xXzZ"), frozenset("bBrRs")


def number_in(value: str) -> int | None:
    """The number that bits are, where all of them are known."""
    return int(value, 2) if value and set(value) <= {"0", "1"} else None


def bounded(digits: str, most: int) -> int | None:
    """The number of these digits; None where they are none, or above the most."""
    if not (digits.isascii() and digits.isdecimal() and len(digits) <= len(str(most))):
        return None
    return int(digits) if int(digits) <= most else None


class Signal(NamedTuple):
    """Some bits of a variable, counted from the left one, by its name and by its sign in the file."""

    name: str
    sign: str
    width: int
    first: int
    end: int

    def value_in(self, values: Changes) -> str:
        """Its bits, from the left one on: each is 0, 1, x or z."""
        value = values.get(self.sign, "x").lower()
        fill = value[0] if value[0] in "xz" else "0"
        return value.rjust(self.width, fill)[-self.width:][self.first:self.end]


class Dump:
    """A VCD file: its variables by their names, with scopes and full stops before them, and then what changes."""

    def __init__(self, path: str | Path) -> None:
        self.name = str(path)
        self.words = self.words_of(open(path, encoding="utf-8", errors="surrogateescape"))
        self.variables: dict[str, tuple[str, int, int]] = {}
        # How many bits the variables of a sign have.
        self.widths: dict[str, int] = {}
        self.read_head()

    def words_of(self, file: IO[str]) -> Iterator[str]:
        """The words of the file, one by one."""
        with file:
            for line in file:
                yield from line.split()

    def refused(self, reason: str) -> Refused:
        """Why the file cannot be read."""
        return Refused(f"{self.name} is no VCD file: {reason}")

    def command(self) -> list[str]:
        """The words of a command up to its $end."""
        found: list[str] = []
        for word in self.words:
            if word == "$end":
                return found
            found.append(word)
        raise self.refused("it ends within a command")

    def read_head(self) -> None:
        """Reads the declarations."""
        scopes: list[str] = []
        for word in self.words:
            if word.startswith(OF_FST):
                raise self.refused("it seems to be an FST file, which fst2vcd of GTKWave turns into one")
            if not word.startswith("$"):
                raise self.refused(f"{word[:20]!r} stands among its declarations")
            words = self.command()
            if word == "$enddefinitions":
                return
            if word == "$scope" and len(words) == 2:
                scopes.append(words[1])
            elif word == "$upscope" and scopes:
                scopes.pop()
            elif word == "$var":
                self.declare(scopes, words)
        raise self.refused("it has no $enddefinitions")

    def declare(self, scopes: list[str], words: list[str]) -> None:
        """Takes in a variable: its kind, size, sign and name, which may have a range behind it."""
        size = bounded(words[1], MOST_BITS) if 4 <= len(words) else None
        if size is None:
            raise self.refused(f"'{' '.join(words)[:40]}' declares no variable")
        name = "".join(words[3:])
        left, right = size - 1, 0
        if ranged := RANGE.fullmatch(name):
            name, left, right = ranged[1], int(ranged[2]), int(ranged[3])
        width = abs(left - right) + 1
        if MOST_BITS < width:
            raise self.refused(f"'{' '.join(words)[:40]}' has more than {MOST_BITS} bits")
        self.variables.setdefault(".".join([*scopes, name]), (words[2], left, right))
        self.widths[words[2]] = max(width, self.widths.get(words[2], 0))

    def signal(self, name: str) -> Signal | None:
        """The variable of a name, or those of its bits that stand behind the name; None where it has none of these."""
        if name in self.variables:
            sign, left, right = self.variables[name]
            width = abs(left - right) + 1
            return Signal(name, sign, width, 0, width)
        asked = BITS.fullmatch(name)
        if asked is None or asked[1] not in self.variables:
            return None
        sign, left, right = self.variables[asked[1]]
        width, step = abs(left - right) + 1, 1 if left >= right else -1
        first, last = (step * (left - int(bit)) for bit in (asked[2], asked[3] or asked[2]))
        return Signal(name, sign, width, first, last + 1) if 0 <= first <= last < width else None

    def steps(self, signs: Collection[str]) -> Iterator[tuple[int, Changes]]:
        """What changes of these variables, time by time."""
        wanted, time = frozenset(signs), None
        changes: Changes = {}
        for word in self.words:
            kind = word[0]
            if kind in SCALARS:
                value, sign = kind, word[1:]
            elif kind in VECTORS:
                value, sign = word[1:], next(self.words, "")
            elif kind == "#":
                if time is not None:
                    yield time, changes
                time, changes = self.time_of(word, time), {}
                continue
            elif kind == "$":
                if word == "$comment":
                    self.command()
                continue
            else:
                raise self.refused(f"'{word[:20]}' is no change of a value")
            if not sign or not value:
                raise self.refused(f"'{word[:20]}' changes no variable")
            if sign in wanted:
                self.check_width(kind, value, sign)
                changes[sign] = value
        if time is not None:
            yield time, changes

    def check_width(self, kind: str, value: str, sign: str) -> None:
        """Refuses a value with more bits than its variable has, but for zeros before these."""
        if kind in "bB" and value[:-self.widths[sign]].strip("0"):
            raise self.refused(f"'{kind}{value[:20]}' has more than the {self.widths[sign]} bits of its variable")

    def time_of(self, word: str, before: int | None) -> int:
        """A time, which is not before the last one."""
        time = bounded(word[1:], LATEST)
        if time is None or time < (before or 0):
            raise self.refused(f"'{word[:20]}' is no time{'' if before is None else f' behind {before}'}")
        return time
