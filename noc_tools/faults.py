"""What a fault line of noc means for the files of a call, in a sentence: which file, key or line, and what fits there.

The families and names of faults are those of docs/FORMATS.md.
"""
import csv
import tempfile
import tomllib
from collections.abc import Callable, Iterator, Sequence
from contextlib import suppress
from dataclasses import dataclass
from functools import cached_property
from io import StringIO
from pathlib import Path
from typing import Any

from .network import (
    KINDS, LEAST_RADIX, MOST_CHANNELS, MOST_CLASSES, MOST_CYCLES, MOST_DIMENSIONS, MOST_PLACES, MOST_RADIX,
    MOST_ROUTERS, NAMES, TYPES, Network, network_of, settings_of,
)
from .traffic import COLUMNS, LATEST_DUE, LONGEST, MOST_PACKETS

# How the files of a call are called, and the columns of those that are CSV.
CALLED = {"config": "the configuration", "traffic": "the traffic", "table": "the table", "ranks": "the rank file"}
HEADERS = {
    "traffic": COLUMNS, "table": ["class", "router", "in_port", "in_vc", "dst", "out_port", "out_vc"],
    "ranks": ["router", "port", "vc", "rank"],
}
# Commands whose second file is the traffic.
WITH_TRAFFIC = ("run", "trace", "explain")
RULES = ("dor", "dateline", "west-first", "adaptive", "table")
# What a key may be.
RANGES = {
    "kind": " or ".join(KINDS), "radix": f"{LEAST_RADIX} to {MOST_RADIX} for each dimension",
    "channels": f"1 to {MOST_CHANNELS}", "buffer": f"1 to {MOST_PLACES}", "classes": f"1 to {MOST_CLASSES}",
    "rule": f"one of {', '.join(RULES)}", "cycles": f"1 to {MOST_CYCLES}",
}
# What is wrong with a row of a table that is otherwise whole.
ROWS_OF_TABLES = {
    "NoLink": "it names a port without a link, or what the network does not have",
    "NotMinimal": "it leads to a router that is no nearer to the destination",
    "EarlyEject": "it leads out of the network at a router that is not the destination",
    "LateHop": "it leads on at the destination, where packets go out by a channel of 'local'",
}


def shown(value: Any) -> str:
    """A value as a configuration has it."""
    return f'"{value}"' if isinstance(value, str) else str(value)


def is_temporary(path: str) -> bool:
    """Whether a file is one that a command made for itself, of which its name says nothing."""
    parts = Path(path).parts
    return path.startswith("/dev/") or path.startswith(tempfile.gettempdir()) and any(
        part.startswith("noc-") for part in parts[:-1]
    )


@dataclass(frozen=True)
class Fault:
    """A fault line, and the files of the call: their paths by the families of faults."""

    family: str
    name: str
    details: tuple[str, ...]
    paths: dict[str, str]

    def file(self, family: str) -> str:
        """What a sentence calls a file."""
        path = self.paths.get(family, "")
        return CALLED[family] if not path or is_temporary(path) else f"{CALLED[family]} {path}"

    def text(self, family: str) -> str:
        """What is in a file."""
        return Path(self.paths[family]).read_bytes().decode("utf-8-sig")

    @cached_property
    def settings(self) -> dict[str, Any]:
        """The configuration as it stands."""
        return settings_of(self.text("config"))

    @cached_property
    def network(self) -> Network:
        """The configuration, where all keys are there."""
        return network_of(self.settings)

    @property
    def row(self) -> int:
        """The row that the line names."""
        return int(self.details[self.details.index("row") + 1])

    def values(self, *names: str) -> list[str]:
        """The details that stand behind these names, in their order."""
        rest, found = iter(self.details), []
        for name in names:
            next(word for word in rest if word == name)
            found.append(next(rest))
        return found

    def records(self, family: str) -> Iterator[tuple[int, list[str]]]:
        """The records behind the header of a file, each with the line on which it ends."""
        reader = csv.reader(StringIO(self.text(family), newline=""))
        for place, record in enumerate(reader):
            if place:
                yield reader.line_num, record

    def record(self, family: str) -> tuple[str, list[str]]:
        """The record that the line names: the line where it stands, in words, and its fields."""
        number, record = list(self.records(family))[self.row]
        return f"line {number} of {self.file(family)}", record


# ---- sentences for texts


def unread(fault: Fault) -> str:
    """A file that cannot be opened or read."""
    path = fault.paths[fault.family]
    try:
        with open(path, "rb"):
            return f"{fault.file(fault.family)} cannot be read"
    except OSError as error:
        return f"{CALLED[fault.family]} {path} cannot be read: {error.strerror}"


def no_toml(fault: Fault) -> str | None:
    """A configuration that is no TOML."""
    try:
        settings_of(fault.text("config"))
    except (tomllib.TOMLDecodeError, UnicodeDecodeError) as error:
        return f"{fault.file('config')} is no TOML: {error}"
    return None


def unknown_key(fault: Fault) -> str:
    """A key that no configuration has."""
    unknown = [f"'{key}'" for key in fault.settings if key not in TYPES]
    return f"{fault.file('config')} has {', '.join(unknown)}, and the keys are {', '.join(TYPES)}"


def wrong_type(fault: Fault) -> str:
    """A value of another type."""
    (key,) = fault.values("key")
    return f"in {fault.file('config')} {key} = {shown(fault.settings[key])} is not {NAMES[TYPES[key]]}"


def bad_value(fault: Fault) -> str:
    """A value out of range."""
    (key,) = fault.values("key")
    return f"in {fault.file('config')} {key} = {shown(fault.settings[key])} is not {RANGES[key]}"


def bad_header(fault: Fault) -> str:
    """A first record that is not the header."""
    first = next(iter(fault.text(fault.family).splitlines()), "")
    return f"line 1 of {fault.file(fault.family)} is '{first[:80]}', and not {','.join(HEADERS[fault.family])}"


def bad_count(fault: Fault) -> str:
    """A record with another number of fields."""
    place, record = fault.record(fault.family)
    return f"{place} has {len(record)} fields, and the header {len(HEADERS[fault.family])}"


def bad_field(fault: Fault) -> str:
    """A field that is no number, or no port."""
    place, record = fault.record(fault.family)
    column = int(fault.values("column")[0])
    name = HEADERS[fault.family][column]
    wanted = "a whole number" if fault.name == "BadNumber" else f"a port: they are {', '.join(fault.network.ports)}"
    return f"on {place} {name} is '{record[column]}', which is not {wanted}"


# ---- sentences for what they say


def wrong_size(fault: Fault) -> str:
    """A shape that noc does not take."""
    radix = fault.settings["radix"]
    taken = {
        "BadDimensions": f"1 to {MOST_DIMENSIONS} dimensions", "BadRadix": f"{RANGES['radix']}",
        "TooManyNodes": f"at most {MOST_ROUTERS} routers",
    }
    routers = f", which are {fault.network.nodes} routers" if fault.name == "TooManyNodes" else ""
    return f"in {fault.file('config')} radix = {radix}{routers}: noc takes {taken[fault.name]}"


def misfit(network: Network) -> str | None:
    """Which demand of its rule a network does not meet, or of its classes."""
    kind, rule, dimensions = network.kind, network.rule, len(network.radix)
    channels, classes = network.channels, network.classes
    if channels % classes:
        return f"{channels} channels are no multiple of {classes} classes, each of which has as many"
    if rule == "dateline" and kind != "torus":
        return f"the rule dateline is for a torus, and this is a {kind}"
    if rule == "dateline" and channels % (2 * classes):
        return f"the rule dateline needs channels in multiples of {2 * classes} for {classes} classes, not {channels}"
    if rule == "west-first" and (kind != "mesh" or dimensions != 2):
        return f"the rule west-first is for a mesh of two dimensions, and this is a {kind} of {dimensions}"
    needed = 3 if kind == "torus" else 2
    if rule == "adaptive" and channels // classes < needed:
        return f"the rule adaptive needs {needed} channels for each class on a {kind}, not {channels} for {classes}"
    return None


def wrong_shape(fault: Fault) -> str | None:
    """Rule, kind, channels and classes that do not go together."""
    found = misfit(fault.network)
    return f"in {fault.file('config')} {found}" if found else None


def bad_row(fault: Fault) -> str:
    """A row of a table that no table may have."""
    fields = fault.values("class", "router", "port", "vc", "dst", "out", "vc")
    places = [number for number, record in fault.records("table") if record == fields]
    place = f"line {places[0]} of {fault.file('table')}" if places else f"a row of {fault.file('table')}"
    return f"{place} is {','.join(fields)}: {ROWS_OF_TABLES[fault.name]}"


def no_way(fault: Fault) -> str:
    """An entry at which nothing is permitted."""
    fields = fault.values("class", "router", "port", "vc", "dst")
    return f"packets come to where {fault.file('table')} has no row {','.join(fields)},PORT,VC"


def bad_ranks(fault: Fault) -> str:
    """A row of a rank file that none may have."""
    place, record = fault.record("ranks")
    wrong = {
        "UnknownChannel": "there is no such link channel", "DoubleChannel": "a line before names the same channel",
        "BadRank": "a rank is 1 to 1000000, or the word adaptive",
    }
    return f"{place} is {','.join(record)}: {wrong[fault.name]}"


def missing_channel(fault: Fault) -> str:
    """A channel without a rank."""
    return f"{fault.file('ranks')} has no line {','.join(fault.values('router', 'port', 'vc'))},RANK"


def not_rising(fault: Fault) -> str:
    """A step that leads to no greater rank."""
    first, second = fault.values("ranks")[0], fault.details[-1]
    return f"by {fault.file('ranks')} packets may go on from rank {first} to rank {second}, which is not greater"


def bad_packet(fault: Fault) -> str:
    """A packet that the network does not take."""
    place, record = fault.record("traffic")
    nodes, classes = fault.network.nodes - 1, fault.network.classes - 1
    wrong = {
        "SelfPacket": "a packet goes to another node than its own", "BadNode": f"the nodes are 0 to {nodes}",
        "BadClass": f"the classes are 0 to {classes}", "BadLength": f"a length is 1 to {LONGEST}",
        "BadDue": f"a due time is 0 to {LATEST_DUE}",
    }
    return f"{place} is {','.join(record)}: {wrong[fault.name]}"


def of_rule(fault: Fault) -> str:
    """A table that is missing, or one too many; or ranks that no formula gives."""
    told = {
        "NoTable": "its table is named by --table", "SpareTable": "no table goes with it",
        "NoGenerated": "it has no ranks by formula: 'noc-tools ranks' finds some where there are any",
    }
    return f"the rule of {fault.file('config')} is {fault.settings['rule']}: {told[fault.name]}"


SENTENCES: dict[str, Callable[[Fault], str | None]] = {
    "ReadFailed": unread, "BadToml": no_toml, "UnknownKey": unknown_key, "WrongType": wrong_type,
    "MissingKey": lambda fault: f"{fault.file('config')} has no key '{fault.values('key')[0]}'",
    "BadValue": bad_value, "BadHeader": bad_header, "BadCount": bad_count, "BadNumber": bad_field,
    "BadPort": bad_field, **dict.fromkeys(["NoTable", "SpareTable", "NoGenerated"], of_rule),
    **dict.fromkeys(["BadDimensions", "BadRadix", "TooManyNodes"], wrong_size), "WrongShape": wrong_shape,
    **dict.fromkeys(ROWS_OF_TABLES, bad_row), "NoWay": no_way, "NotRising": not_rising,
    **dict.fromkeys(["UnknownChannel", "DoubleChannel", "BadRank"], bad_ranks), "MissingChannel": missing_channel,
    **dict.fromkeys(["SelfPacket", "BadNode", "BadClass", "BadLength", "BadDue"], bad_packet),
    "TooMany": lambda fault: f"{fault.file('traffic')} has more than {MOST_PACKETS} packets",
    "TooLong": lambda fault: f"{fault.file(fault.family)} has more than 67108864 bytes",
}


def paths_of(words: Sequence[str]) -> dict[str, str]:
    """The files that the words of a call name, by the families of their faults."""
    paths = {word.removeprefix("--"): path for word, path in zip(words, words[1:]) if word in ("--table", "--ranks")}
    files = [word for before, word in zip(words, words[1:]) if not (word.startswith("--") or before.startswith("--"))]
    kinds = ("config", "traffic") if words and words[0] in WITH_TRAFFIC else ("config",)
    return {**dict(zip(kinds, files)), **paths}


def sentence(line: str, words: Sequence[str]) -> str | None:
    """What a fault line of a call with these words means; None where no more can be said."""
    mark, family, _, name, *details = [*line.split(), "", "", "", ""]
    fault = Fault(family, name, tuple(filter(None, details)), paths_of(words))
    if mark != "fault" or name not in SENTENCES:
        return None
    # (what was read may be gone, or be another text by now)
    with suppress(OSError, ValueError, LookupError, StopIteration, RecursionError, csv.Error):
        return SENTENCES[name](fault)
    return None
