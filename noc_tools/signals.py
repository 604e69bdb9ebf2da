"""The map from what a model says of each input channel to the signals of a design, as a file in TOML (docs/RTL.md)."""
import ast
import operator
import re
import tomllib
from collections.abc import Callable
from pathlib import Path
from typing import Any, NamedTuple

from .errors import refusing
from .files import read_text
from .findings import COLUMNS, VERDICTS
from .network import LOCAL, split

# What a signal may say of an input channel: whether it has a verdict, or the code of that, its packet, or its output
# channel.
VERDICT, PACKET, OUT = "verdict", "packet", "out"
OF_VERDICTS = {column: verdict for verdict, column in COLUMNS.items()}
KINDS = [*OF_VERDICTS, VERDICT, PACKET, OUT]
KEYS = {"clock": str, "edge": str, "offset": int, "scope": str, "ports": list, "verdicts": list, "signals": dict}
EDGES = {"rising": "1", "falling": "0"}
IN_BRACES = re.compile(r"\{([^{}]*)\}")
OPERATORS: dict[type, Callable[[int, int], int]] = {
    ast.Add: operator.add, ast.Sub: operator.sub, ast.Mult: operator.mul, ast.Div: operator.floordiv,
    ast.Mod: operator.mod,
}
# The most edges by which a signal shows a cycle later than others.
LONGEST_DELAY = 1000
NO_ARITHMETIC = (ValueError, SyntaxError, ZeroDivisionError, RecursionError)
Names = dict[str, int | str]


def port_number(port: str, ports: int) -> int:
    """The number of a port of a router that has so many."""
    return ports - 1 if port == LOCAL else 2 * int(port[1:]) + (port[0] == "-")


def value_of(node: ast.expr, names: Names) -> int | str:
    """What a name, a number or some arithmetic stands for."""
    match node:
        case ast.Name(id=name) if name in names:
            return names[name]
        case ast.Constant(value=int(number)):
            return number
        case ast.BinOp(left=left, op=sign, right=right) if type(sign) in OPERATORS:
            one, other = value_of(left, names), value_of(right, names)
            if isinstance(one, int) and isinstance(other, int):
                return OPERATORS[type(sign)](one, other)
    raise ValueError


def filled(pattern: str, names: Names) -> str:
    """A pattern with what stands in its braces put in."""
    def value(found: re.Match[str]) -> str:
        with refusing(NO_ARITHMETIC, f"'{found[0]}' is no arithmetic of {', '.join(names)} and whole numbers"):
            return str(value_of(ast.parse(found[1].strip(), mode="eval").body, names))

    return IN_BRACES.sub(value, pattern)


class Pattern(NamedTuple):
    """The name of a signal for each channel, and by how many edges it shows a cycle later than others."""

    name: str
    delay: int = 0


class SignalMap(NamedTuple):
    """A map: the clock, which edge of it ends cycle 0 (None where the map does not say it), and the patterns of the
    signals."""

    clock: str
    edge: str
    offset: int | None
    scope: str
    ports: tuple[int | str, ...] | None
    verdicts: tuple[str, ...]
    patterns: dict[str, Pattern]

    @classmethod
    def read(cls, path: str | Path) -> "SignalMap":
        """The map in a file."""
        with refusing(ValueError, f"{path} is no map: "):
            return map_of(tomllib.loads(read_text(path, "map")))

    def port(self, number: int) -> int | str:
        """What stands for a port in the names of the design."""
        return number if self.ports is None else self.ports[number]

    def index_of(self, channel: str, ports: int, channels: int) -> int:
        """The index of a channel of the design, port by port."""
        port, number = split(channel)
        place = port_number(port, ports)
        called = self.port(place)
        return (called if isinstance(called, int) else place) * channels + number

    def name(self, pattern: Pattern, router: int, channel: str, ports: int, channels: int) -> str:
        """The name of a channel's signal, with its scope."""
        port, number = split(channel)
        names: Names = {
            "router": router, "port": self.port(port_number(port, ports)), "channel": number,
            "index": self.index_of(channel, ports, channels),
        }
        return ".".join(filter(None, [self.scope, filled(pattern.name, names)]))


def pattern_of(kind: str, value: Any) -> Pattern:
    """A pattern from a name, or from a name and a delay."""
    if isinstance(value, str):
        value = {"name": value}
    is_whole = isinstance(value, dict) and set(value) <= {"name", "delay"} and isinstance(value.get("name"), str)
    if not is_whole or type(value.get("delay", 0)) is not int or not 0 <= value.get("delay", 0) <= LONGEST_DELAY:
        raise ValueError(f"the signal '{kind}' is no name, nor a name with a delay of 0 to {LONGEST_DELAY}")
    return Pattern(**value)


def check_keys(settings: dict[str, Any]) -> None:
    """Refuses what a map cannot have."""
    for key, value in settings.items():
        if key not in KEYS:
            raise ValueError(f"there is no key '{key}', the keys are {', '.join(KEYS)}")
        if type(value) is not KEYS[key]:
            raise ValueError(f"the value of '{key}' has not the type of docs/RTL.md")
    if not settings.get("clock"):
        raise ValueError("it names no clock")
    if settings.get("edge", "rising") not in EDGES:
        raise ValueError(f"an edge is {' or '.join(EDGES)}, not '{settings['edge']}'")
    if not all(type(port) in (int, str) for port in settings.get("ports", [])):
        raise ValueError("'ports' are numbers or words")
    if not set(settings.get("verdicts", [])) <= {*VERDICTS, ""}:
        raise ValueError(f"'verdicts' are of {', '.join(VERDICTS)}, or '' for a code that none has")


def map_of(settings: dict[str, Any]) -> SignalMap:
    """The map with these settings; a ValueError says what is wrong."""
    check_keys(settings)
    signals = settings.get("signals", {})
    if not signals:
        raise ValueError("it names no signal")
    for kind in signals:
        if kind not in KINDS:
            raise ValueError(f"there is no signal '{kind}', the signals are {', '.join(KINDS)}")
    ports = settings.get("ports")
    return SignalMap(
        settings["clock"], settings.get("edge", "rising"), settings.get("offset"), settings.get("scope", ""),
        None if ports is None else tuple(ports), tuple(settings.get("verdicts", VERDICTS)),
        {kind: pattern_of(kind, value) for kind, value in signals.items()},
    )
