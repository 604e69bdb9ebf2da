"""Configurations and their networks: shape, ports, names of channels, and the text of a configuration.

Nodes and ports are those of docs/MODEL.md. A channel is named by its port, a full stop and its number, as in 'local.0'.
"""
import json
import math
import re
import tomllib
from collections.abc import Sequence
from dataclasses import asdict, dataclass
from functools import cache, cached_property
from pathlib import Path
from typing import Any

from .errors import Refused, refusing
from .files import read_text

# What noc takes of a network (docs/FORMATS.md).
MOST_DIMENSIONS, LEAST_RADIX, MOST_RADIX, MOST_ROUTERS = 3, 2, 16, 256
MOST_CHANNELS, MOST_PLACES, MOST_CLASSES, MOST_CYCLES = 8, 16, 4, 2_000_000
# The most cycles of a run that drains.
MOST_DRAINED = 120_000_000
KINDS = ("mesh", "torus")
LOCAL = "local"


@dataclass(frozen=True)
class Network:
    """A configuration, and what follows from it. A radix may also be a list.

    `channels` are the virtual channels of each link, and `buffer` the flits for which each of them has room. By default
    it is a mesh of 64 nodes. A torus wants another rule: with dor packets may wait for one another in a circle there.
    """

    kind: str = "mesh"
    radix: tuple[int, ...] = (8, 8)
    channels: int = 2
    buffer: int = 4
    classes: int = 1
    rule: str = "dor"
    cycles: int = 3000

    def __post_init__(self) -> None:
        object.__setattr__(self, "radix", tuple(self.radix))

    @classmethod
    def read(cls, path: str | Path) -> "Network":
        """The configuration in a file that noc accepts; with a byte order mark, as noc does."""
        with refusing(ValueError, f"{path} is no configuration: "):
            network = network_of(settings_of(read_text(path, "configuration")))
        numbers = [*network.radix, network.channels, network.buffer, network.classes, network.cycles]
        if not all(0 < number for number in numbers):
            raise Refused(f"{path} is no configuration: a value is no number above 0")
        return network

    @property
    def is_bounded(self) -> bool:
        """Whether noc takes networks that are so large."""
        pairs = [
            (len(self.radix), MOST_DIMENSIONS), (self.nodes, MOST_ROUTERS), (self.channels, MOST_CHANNELS),
            (self.buffer, MOST_PLACES), (self.classes, MOST_CLASSES), (self.channels % self.classes, 0),
            (self.cycles, MOST_CYCLES), *((k, MOST_RADIX) for k in self.radix),
            *((LEAST_RADIX, k) for k in self.radix),
        ]
        return self.kind in KINDS and all(number <= most for number, most in pairs)

    @property
    def shape(self) -> str:
        """Its kind and its radices in words."""
        return f"{self.kind} of {' by '.join(map(str, self.radix))}"

    def text(self) -> str:
        """The text of the configuration."""
        # (numbers of other libraries are whole numbers too)
        return "".join(f"{key} = {json.dumps(value, default=int)}\n" for key, value in asdict(self).items())

    @cached_property
    def nodes(self) -> int:
        """How many nodes there are, and routers."""
        return math.prod(self.radix)

    @cached_property
    def ports(self) -> list[str]:
        """The ports of a router, in the order of the reports."""
        links = [sign + str(dimension) for dimension in range(len(self.radix)) for sign in "+-"]
        return [*links, LOCAL]

    @cached_property
    def places(self) -> list[tuple[int, str]]:
        """Each input channel as a router and its name, in the order of the reports; a port without a link has none."""
        return [
            (router, f"{port}.{number}")
            for router in range(self.nodes)
            for port in self.ports
            if port == LOCAL or self.neighbour(router, port) is not None
            for number in range(self.channels)
        ]

    def coordinates(self, node: int) -> list[int]:
        """The coordinates of a node, the first dimension first."""
        places = []
        for k in self.radix:
            node, x = divmod(node, k)
            places.append(x)
        return places

    def node_at(self, places: Sequence[int]) -> int:
        """The node with these coordinates."""
        node = 0
        for k, x in zip(reversed(self.radix), reversed(places)):
            node = node * k + x
        return node

    def neighbour(self, router: int, port: str) -> int | None:
        """The router to which a port leads, or None."""
        if port == LOCAL:
            return None
        places, dimension = self.coordinates(router), int(port[1:])
        k = self.radix[dimension]
        x = places[dimension] + (1 if port[0] == "+" else -1)
        if self.kind == "mesh" and not 0 <= x < k:
            return None
        places[dimension] = x % k
        return self.node_at(places)

    def linked(self, router: int, port: str) -> int:
        """The router to which a port leads that has a link."""
        found = self.neighbour(router, port)
        if found is None:
            raise Refused(f"router {router} has no link at port {port}")
        return found

    @property
    def hop_table(self) -> list[list[int]]:
        """The hops from each node to each other one."""
        return hop_table(self.kind, self.radix)

    def distance(self, one: int, other: int) -> int:
        """The hops from one node to another."""
        return self.hop_table[one][other]

    def block(self, message_class: int) -> list[int]:
        """The numbers of a class's channels."""
        size = self.channels // self.classes
        return list(range(message_class * size, (message_class + 1) * size))


@cache
def hop_table(kind: str, radix: tuple[int, ...]) -> list[list[int]]:
    """The hops from each node of a shape to each other one."""
    def along(k: int, x: int, t: int) -> int:
        return min((t - x) % k, (x - t) % k) if kind == "torus" else abs(t - x)

    table = [[0]]
    for k in radix:
        ways = [[along(k, x, t) for t in range(k)] for x in range(k)]
        table = [[hops + way for way in ways[x] for hops in row] for x in range(k) for row in table]
    return table


TYPES: dict[str, type] = {
    "kind": str, "radix": list, "channels": int, "buffer": int, "classes": int, "rule": str, "cycles": int,
}
NAMES = {str: "a word", list: "a list of integers", int: "an integer"}


def opposite(port: str) -> str:
    """The port by which a flit comes in that left by this one."""
    return ("-" if port[0] == "+" else "+") + port[1:]


def split(channel: str) -> tuple[str, int]:
    """The port and the number of a channel."""
    port, number = channel.split(".")
    return port, int(number)


def settings_of(text: str) -> dict[str, Any]:
    """The keys of a configuration with their values; with the escapes of TOML 1.1, as noc reads it."""
    return tomllib.loads(re.sub(r"\\x([0-9A-Fa-f]{2})", r"\\u00\1", text))


def has_type(value: Any, wanted: type) -> bool:
    """Whether a value is of this type, and a list one of integers; a truth value is no integer."""
    if isinstance(value, list):
        return wanted is list and all(type(number) is int for number in value)
    return type(value) is wanted


def network_of(settings: dict[str, Any]) -> Network:
    """The configuration with these settings; a ValueError says which key is wrong, or which value."""
    for key in settings:
        if key not in TYPES:
            raise ValueError(f"there is no key '{key}', the keys are {', '.join(TYPES)}")
    for key, wanted in TYPES.items():
        if key not in settings:
            raise ValueError(f"the key '{key}' is missing")
        if not has_type(settings[key], wanted):
            raise ValueError(f"the value of '{key}' is not {NAMES[wanted]}")
    return Network(**settings)


def read_bounded_network(path: str | Path) -> Network:
    """Reads a configuration where noc is not asked whether it takes it."""
    network = Network.read(path)
    if not network.is_bounded:
        raise Refused(f"{path} is no network that noc takes: its limits are in docs/FORMATS.md")
    return network
