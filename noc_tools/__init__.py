"""A library over noc, a simulator of wormhole networks-on-chip; examples/README.md shows it at work in a notebook."""
from collections.abc import Iterator
from importlib import import_module
from pathlib import Path
from typing import TYPE_CHECKING, Any

from .errors import Refused
from .findings import Finding
from .life import Life, life_of
from .network import Network
from .runs import Config, Run, Traffic
from .traffic import Demand, Packet

__version__ = "1.0.0"

if TYPE_CHECKING:
    from .causes import Ahead, Share
    from .questions import certify, check, load, ranks_of
    from .study import Study

__all__ = [
    "Ahead", "Demand", "Finding", "Life", "Network", "Packet", "Refused", "Run", "Share", "Study", "ahead", "blame",
    "certify", "check", "latencies", "life_of", "load", "ranks_of", "run", "trace",
]
# These stand on most modules, so they are read only where they are wanted.
LATER = {
    "Ahead": "causes", "Share": "causes", "Study": "study",
    **dict.fromkeys(("certify", "check", "load", "ranks_of"), "questions"),
}


def run(config: Config, traffic: Traffic, table: str | Path | None = None, drain: bool = False) -> Run:
    """Runs a network with its traffic: its packets, its status and its counts."""
    made = Run(config, traffic, table, drain)
    made.finish()
    return made


def latencies(config: Config, traffic: Traffic, table: str | Path | None = None, drain: bool = False) -> list[int]:
    """The latencies of the packets that were out, in the order of the packets."""
    return Run(config, traffic, table, drain).latencies


def trace(config: Config, traffic: Traffic, table: str | Path | None = None, **chosen: Any) -> Iterator[Finding]:
    """What input channels did, cycle by cycle; chosen by first, last, router, packet and changes."""
    return Run(config, traffic, table).trace(**chosen)


def blame(config: Config, traffic: Traffic, slowest: str | int = "1%", **chosen: Any) -> "list[Share]":
    """To what the cycles of the slowest packets went, so many or a part of them as 1%; chosen by table, drain,
    message_class and window."""
    from . import causes
    return causes.blamed(config, traffic, slowest, **chosen)[1].shares


def ahead(config: Config, traffic: Traffic, slowest: str | int = "1%", **chosen: Any) -> "dict[str, list[Ahead]]":
    """Who was ahead of the slowest packets, which are chosen as for `blame`: by 'class', 'source' and 'destination'."""
    from . import causes
    made, blame = causes.blamed(config, traffic, slowest, **chosen)
    return causes.ahead_of(made, blame.shares)


def __getattr__(name: str) -> Any:
    """A public name whose module is read now."""
    if name in LATER:
        return getattr(import_module(f"{__name__}.{LATER[name]}"), name)
    raise AttributeError(f"module {__name__!r} has no attribute {name!r}")
