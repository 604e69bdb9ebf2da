"""Whether the packets of a network can come to wait for one another for ever, which is asked once
for each network."""
from dataclasses import replace
from functools import lru_cache
from pathlib import Path
from tempfile import TemporaryDirectory

from .files import write
from .network import Network
from .program import report
from .ranks import NoRanks, rank_file, ranks_found
from .relation import Channels, of_network

# So many answers are kept.
MOST_ANSWERS = 1024


def has_formula(network: Network) -> bool:
    """Whether noc has a formula for the ranks of a network, which is proved to be free of
    deadlock."""
    return network.rule != "table" and (network.kind, network.rule) != ("torus", "dor")


def is_deadlock_free(network: Network, table: str | Path | None = None) -> bool:
    """Whether a network that noc takes has ranks, which 'noc check' accepts: then no traffic brings
    it to a deadlock.

    Where none are found, neither for all channels nor for the lowest ones of each class as escape
    channels, packets may come to wait for one another in a circle.
    """
    if has_formula(network):
        return True
    changed = Path(table).stat().st_mtime_ns if table else 0
    return has_ranks(replace(network, buffer=1, cycles=1), str(table) if table else None, changed)


@lru_cache(maxsize=MOST_ANSWERS)
def has_ranks(network: Network, table: str | None, changed: int) -> bool:
    """The same of a network with its table, which was changed then."""
    channels = Channels(network)
    try:
        ranks = ranks_found(of_network(channels, table))
    except NoRanks:
        return False
    with TemporaryDirectory(prefix="noc-ranks-") as folder:
        config, file = Path(folder, "config.toml"), Path(folder, "ranks.csv")
        write(config, network.text())
        write(file, "".join(f"{line}\n" for line in rank_file(channels, ranks)))
        report("check", str(config), "--ranks", str(file), *(["--table", table] if table else []))
    return True


def deadlock_told(name: str) -> str:
    """That a network can deadlock, in words."""
    told = "no ranks are found, and 'noc-tools ranks' shows a circle of channels"
    return f"{name} can deadlock: {told}"
