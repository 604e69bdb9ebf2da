"""Works out when packets are due that wait for others.

TRAFFIC is a traffic with a column 'after'. What stands there has to be out first: 12+40 is packet
12, by its row counted from 0, and the cycles that pass from the one in which it was out. Of several,
with spaces between them, all have to be out; a dash or nothing stands for none. A packet is never due
before the cycle in its column 'due'.

Packets delay one another, so the network is run again and again, until none is due in another cycle
than in the run before. The traffic of that run goes to standard output, with its packets in the order
of TRAFFIC. A packet that is not due before the end of the run is left out, and a line on standard
error says how many these are. Packets that are after one another in a circle are refused, and so is
what has not settled after N runs.

For example:

    noc-tools settle config.toml after.csv > traffic.csv
"""
from argparse import ArgumentParser, Namespace
from pathlib import Path
from tempfile import TemporaryDirectory

from ..arguments import add, add_config, add_table, warn
from ..errors import Refused
from ..measure import Files, outs_of
from ..network import read_bounded_network
from ..precedence import MOST_RUNS, read_dependents, settled
from ..traffic import traffic_text


def add_arguments(parser: ArgumentParser) -> None:
    add_config(parser)
    add(parser, "traffic TRAFFIC", "the packets, with a column 'after'")
    add_table(parser)
    add(parser, "--runs N", f"at most so many runs ({MOST_RUNS})", type=int, default=MOST_RUNS)


def main(options: Namespace) -> None:
    network = read_bounded_network(options.config)
    packets = read_dependents(options.traffic)
    if options.runs < 1:
        raise Refused("at least one run is needed")
    with TemporaryDirectory(prefix="noc-settle-") as folder:
        traffic = Path(folder, "traffic.csv")
        files = Files(Path(options.config), traffic, options.table, [], network.cycles)
        rows = settled(packets, network, lambda some: outs_of(files, some), options.runs)
    print(traffic_text(rows), end="")
    if len(rows) < len(packets):
        left = f"{len(packets) - len(rows)} of {len(packets)} packets"
        warn(options, [f"{left} are not due before the end of the run, and are left out"])
