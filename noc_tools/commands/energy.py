"""Counts what costs energy in a run, by router or by link.

CONFIG is the configuration of the run, and its stall report is standard input. A line of CSV for
each router, and one for all of them, goes to standard output:

    routes     heads for which a route was looked up
    requests   requests to the arbiters of output channels: one for each cycle in which a head asks
    grants     those of them that got the channel
    picks      requests to the arbiters of input ports: one for each cycle in which a flit could go
    sends      requests to the arbiters of output ports, by what input ports picked
    writes     flits that were written into buffers, of those that were read again
    reads      flits that were read from buffers
    crossings  flits that went through the switch
    hops       flits that went over the links that leave the router, to where they were read

With --links there is a line for each link instead, with its hops. Where packets are still in the
network at the end of the run, the flits in buffers are not counted at these; a run with 'noc run
--drain' has none left.

With --pj the column picojoules has what all of this costs, at so many picojoules for each. What is
not named costs nothing. The figures are those of your own library or paper: noc knows no technology.
What leaks, or is clocked without an event, is not counted.

For example:

    noc run config.toml traffic.csv --report stalls | noc-tools energy config.toml --pj reads=0.6 hops=2
"""
import math
from argparse import ArgumentParser, ArgumentTypeError, Namespace

from ..arguments import add, add_config
from ..energy import EVENTS, HOPS, rows_of_links, rows_of_routers
from ..errors import Refused
from ..files import standard_input
from ..network import read_bounded_network
from ..stalls import read_counts


def cost(word: str) -> tuple[str, float]:
    """An event, and what it costs."""
    event, _, number = word.partition("=")
    try:
        amount = float(number)
    except ValueError:
        amount = math.nan
    if event not in EVENTS or not 0 <= amount < math.inf:
        wanted = f"EVENT=PJ, as reads=0.6: events are {', '.join(EVENTS)}"
        raise ArgumentTypeError(f"'{word}' is no {wanted}")
    return event, amount


def add_arguments(parser: ArgumentParser) -> None:
    add_config(parser)
    add(parser, "--links", "a line for each link, with its hops")
    told = "what an event costs, in picojoules"
    add(parser, "--pj EVENT=PJ", told, nargs="+", type=cost, default=[])


def main(options: Namespace) -> None:
    network, costs = read_bounded_network(options.config), dict(options.pj)
    if options.links and set(costs) - {HOPS}:
        raise Refused(f"of a link {HOPS} alone are counted")
    counts = read_counts(standard_input(), network)
    rows = (rows_of_links if options.links else rows_of_routers)(network, counts, costs)
    print(*map(",".join, rows), sep="\n")
