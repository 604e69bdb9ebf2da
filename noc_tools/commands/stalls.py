"""Draws where packets stand still, or how much each link is used.

CONFIG is the configuration of the run. Its stall report, which 'noc run --report stalls' writes, is standard input.
The picture is SVG, and goes to standard output. With --traffic TRAFFIC the run is made here, and with --window A:B
only its cycles A to B - 1 count: two runs are made, that end at A and at B. With --drain it goes on until all packets
are out, as by 'noc run --drain', or where it is stuck up to the first cycle without an event.

Each router is a cell at its coordinates: a row of them in one dimension, and in three a plane for each third
coordinate, side by side. The colour is the share of stalled cycles: of the cycles in which an input channel of the
router had a packet, added up over its channels, those in which the packet stood still. In the cell stand the router's
number, the share of occupied cycles (of all cycles of its channels those with a packet), the share of stalled cycles,
the reason that most of these have, and the input channel that stood still longest (of equals the first in the report).
Where more than eight routers stand in a row or a column, a cell holds the share of stalled cycles alone, in percent,
and the ten worst are listed.

A packet that waits at its source is in no channel, so the colours say nothing of it. With --traffic a bar at the lower
edge of a cell shows how many packets waited in the queue of the node on average, and the longest queues are listed or
stand in the cells as numbers. This takes one more run.

With --links each link is an arrow from its sender, coloured by its use: the share of cycles in which a flit that came
by it went on, as the report counts at its end. So is the way from each node into its router; and where the run is made
here, the way out, with the flits of the packets that were out. The ten links that are used most are listed. The scale
of the colours ends at PERCENT, or at the greatest share of the report: with one PERCENT two pictures can be laid side
by side.

For example:

    noc-tools stalls config.toml --traffic traffic.csv > stalls.svg
    noc run config.toml traffic.csv --report stalls | noc-tools stalls config.toml > stalls.svg
"""
from argparse import ArgumentParser, Namespace

from ..arguments import add, add_config, add_table, add_top
from ..errors import Refused
from ..files import standard_input
from ..heatmap import picture
from ..network import Network, read_bounded_network
from ..runs import Run
from ..stalls import Report, queues_within, read_counts, report_of, report_within
from ..statistics import window_within


def add_arguments(parser: ArgumentParser) -> None:
    add_config(parser)
    add(parser, "--traffic TRAFFIC", "make the run of these packets, in place of a report")
    add_table(parser)
    add(parser, "--drain", "with --traffic: go on until all packets are out")
    add(parser, "--window A:B", "with --traffic: the cycles A to B - 1; by default all")
    add(parser, "--links", "draw the links as arrows coloured by their use")
    add_top(parser, "--top PERCENT", "where the scale ends; by default at the greatest share")


def report_for(options: Namespace, network: Network) -> Report:
    """The report that is drawn."""
    if options.traffic is None:
        if options.drain or options.table is not None or options.window is not None:
            raise Refused("--table, --drain and --window are for --traffic")
        return report_of(read_counts(standard_input(), network))
    run = Run(options.config, options.traffic, options.table, options.drain)
    window = window_within(options.window or f"0:{run.network.cycles}", run.network.cycles)
    report = report_within(run, window)
    if not options.links:
        report.queues = queues_within(run, window)
    return report


def main(options: Namespace) -> None:
    if options.top is not None and not 0 < options.top <= 100:
        raise Refused("--top is a number above 0 and at most 100")
    network = read_bounded_network(options.config)
    report = report_for(options, network)
    name = options.config.rsplit("/", 1)[-1].removesuffix(".toml")
    top = options.top / 100 if options.top else None
    print(picture(name, network, report, options.links, top), end="")
