"""Measures a run: loads, latency and its parts, hops, fairness.

REPORT is the latency report of a run of CONFIG, as 'noc run' writes it, or standard input where none is named. A
report does not say when packets came in. So with --traffic TRAFFIC the run is made here, and queue and network are
told apart too. A packet waits in the queue of its source from its due cycle to the one in which its head comes into
the network, and is in the network from then to the cycle in which its tail is out: so the two add up to its latency.

The packets that are due in the cycles A to B - 1 are measured, without --window those due in the cycles of CONFIG; the
cycles before A are the warm-up. A run that drained had more cycles than CONFIG says, up to the last one that brought a
packet out, and B may be as many. A line of CSV for all of them goes to standard output, and with --by one for each
class, each source, each destination, or each distance from source to destination:

    group     which packets
    packets   how many are measured
    flits     the flits of these
    out       how many of these were out at the end of the run
    offered   the offered load: the flits of the packets that are due in the window, for each node and cycle of it
    accepted  the accepted load: the flits of all packets whose tail came out in the window, for each node and cycle of
              it; both are of a source or a destination for this node alone
    mean      the average latency of the measured packets that are out
    median, p95, p99, max
              the least latency that 50, 95, 99 or all percent of the measured packets did not exceed; a dash where it
              falls among packets that were not out. A packet that is not out counts as later than all others.
    queue_mean, queue_median, queue_p95, queue_p99, queue_max
              the same of the part in the queue, of the same packets; dashes where it is not known
    network_mean, .., network_max
              and of the part in the network: so queue_mean and network_mean add up to mean
    hops_mean, .., hops_max
              the same of the hops to the destination, of all measured packets
    sources_least, sources_mean, sources_most
              the accepted load of the sources of measured packets, each for itself, in flits per cycle: how fair the
              network is to its nodes
    mean_margin, median_margin, p95_margin, p99_margin
              how well these are known: half the width of the 95 percent interval of confidence, from ten batches of the
              measured packets; a dash for fewer than a hundred packets, where one is not out, where the window is
              shorter than the network takes to forget how it began, and of a percentile for which packets are too few

A line to standard error warns where packets of the window are not out, since the mean is then too low, and where the
window has no steady state. There are three signs of this. The means of its first and second half differ by more than
PERCENT (20) of the mean, and by more than chance explains. The packets under way, which are due and not out, grow from
the window's beginning to its end by more than three times the root of the sum of these two numbers, or those of one
source or destination by more than four times this root. Or the network takes longer than the window to forget how it
began: by the wait of packets, 8 D D / s cycles for a mean wait of D and packets of s - 4 flits (docs/FIGURES.md). With
--json the same goes out as one object, with null for a dash, and with --slowest who was ahead of so many of the slowest
measured packets: of which classes, sources and destinations the packets were that were there before or instead, as
'noc-tools why --slowest' says it.

A node has one queue for all classes, from which packets come in by their due cycles. So a class may wait in queues
where another one is the cause, and not the network. With --by class and --traffic a line to standard error says so of
each class that spends most of its latency in queues, and most of that behind another class.

With --traffic a line to standard error also warns where the network has no ranks ('noc-tools ranks --help'), so that
packets can wait for one another in a circle. Where all wait, so that the run stood still, another line says so, and
the status is 5.

docs/FIGURES.md has the words for loads and for how long a run is, and says how figures are measured.

For example:

    noc-tools latency config.toml --traffic traffic.csv --window 1000:2000 --by class
"""
import json
from argparse import ArgumentParser, Namespace
from collections.abc import Mapping
from typing import NamedTuple

from ..arguments import add, add_config, add_measured, add_table, warn
from ..causes import ahead_of, blame_of, candidates, slowest
from ..deadlock import deadlock_told, is_deadlock_free
from ..errors import Refused
from ..files import read_lines, standard_input
from ..measure import told_of_standstill
from ..network import Network, read_bounded_network
from ..program import DONE, STUCK
from ..queues import told_of_queues
from ..runs import Run
from ..statistics import (
    GROUPS, NAMES, Columns, Figures, Sample, Window, end_of, grouped_figures, own_time, warnings, window_within,
)
from ..traffic import read_latencies


def add_arguments(parser: ArgumentParser) -> None:
    add_config(parser)
    add(parser, "report REPORT", "its latency report; by default standard input", nargs="?")
    add(parser, "--traffic TRAFFIC", "make the run of these packets, in place of REPORT")
    add_table(parser)
    add(parser, "--drain", "with --traffic: go on until all packets are out")
    parser.add_argument("--by", choices=GROUPS, action="append", default=[], help="also for each of these")
    add_measured(parser, "all")
    add(parser, "--json", "JSON instead of CSV")
    add(parser, "--slowest N|P%", "with --traffic and --json: who was ahead of so many of the slowest, as 20 or 1%%")


class Measured(NamedTuple):
    """What is measured: the packets of a run, its network, how many cycles its configuration gives it, its status where
    it is known, what is to be said of deadlock, and the run where it is made here."""

    packets: Columns
    network: Network
    cycles: int
    status: int = DONE
    warnings: tuple[str, ...] = ()
    run: Run | None = None


def of_report(options: Namespace) -> Measured:
    """A run that was made."""
    if options.table or options.drain:
        raise Refused("--table and --drain are for --traffic")
    network = read_bounded_network(options.config)
    if options.report is None:
        packets = read_latencies(standard_input(), network, "standard input")
    else:
        lines = read_lines(options.report, "latency report")
        packets = read_latencies(lines, network, options.report)
    return Measured(Columns.of_packets(packets), network, network.cycles)


def of_traffic(options: Namespace) -> Measured:
    """A run that is made here."""
    if options.report is not None:
        raise Refused("REPORT is of a run that was made, and --traffic makes one: give one of them")
    run = Run(options.config, options.traffic, options.table)
    cycles = run.network.cycles
    if options.drain:
        run.drain()
    packets = Columns.of_packets(run.timed_packets)
    is_free = is_deadlock_free(run.network, run.table.path if run.table else None)
    told = None if is_free else deadlock_told("this network"), told_of_standstill([run.status == STUCK])
    return Measured(packets, run.network, cycles, run.status, tuple(filter(None, told)), run)


def slowest_of(run: Run, amount: str, window: Window) -> dict[str, object]:
    """Who was ahead of the slowest packets that are due in the window."""
    among = candidates(run, window=f"{window.first}:{window.end}")
    blame = blame_of(run, slowest(run, amount, among))
    ahead = {kind: [flow._asdict() for flow in flows] for kind, flows in ahead_of(run, blame.shares).items()}
    return {"packets": len(blame.packets), "of": len(among), "ahead": ahead}


def as_json(window: Window, found: dict[str, Figures], warned: list[str], more: Mapping[str, object]) -> str:
    """All that is found as one object."""
    groups: list[dict[str, object]] = [{"group": name, **value.columns()} for name, value in found.items()]
    return json.dumps({"window": [window.first, window.end], "figures": groups, "warnings": warned, **more}, indent=2)


def main(options: Namespace) -> int:
    if options.slowest and not (options.traffic and options.json):
        raise Refused("--slowest is for --traffic and --json")
    made = of_report(options) if options.traffic is None else of_traffic(options)
    packets, network = made.packets, made.network
    window = window_within(options.window, end_of(packets, network)) if options.window else Window(0, made.cycles)
    found = grouped_figures(packets, window, network, options.by)
    sample = Sample(packets, window)
    own = own_time(sample.arrived, network)
    warned = [*warnings(sample, own, options.tolerance), *made.warnings]
    if made.run is not None and "class" in options.by:
        warned += told_of_queues(packets, window, network.cycles)
    if options.json:
        more = {"slowest": slowest_of(made.run, options.slowest, window)} if made.run and options.slowest else {}
        print(as_json(window, found, warned, more))
        return made.status
    print(",".join(["group", *NAMES]))
    for name, value in found.items():
        print(",".join([name, *value.words()]))
    warn(options, warned)
    return made.status
