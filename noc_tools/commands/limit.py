"""Compares the proved bound on a run with the cycles that it took.

The bound, its limit, is the last due time plus the events that the traffic takes (docs/MODEL.md). It is proved for
networks whose ranks 'noc check' accepts. Both numbers are printed, with a dash for the cycles where packets stay in the
network. Behind them stands the link, or the port of a node, that most flits go over whatever way packets take. It
carries one in a cycle, so the cycles are never fewer than these flits.

For example:

    noc-tools limit config.toml traffic.csv
"""
from argparse import ArgumentParser, Namespace
from collections.abc import Iterable

from ..arguments import add, add_config, add_table, table_words
from ..bound import Ways, asked_for, sent, ways_of
from ..network import Network
from ..program import report
from ..traffic import Packet, read_latencies
from ..words import counted


def add_arguments(parser: ArgumentParser) -> None:
    add_config(parser)
    add(parser, "traffic TRAFFIC", "the packets")
    add_table(parser)


def events(network: Network, packet: Packet) -> int:
    """How many events it takes to bring a packet out: those of each flit, and the routes and grants of its head."""
    hops = network.distance(packet.source, packet.destination)
    return packet.length * (3 * hops + 2) + 2 * (hops + 1)


def cycles_taken(packets: Iterable[Packet]) -> int | None:
    """The cycles until all packets were out, or None."""
    outs = [packet.out for packet in packets]
    there = [out for out in outs if out is not None]
    return max(there, default=-1) + 1 if len(there) == len(outs) else None


def busiest(ways: Ways, packets: Iterable[Packet]) -> str:
    """The link that most flits go over, in words."""
    asked = asked_for(ways, sent((each.source, each.destination, each.message_class, each.length) for each in packets))
    most = max(asked)
    return f"{ways.name(asked.index(most))} carries {counted(round(most), 'flit')}"


def main(options: Namespace) -> None:
    network = Network.read(options.config)
    found = report("run", options.config, options.traffic, "--drain", *table_words(options))
    packets = read_latencies(found.splitlines(), network, "the report of noc")
    limit = max((packet.due for packet in packets), default=0) + sum(events(network, packet) for packet in packets)
    took = cycles_taken(packets)
    cycles = f"limit {limit}, all out after {'-' if took is None else took} cycles"
    print(f"{cycles}; {busiest(ways_of(network, options.table), packets)}")
