#!/usr/bin/env python3
"""Measures how the cost of a router-cycle grows with the routers, the channels and the load.

    series.py PROGRAM [--repeat N]

The networks are meshes of 4 by 4, 8 by 8 and 16 by 16 routers with one, two and four channels on each link and four
places in each buffer, under dimension order. The traffic is uniform, in packets of 16 flits. The load that is offered
is a part of what the links across the middle of the mesh can carry, 4/k flits per node and cycle on a mesh of k by k
routers: a twentieth, a fifth, and all of it, which no network takes (the sources' queues grow). The same traffic goes
to every number of channels.

Each load has two columns: the flits that come out per node and cycle, and the nanoseconds of a router-cycle, measured
as measure.py does. A table in Markdown goes to standard output.
"""
import argparse
import csv
import sys
from collections.abc import Iterator
from pathlib import Path

sys.dont_write_bytecode = True
from make_workloads import Workload, uniform  # noqa: E402
from measure import Joined, measure  # noqa: E402
from noc_tools.network import Network  # noqa: E402
from noc_tools.traffic import MOST_PACKETS  # noqa: E402

RADICES = (4, 8, 16)
CHANNELS = (1, 2, 4)
LOADS = {"low": 0.05, "middle": 0.2, "saturated": 1.0}
LENGTH = 16


def workload(radix: int, channels: int, part: float) -> Workload:
    """A mesh whose nodes offer this part of what its middle can carry; as long as the packets allow at full load."""
    nodes = radix * radix
    flits_per_cycle = nodes * 4 / radix
    cycles = int(MOST_PACKETS * LENGTH / flits_per_cycle)
    network = Network("mesh", (radix, radix), channels, 4, 1, "dor", cycles)
    return Workload(network.kind, network, radix, [LENGTH], cycles, uniform(nodes), int(MOST_PACKETS * part))


def flits_out(load: Workload, report: bytes) -> float:
    """The flits of the packets that came out, per node and cycle."""
    rows = csv.DictReader(report.decode().splitlines())
    flits = sum(int(row["length"]) for row in rows if row["out"] != "-")
    return flits / load.network.nodes / load.network.cycles


def cells(program: str, radix: int, channels: int, repeat: int) -> Iterator[str]:
    """The two columns of each load."""
    for part in LOADS.values():
        load = workload(radix, channels, part)
        measured = measure(load, [Joined(program)], repeat, Path())
        if len(measured.reports) > 1:
            sys.exit("series: the program's reports on the same texts differ")
        yield f"{flits_out(load, measured.reports.pop()):.3f}"
        yield f"{1e9 / measured.speed(0):.0f}"


def main() -> None:
    parser = argparse.ArgumentParser(description="Measures how the cost grows with routers, channels and load.")
    parser.add_argument("program")
    parser.add_argument("--repeat", type=int, default=5, metavar="N", help="rounds, of which the median counts")
    options = parser.parse_args()
    print("| routers | channels |", " | ".join(f"{name}: flits out | {name}: ns" for name in LOADS), "|")
    print("|--:|--:|" + "--:|--:|" * len(LOADS))
    for radix in RADICES:
        for channels in CHANNELS:
            row = [str(radix * radix), str(channels), *cells(options.program, radix, channels, options.repeat)]
            print("|", " | ".join(row), "|", flush=True)


if __name__ == "__main__":
    main()
