"""Writes packets and routes as memories for a design in RTL.

They are files for $readmemh. FOLDER, which is made where it is not there, gets two files for each router R or node N.
Each of their lines is a word in hexadecimal digits:

    routes_R.hex   for each class, and in it for each destination, the output channels that the rule permits, as bits;
                   the channel at place I of port P has bit P * channels + I. With the rule 'table', whose routes depend
                   on where a packet came in, there are none.
    packets_N.hex  the packets of the node in the order of its queue, by due cycle and then by number. A word has due
                   cycle, length, class, destination and number, the first in the highest bits. Words of zeros come
                   behind them, so many that all nodes have as many words.

Standard output has a line NAME=VALUE for each parameter that a design needs: DIMENSIONS, K0 and K1 (the radix), TORUS
(1 or 0), CLASSES, CHANNELS, BUFFER, PACKETS (the most of a node) and CYCLES. docs/RTL.md hands them to a simulator.

For example:

    noc-tools memories config.toml traffic.csv memories > parameters
"""
from argparse import ArgumentParser, Namespace
from collections.abc import Iterable
from pathlib import Path

from ..arguments import add, add_config, numbers
from ..errors import Refused, refusing
from ..memories import FIELDS, WIDTHS, lines_of_queue, parameters, queues, routes
from ..network import read_bounded_network
from ..rules import RULES
from ..traffic import numbers_in, read_traffic


def add_arguments(parser: ArgumentParser) -> None:
    add_config(parser)
    add(parser, "traffic TRAFFIC", "the packets")
    add(parser, "folder FOLDER", "where the files go; files of these names are written anew")
    told = f"the bits of a packet's fields ({','.join(map(str, WIDTHS))})"
    add(parser, "--widths B,..", told, type=numbers, default=WIDTHS)


def write(path: Path, lines: Iterable[str]) -> None:
    """Writes the words of a memory."""
    with refusing(OSError, f"{path}: "):
        path.write_text("".join(f"{line}\n" for line in lines), encoding="utf-8")


def main(options: Namespace) -> None:
    network, folder = read_bounded_network(options.config), Path(options.folder)
    if len(options.widths) != len(FIELDS) or min(options.widths) < 1:
        raise Refused(f"--widths are {len(FIELDS)} numbers above 0: the bits of {', '.join(FIELDS)}")
    with refusing(ValueError, f"{options.traffic} is no traffic: a row is not five numbers"):
        found = queues(network, map(numbers_in, read_traffic(options.traffic)))
    with refusing(OSError, f"{folder}: "):
        folder.mkdir(parents=True, exist_ok=True)
    most = max(map(len, found))
    for node, queue in enumerate(found):
        if network.rule in RULES:
            write(folder / f"routes_{node}.hex", routes(network, node))
        write(folder / f"packets_{node}.hex", lines_of_queue(queue, most, options.widths))
    print(*(f"{name}={value}" for name, value in parameters(network, most).items()), sep="\n")
