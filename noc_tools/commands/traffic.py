"""Makes a traffic file of a pattern and a load.

Each node of the network CONFIG makes, in each cycle of the run, a packet of LENGTH flits with the probability
LOAD / LENGTH: so LOAD is in flits per node and cycle. PATTERN says where the packet goes (Dally and Towles,
chapter 3). With n nodes and b = log2 n, by the bits 0 (the lowest) to b - 1 of the source's number, or by its
coordinates:

    uniform         all other nodes alike
    bit-complement  bit i of the destination is the opposite of bit i of the source
    bit-reverse     bit i of the destination is bit b - 1 - i of the source
    bit-rotation    bit i of the destination is bit i + 1 (mod b) of the source
    shuffle         bit i of the destination is bit i - 1 (mod b) of the source
    transpose       bit i of the destination is bit i + b/2 (mod b) of the source; on a square from column x and
                    row y to column y and row x
    tornado         in each dimension of radix k almost half way round: x + ceil(k/2) - 1 (mod k)
    neighbour       in each dimension one up: x + 1 (mod k)
    permutation     each node to one other, drawn at random; no two nodes to the same
    hot-spot        to one of the nodes of --spots with the probability P, and else uniform

The patterns by bits need a power of two of nodes, and transpose an even b where the network is no square. A node that
a pattern sends to itself sends nothing. Each packet is of one of the classes C, equally often, and has one of the
lengths where LENGTH is several, as 1+8. With --burst ON:OFF a node is on and off by turns: it goes off after a cycle
with the probability 1 / ON, and on again with 1 / OFF. It makes packets while it is on, so many more that LOAD holds
on average. Where nothing else is said, packets are due in all cycles of the run, the only spot is the node in the
middle, and P is 0.2. The same words give the same bytes: all that is random is drawn by random.random(), which gives
the same numbers for a seed in every version of Python.

For example:

    noc-tools traffic config.toml hot-spot 0.3 1+8 --spots 0,63 --share 0.1 > traffic.csv
"""
from argparse import ArgumentParser, Namespace

from ..arguments import PATTERN_HELP, add, add_config, add_demand, add_length, demand_of
from ..network import read_bounded_network
from ..traffic import PATTERN_NAMES


def add_arguments(parser: ArgumentParser) -> None:
    add_config(parser)
    add(parser, "pattern PATTERN", PATTERN_HELP, choices=PATTERN_NAMES)
    add(parser, "load LOAD", "flits per node and cycle", type=float)
    add_length(parser)
    add_demand(parser)


def main(options: Namespace) -> None:
    network = read_bounded_network(options.config)
    print(demand_of(options, options.load).traffic(network), end="")
