"""Finds ranks that rule out deadlock, or shows why there are none.

Ranks are numbers on channels, a rank file for 'noc check' which goes to standard output. They rise along every step
from one link channel to the next that the routing relation permits (docs/FORMATS.md, Ranks). Where such steps close a
circle there are none: it is shown step by step, each with a class and a destination whose packets may take it, and
the status is 1.

With --escape the channels with the numbers C of each link are its escape channels, and all others are 'adaptive':
packets must always be permitted an escape channel, and ranks rise from one escape channel to the next that packets
come to, directly or by adaptive channels. Without numbers the lowest channel of the block of each class is tried,
then the lowest two, and so on; where none of these will do, it says why the lowest alone does not.

CONFIG and F are read twice, so they are files and no pipes.

For example:

    noc-tools ranks config.toml > ranks.csv
"""
from argparse import ArgumentParser, Namespace

from ..arguments import add, add_config, add_table, numbers
from ..ranks import escape_choices, first_found, rank_file
from ..relation import checked_relation


def add_arguments(parser: ArgumentParser) -> None:
    add_config(parser)
    add_table(parser)
    escape = "the numbers of the escape channels; without numbers the lowest of each class's channels are tried"
    add(parser, "--escape C,..", escape, nargs="?", const=(), type=numbers)


def main(options: Namespace) -> None:
    relation = checked_relation(options.config, options.table)
    channels = relation.channels
    escape = None if options.escape is None else set(options.escape)
    ranks = first_found(relation, escape_choices(channels.network, escape))
    print("\n".join(rank_file(channels, ranks)))
