"""Makes the routing table of a rule that noc does not have itself.

The table is a file for the rule 'table', and goes to standard output. It has a row for each entry that packets reach
on the network CONFIG. Columns, rows and channels are counted from 0. The rules are:

    odd-even           on a mesh of two dimensions: packets choose between their row and their column, but turn from
                       east to north or south in odd columns alone, and from north or south to west in even ones
    dateline-balanced  on a torus, as dateline: a packet that has still to cross the ends of a dimension takes the low
                       half of its class's channels, and one that has crossed them the high half. But a packet that
                       crosses none takes either half, until it has once taken the high one
    dateline-even      on a torus, as dateline: but where both ways round a dimension are equally long, packets go up
                       from even coordinates and down from odd ones, so that both ways carry the same

For example:

    noc-tools table config.toml odd-even > table.csv
"""
from argparse import ArgumentParser, Namespace

from ..arguments import add, add_config
from ..network import read_bounded_network
from ..ranks import table_file
from ..relation import Channels, of_table_rule
from ..rules import TABLE_RULES, table_rule


def add_arguments(parser: ArgumentParser) -> None:
    add_config(parser)
    add(parser, "rule RULE", ", ".join(TABLE_RULES), choices=TABLE_RULES)


def main(options: Namespace) -> None:
    network = read_bounded_network(options.config)
    relation = of_table_rule(Channels(network), table_rule(network, options.rule))
    print(*table_file(relation), sep="\n")
