"""Finds a smallest traffic that gets stuck: no flit can be spared.

None of its packets can be left out, and none be a flit shorter:

    shrink CONFIG --out FILE            a traffic is made for a circle of the channel dependency graph, which is found
                                        as by 'noc-tools ranks', and cut down; there is none where ranks are found
    shrink CONFIG TRAFFIC --out FILE    TRAFFIC, a run of which gets stuck, is cut down

A run is stuck where 'noc run CONFIG FILE' ends with status 5, so within the cycles of CONFIG. Of FILE each packet
alone is needed, and each of its flits: without any one of them the run no longer gets stuck. There may be other
traffics that are smaller still. Packets keep their order and their due times. It takes seconds, but minutes where
hundreds of the packets of TRAFFIC are needed. FILE may be a traffic file that is there, which it replaces, and no
other file.

CONFIG, TRAFFIC and F are read many times, so they are files and no pipes.
"""
from argparse import ArgumentParser, Namespace

from ..arguments import add, add_config, add_table
from ..files import check_output, put
from ..jam import Jam, jam_of_circle, jam_within
from ..traffic import HEADER, traffic_text


def add_arguments(parser: ArgumentParser) -> None:
    add_config(parser)
    add(parser, "traffic TRAFFIC", "packets that get stuck", nargs="?")
    add_table(parser)
    add(parser, "--out FILE", "where the traffic goes that is found", required=True)


def found(options: Namespace) -> Jam:
    """The jam that is asked for."""
    if options.traffic is None:
        return jam_of_circle(options.config, options.table)
    return jam_within(options.config, options.traffic, options.table)


def main(options: Namespace) -> None:
    check_output(options.out, HEADER, (options.config, options.traffic, options.table))
    jam = found(options)
    put(options.out, traffic_text(jam.rows))
    print(jam.told())
