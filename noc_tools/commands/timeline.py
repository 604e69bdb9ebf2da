"""Draws the life of a packet: where it was, and why it stood still.

The picture is SVG, and goes to standard output. Cycles go to the right. A row stands for each router on the packet's
way, its source on top, and shows the input channel that the packet came in by, from the cycle in which its head came
until its tail has left. A bar is a stretch of cycles with one verdict of that channel, coloured by it, with its
cycles and verdict as a tooltip. Above them is the time in the queue of the source. At the right of each row stand its
cycles and the reason for which the packet stood still there longest.

CONFIG, TRAFFIC and F are files, one of them '-' for standard input. With --drain the run goes on until all packets
are out, as by 'noc run --drain'. The network is traced once; where that takes long, by several processes side by
side, as far as processors are free, each of which traces a part.

For example:

    noc-tools timeline config.toml traffic.csv 3 > life.svg
"""
from argparse import ArgumentParser, Namespace

from ..arguments import add_packet, add_run, run_of
from ..life import life_of
from ..timeline import picture


def add_arguments(parser: ArgumentParser) -> None:
    add_run(parser)
    add_packet(parser)


def main(options: Namespace) -> None:
    run = run_of(options)
    print(picture(life_of(run, options.packet)), end="")
