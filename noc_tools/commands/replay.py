"""Makes a page that plays a run, cycle by cycle, in any browser.

The page has a picture of the network with a slider. It is one HTML file, which goes to standard output, and it needs
no server, no network and no other file. Each router is coloured by what its input channels do in the cycle that is
shown. Purple arrows lead from the packet that is followed to the one that keeps it, and red ones are where packets
wait for one another in a circle; those of all channels that wait, or one for each router, can be had. A click on a
router lists its channels with verdict, packet, output channel, the channels that its packet is permitted, and the
packets that it waits for; a click on a packet follows it, step by step to the packet that keeps it.
PAGE.html#cycle=20&router=1&packet=3 opens the page at a moment, and its picture can be saved as an SVG file.

CONFIG, TRAFFIC and F are files, one of them '-' for standard input. With --drain the run goes on until all packets
are out, as by 'noc run --drain'. The network is traced once. A page has at most 2,000,000 changes of channels, which
is some 30 MB; of a longer run take the cycles A to B, and the command says which would fit.

For example:

    noc-tools replay config.toml traffic.csv > run.html
"""
import sys
from argparse import ArgumentParser, Namespace

from ..arguments import add_run, add_span, run_of, span_of
from ..replay import page


def add_arguments(parser: ArgumentParser) -> None:
    add_run(parser)
    add_span(parser)


def main(options: Namespace) -> None:
    run = run_of(options)
    sys.stdout.write(page(run, *span_of(run, options)))
