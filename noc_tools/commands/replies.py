"""Adds to a traffic a reply to each request.

A reply is due some cycles after the one in which its request was out. TRAFFIC has the requests, which are the packets
of one class, and may have others. The network is run with them, and each request that is out is answered by a packet
from its destination to its source. Replies delay requests, which then come out later; so the network is run again and
again, until no reply is due in another cycle than in the run before. Then the traffic of requests and replies goes to
standard output, the replies behind all others. A reply that would be due after the end of the run is left out.

With --then replies are answered in turn, as by acknowledgements. Each --then answers the packets of the level before
it. All levels are made in one call. A traffic that has replies already is refused, since packets that come beside them
would change when they are due.

For example:

    noc-tools replies config.toml requests.csv 8 40 --then 2:1:10 > traffic.csv
"""
from argparse import ArgumentParser, ArgumentTypeError, Namespace
from pathlib import Path
from tempfile import TemporaryDirectory

from ..arguments import add, add_config, add_table
from ..errors import Refused
from ..measure import Experiment
from ..network import Network
from ..replies import Levels, Replies
from ..statistics import Window
from ..traffic import Played


def level(words: str) -> tuple[int, int, int]:
    """The class, the length and the delay of replies to replies."""
    parts = words.split(":")
    if len(parts) != 3 or not all(part.isascii() and part.isdecimal() for part in parts):
        raise ArgumentTypeError(f"'{words}' is no CLASS:LENGTH:DELAY, as 2:1:20")
    message_class, length, delay = map(int, parts)
    return message_class, length, delay


def add_arguments(parser: ArgumentParser) -> None:
    add_config(parser)
    add(parser, "traffic TRAFFIC", "the packets but for replies")
    add(parser, "length LENGTH", "flits of a reply", type=int)
    delay = "cycles from the one in which a request was out to that in which its reply is due"
    add(parser, "delay DELAY", delay, type=int)
    add(parser, "--to C", "the class of requests (0)", type=int, default=0)
    add(parser, "--by C", "the class of replies (1)", type=int, default=1)
    again = "answer the replies in turn: by packets of this class, so many flits, so many cycles later"
    add(parser, "--then C:LENGTH:DELAY", again, type=level, action="append", default=[])
    add_table(parser)


def levels_of(options: Namespace) -> Levels:
    """The replies that are asked for, level by level."""
    levels = [Replies(options.to, options.by, options.length, options.delay)]
    for message_class, length, delay in options.then:
        levels.append(Replies(levels[-1].by, message_class, length, delay))
    return tuple(levels)


def main(options: Namespace) -> None:
    network = Network.read(options.config)
    window = Window(0, network.cycles)
    experiment = Experiment(network, Played(options.traffic), window, options.table, replies=levels_of(options))
    experiment.check()
    with TemporaryDirectory(prefix="noc-replies-") as folder:
        files = experiment.files_in(Path(folder))
        if files.cycles < network.cycles:
            raise Refused(f"with replies these are more packets than noc takes: those of {files.cycles} cycles fit")
        print(files.traffic.read_text(), end="")
