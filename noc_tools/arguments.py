"""Words that several commands share."""
import sys
from argparse import ArgumentParser, ArgumentTypeError, Namespace
from collections.abc import Iterable
from typing import Any

from .errors import Refused
from .program import processors
from .runs import Run
from .statistics import TOLERANCE, TOO_MUCH
from .traffic import PATTERN_NAMES, SHARE, Demand, lengths_in


def numbers(words: str) -> tuple[int, ...]:
    """Whole numbers with commas between them."""
    try:
        return tuple(int(word) for word in words.split(","))
    except ValueError:
        raise ArgumentTypeError(f"'{words}' is no list of numbers, as 0 or 0,2") from None


def burst(words: str) -> tuple[int, int]:
    """The cycles of a burst and of the pause behind it."""
    on, colon, off = words.partition(":")
    if not (on.isdecimal() and colon and off.isdecimal()):
        raise ArgumentTypeError(f"'{words}' is no ON:OFF, as 20:60")
    return int(on), int(off)


def lengths(words: str) -> tuple[int, ...]:
    """The lengths of packets."""
    try:
        return lengths_in(words)
    except Refused as reason:
        raise ArgumentTypeError(str(reason)) from None


def add(parser: Any, words: str, told: str, **more: Any) -> None:
    """An argument by its name and what stands for its value, as '--table F'; an option without that is a flag."""
    name, _, metavar = words.partition(" ")
    how = {"metavar": metavar} if metavar else {"action": "store_true"}
    parser.add_argument(name, help=told, **how, **more)


def add_length(parser: ArgumentParser) -> None:
    """The lengths of packets."""
    add(parser, "length LENGTH", "flits of a packet; with 1+8 each has one or eight, equally often", type=lengths)


def add_config(parser: ArgumentParser) -> None:
    """The configuration."""
    add(parser, "config CONFIG", "the configuration")


def add_table(parser: ArgumentParser) -> None:
    """The routing table."""
    add(parser, "--table F", "the routing table, where the rule is 'table'")


def table_words(options: Namespace) -> list[str]:
    """The routing table as words for noc."""
    return ["--table", options.table] if options.table else []


def add_run(parser: ArgumentParser) -> None:
    """A run."""
    add(parser, "config CONFIG", "the configuration ('-' is standard input, here and below)")
    add(parser, "traffic TRAFFIC", "the packets")
    add_table(parser)
    add(parser, "--drain", "a run that goes on until all packets are out, as by 'noc run --drain'")


def run_of(options: Namespace) -> Run:
    """The run that these words name."""
    return Run(options.config, options.traffic, options.table, options.drain)


PACKET_HELP = "its number: its row in the traffic"


def add_packet(parser: ArgumentParser) -> None:
    """A packet of the run."""
    add(parser, "packet PACKET", PACKET_HELP, type=int)


def add_span(parser: ArgumentParser) -> None:
    """A span of the run."""
    add(parser, "--from A", "the first cycle; 0 where not given", dest="first", type=int, default=0)
    add(parser, "--to B", "the last cycle; that of the run where not given", dest="last", type=int)


def span_of(run: Run, options: Namespace) -> tuple[int, int]:
    """The first and the last cycle that were asked for."""
    end = run.network.cycles
    last = end - 1 if options.last is None else options.last
    if not 0 <= options.first <= last < end:
        asked = f"{options.first} to {last}"
        raise Refused(f"the run has the cycles 0 to {end - 1}, and {asked} is no part of them")
    return options.first, last


def add_measured(parser: ArgumentParser, by_default: str) -> None:
    """The window in which packets are measured, and when it is steady."""
    add(parser, "--window A:B", f"measure the packets due in the cycles A to B - 1; by default {by_default}")
    told = f"by how much the halves of the window may differ ({TOLERANCE:g})"
    add(parser, "--tolerance PERCENT", told, type=float, default=TOLERANCE)


def add_jobs(parser: ArgumentParser) -> None:
    """How many runs are made at a time."""
    add(parser, "--jobs N", "make N runs at a time; by default one for each processor", type=int, default=processors())


def add_top(parser: ArgumentParser, words: str = "--top NUMBER", told: str = "where the vertical axis ends") -> None:
    """Where an axis ends."""
    add(parser, words, told, type=float)


def check_top(top: float | None) -> None:
    """Refuses an end of an axis that is none."""
    if top is not None and not 0 < top < TOO_MUCH:
        raise Refused(f"--top is a number above 0 and below {TOO_MUCH:g}")


def add_demand(parser: ArgumentParser) -> None:
    """What traffic is asked for, but for its pattern, load and length."""
    add(parser, "--seed N", "the seed of all that is random (1)", type=int, default=1)
    add(parser, "--cycles N", "packets are due before this cycle; by default all", type=int)
    add(parser, "--classes C,..", "the classes of the packets, equally often (0)", type=numbers, default=(0,))
    add(parser, "--spots NODE,..", "the nodes of hot-spot; by default the middle one", type=numbers)
    add(parser, "--share P", f"the share of the packets that goes to them ({SHARE:g})", type=float, default=SHARE)
    in_bursts = "make packets in bursts: so many cycles a node is on, and then off, on average"
    add(parser, "--burst ON:OFF", in_bursts, type=burst)


def demand_of(options: Namespace, load: float) -> Demand:
    """What these words ask for at a load."""
    given = options.seed, options.cycles, options.classes, options.spots, options.share, options.burst
    return Demand(options.pattern, load, options.length, *given)


PATTERN_HELP = ", ".join(PATTERN_NAMES)


def warn(options: Namespace, sentences: Iterable[str | None]) -> None:
    """Says on standard error what there is to say, in the name of the command."""
    for sentence in sentences:
        if sentence:
            print(f"{options.name}: {sentence}", file=sys.stderr)
