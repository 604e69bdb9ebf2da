"""Makes a traffic file of a plain trace.

A program that watches another simulator or a chip can write such a trace. TRACE is CSV, and its first line has the
names of its columns, in any order: time, source, destination, bytes, and kind where packets are of several kinds.
Other columns are not looked at. A packet is due in the cycle time * FACTOR, rounded down; with --from A times are
counted from A on. It has as many flits as its bytes take, the last of them filled up, and one at least; one of more
than 64 flits goes as several packets. Its class is the one that --kind gives to its kind, else 0. What a node sends
to itself is left out.

A message may wait for others: with a column after, such as 'a7+40 b2', for 40 units of time after the message a7 was
out, and for b2. The names stand in a column id; without it a message is named by its row, counted from 0. Then the
traffic has a column after too, and 'noc-tools settle' works out when its packets are due.

A node has one queue for all its packets. So what a trace hands in at once, as a memory its answers, keeps all later
packets of the node waiting, whatever their class. With --pace RATE what a node hands in of a class is spread: at most
RATE flits a cycle, as by a unit that moves data piece by piece. A packet is then due when the packets of its node and
class before it allow, and not before its own time. Other classes and other nodes do not delay it.

Where there are more than the 20,000 packets that noc takes, the last cycles are left out, and a line to standard error
says so.

For example:

    noc-tools packets config.toml trace.csv 16 --factor 0.5 --kind read=0 write=1 > traffic.csv
"""
import math
from argparse import ArgumentParser, ArgumentTypeError, Namespace
from collections.abc import Iterable, Iterator, Mapping, Sequence
from fractions import Fraction
from operator import itemgetter
from typing import NamedTuple

from ..arguments import add, add_config, warn
from ..errors import Refused, refusing
from ..files import named_rows, read_lines
from ..network import Network, read_bounded_network
from ..precedence import NOBODY, After, Dependent, dependent_text, names_in
from ..traffic import LATEST_DUE, LONGEST, MOST_PACKETS, Row, check_classes, fitting, traffic_text

TRACE_COLUMNS = ["time", "source", "destination", "bytes"]


class Message(NamedTuple):
    """A message as a packet of any length, with its name and what stands in its column `after`."""

    row: Row
    name: str
    after: str


def kind_of(words: str) -> tuple[str, int]:
    """A kind and the class of its packets."""
    name, equals, number = words.rpartition("=")
    if not equals or not number.isdecimal():
        raise ArgumentTypeError(f"'{words}' is no KIND=CLASS, as reply=1")
    return name, int(number)


def add_arguments(parser: ArgumentParser) -> None:
    add_config(parser)
    add(parser, "trace TRACE", "the trace")
    add(parser, "flit_bytes BYTES", "the bytes of a flit", type=int)
    add(parser, "--factor FACTOR", "how many cycles a unit of time has (1)", type=float, default=1)
    add(parser, "--from A", "the time of cycle 0", dest="first", type=float, default=0)
    add(parser, "--pace RATE", "the most flits a cycle that a node hands in of a class, up to 1", type=float)
    add(parser, "--kind KIND=CLASS", "the classes of kinds; by default 0", nargs="+", type=kind_of, default=[])


def count_of(message: Row) -> int:
    """For how many packets a message counts."""
    return -(-message[3] // LONGEST)


def packets_of(messages: Iterable[Row]) -> Iterator[Row]:
    """The packets of messages: of one that is longer than a packet several."""
    for source, destination, message_class, flits, due in messages:
        for first in range(0, flits, LONGEST):
            yield source, destination, message_class, min(LONGEST, flits - first), due


def paced(packets: Iterable[Row], rate: float) -> Iterator[Row]:
    """The packets with later due times, so that a node hands in at most so many flits a cycle of a class."""
    free: dict[tuple[int, int], Fraction] = {}
    flits = Fraction(repr(rate))
    for source, destination, message_class, length, due in sorted(packets, key=itemgetter(4)):
        due = max(due, math.ceil(free.get((source, message_class), due)))
        if LATEST_DUE < due:
            raise Refused(f"by this pace a packet is due in cycle {due}: noc takes 0 to {LATEST_DUE}")
        free[source, message_class] = due + length / flits
        yield source, destination, message_class, length, due


def messages_of(options: Namespace, network: Network, classes: Mapping[str, int]) -> Iterator[Message]:
    """The messages of the trace."""
    lines = named_rows(read_lines(options.trace, "trace"), TRACE_COLUMNS, "trace", options.trace)
    unseen = set(classes)
    for number, line in enumerate(lines, 2):
        with refusing((ValueError, OverflowError), f"{options.trace}: line {number} has no time, nodes and bytes"):
            due = math.floor((float(line["time"]) - options.first) * options.factor)
            source, destination, size = (int(line[name]) for name in ("source", "destination", "bytes"))
            if size < 0:
                raise ValueError
        if not (0 <= source < network.nodes and 0 <= destination < network.nodes):
            raise Refused(f"{options.trace}: line {number} has a node that the network has not")
        if not 0 <= due <= LATEST_DUE:
            raise Refused(f"{options.trace}: line {number} is due in cycle {due}: noc takes 0 to {LATEST_DUE}")
        kind = line.get("kind", "")
        unseen.discard(kind)
        if source != destination:
            flits = max(1, -(-size // options.flit_bytes))
            row = source, destination, classes.get(kind, 0), flits, due
            yield Message(row, line.get("id", str(number - 2)), line.get("after", ""))
    if unseen:
        raise Refused(f"{options.trace} has no packet of the kind '{min(unseen)}'")


def dependents_of(messages: Sequence[Message], factor: float) -> list[Dependent]:
    """The packets of messages that wait for others: each for all packets of these."""
    rows: list[Row] = []
    numbers: dict[str, range] = {}
    for message in messages:
        if message.name in numbers:
            raise Refused(f"two messages are called '{message.name}'")
        first = len(rows)
        rows += packets_of([message.row])
        numbers[message.name] = range(first, len(rows))
    found = []
    for message in messages:
        with refusing(ValueError, f"'{message.after}' is no list of messages with delays, as a7+40"):
            names = names_in(message.after)
        for name, _ in names:
            if name not in numbers:
                raise Refused(f"message '{message.name}' is after '{name}', which no packet is of")
        afters = tuple(
            After(number, math.floor(delay * factor)) for name, delay in names for number in numbers[name]
        )
        found += [Dependent(rows[number], afters) for number in numbers[message.name]]
    return found


def main(options: Namespace) -> None:
    network, classes = read_bounded_network(options.config), dict(options.kind)
    if options.flit_bytes < 1 or not 0 < options.factor < float("inf"):
        raise Refused("BYTES is a whole number above 0, and FACTOR a number above 0")
    if options.pace is not None and not 0 < options.pace <= 1:
        raise Refused("RATE is a number above 0 and at most 1")
    check_classes(classes.values(), network)
    given = list(messages_of(options, network, classes))
    messages = [message.row for message in given]
    kept, end = fitting(messages, LATEST_DUE, count_of)
    if any(message.after not in NOBODY for message in given):
        if options.pace is not None:
            raise Refused("--pace is for a trace of which no message waits for others")
        if len(kept) < len(messages):
            raise Refused(f"noc takes {MOST_PACKETS} packets, and none of those is left out that others wait for")
        print(dependent_text(dependents_of(given, options.factor)), end="")
        return
    packets = packets_of(kept)
    print(traffic_text(packets if options.pace is None else paced(packets, options.pace)), end="")
    if len(kept) < len(messages):
        counts = (sum(map(count_of, some)) for some in (messages, kept))
        told = "noc takes {} packets, so of {} the {} due before cycle {} are kept".format(MOST_PACKETS, *counts, end)
        warn(options, [told])
