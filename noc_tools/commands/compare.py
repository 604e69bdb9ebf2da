"""Finds the first cycle in which a design in RTL differs from noc.

It also says at which channel. REFERENCE.vcd is what 'noc-tools waves' writes of a run, and DUT.vcd is the dump of a
simulation of the design with the same packets. Of a dump in the form FST 'fst2vcd' makes one: in bash <(fst2vcd
DUT.fst) stands in its place. The map says in TOML which signals of the design stand for what the model says of an
input channel:

    clock = "bench.clock"           # sampled before its edges; edge = "falling" for these
    offset = 3                      # so many edges come before the one that ends cycle 0; found if not given
    scope = "bench.network"         # what stands before the names of signals
    [signals]
    moved = "node[{router}].router.moved[{index}]"
    packet = "node[{router}].router.holder[{16 * index + 15}:{16 * index}]"

A signal is a verdict as in the headers of reports (moved, granted, no_credit ..), which is one bit, or 'verdict' (its
code), 'packet' or 'out' (the index of the output channel). In braces stand router, port, channel (its number), index
(port times channels, and number), and arithmetic with these. docs/RTL.md tells all of maps.

The status is 0 where all cycles that both files have agree, and 8 where a signal differs. Then the first difference is
told: the cycle, the router and the channel, what the model does there and why, and the signal of the design. With
--from only cycles from A on are compared, as where a design begins in another state.

What agrees is worth as much as it has tried: a line says which of the ten verdicts did not occur in the cycles that
were compared. With --coverage a table follows, of the cycles in which the channels of each port had each verdict.

For example:

    noc-tools compare model.vcd dut.vcd --map map.toml
"""
from argparse import ArgumentParser, Namespace
from collections.abc import Iterator

from ..arguments import add
from ..comparison import Answer, Comparison, Coverage, compared
from ..difference import lines_of
from ..errors import Refused
from ..findings import COLUMNS, VERDICTS
from ..network import split
from ..signals import SignalMap
from ..words import counted, stretch

DIFFERS = 8


def add_arguments(parser: ArgumentParser) -> None:
    add(parser, "reference REFERENCE.vcd", "the waves of the model")
    add(parser, "design DUT.vcd", "the waves of the design")
    add(parser, "--map FILE", "the map of signals", required=True)
    add(parser, "--from A", "the first cycle that is compared (0)", dest="first", type=int, default=0)
    add(parser, "--coverage", "a table of the verdicts that occurred at each port")


def told_of_verdicts(coverage: Coverage) -> str:
    """Which verdicts did not occur."""
    missing = [verdict for verdict in VERDICTS if not coverage.of(verdict)]
    told = f"all but {', '.join(missing)}" if missing else "all ten"
    return f"Verdicts that occur there: {told}."


def table_of(compares: Comparison) -> Iterator[str]:
    """The cycles in which the channels of each port had each verdict, as CSV."""
    counts = compares.coverage.counts
    yield ",".join(["port", *COLUMNS.values()])
    for port in dict.fromkeys(split(channel)[0] for _, channel in compares.model.places):
        yield ",".join([port, *(str(counts[port, verdict]) for verdict in VERDICTS)])


def lines_of_difference(answer: Answer) -> Iterator[str]:
    """The first difference, and the offset that fits where there is another one."""
    assert answer.found is not None
    yield from lines_of(answer.found, answer.names.verdicts)
    if answer.fitting is not None:
        yield f"With offset = {answer.fitting} in the map all cycles agree."


def main(options: Namespace) -> int | None:
    given = SignalMap.read(options.map)
    answer = compared(options.reference, options.design, given, options.first)
    if answer.found is not None:
        print(*lines_of_difference(answer), sep="\n")
        return DIFFERS
    compares, names = answer.comparison, answer.names
    cycles = compares.cycles
    if not cycles:
        asked = f"from cycle {options.first} on " if options.first else ""
        raise Refused(f"{options.reference} and {options.design} have no cycle {asked}in common: is the offset right?")
    span, channels = stretch(cycles.start, cycles.stop - 1), counted(len(compares.model.places), "channel")
    offset = "" if given.offset is not None else f" The offset is {names.offset}."
    print(f"{counted(len(cycles), 'cycle')} ({span}) of {channels} agree: {', '.join(names.patterns)}.{offset}")
    print(told_of_verdicts(compares.coverage))
    if options.coverage:
        print(*table_of(compares), sep="\n")
    return None
