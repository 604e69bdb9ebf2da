"""Writes what channels do in each cycle as a VCD file for GTKWave.

A VCD file (value change dump, IEEE 1364) has here a scope for each router, and in it one for each of its input ports
that has a link: plus_0 and minus_0 for the ports +0 and -0, and so on, and local. Channel n of a port is three
variables, which also have the port in their names, here PORT:

    PORT_verdict_n    a string of the ten verdicts
    PORT_packet_n     the number of the packet that it holds, or z in all bits where it is empty
    PORT_out_n        a string of the output channel that the packet asks for, is granted or owns, or '-'

Strings are no part of IEEE 1364, but GTKWave and other viewers take them. A cycle of the network is one unit of time,
shown as a nanosecond. With --gtkw a second file tells GTKWave which signals to show: all, with a group for each port,
and for each router a group of these, which is closed where there are several routers. 'gtkwave WAVES FILE' opens both.

CONFIG, TRAFFIC and F are files, one of them '-' for standard input. With --drain the run goes on until all packets
are out, as by 'noc run --drain'. The network is traced once, and waves are written as it goes.

For example:

    noc-tools waves config.toml traffic.csv > waves.vcd
"""
import sys
from argparse import ArgumentParser, Namespace
from collections.abc import Iterable, Iterator, Sequence
from itertools import chain, count, groupby

from ..arguments import add, add_run, add_span, run_of, span_of
from ..errors import Refused
from ..files import check_output, put
from ..findings import Finding, Place, empty
from ..network import split
from ..signals import OUT, PACKET, VERDICT

# The characters of which VCD makes the signs of its variables.
FIRST_SIGN, SIGNS = 33, 94
BITS = 32
# The signs of a channel's verdict, packet and output channel.
Signs = tuple[str, str, str]
# How GTKWave shows a variable: a string as it is, and a number in decimal. And how it takes groups: one that is open or
# closed begins, and ends.
AS_TEXT, AS_NUMBER = "@28", "@420"
OPEN, CLOSED = ("@800200", "@1000200"), ("@c00200", "@1401200")


def add_arguments(parser: ArgumentParser) -> None:
    add_run(parser)
    add_span(parser)
    add(parser, "--router R", "this router alone", type=int)
    add(parser, "--gtkw FILE", "write a file that has GTKWave show all signals")


def sign_of(number: int) -> str:
    """A short sign for each number, no two alike."""
    sign = chr(FIRST_SIGN + number % SIGNS)
    while number := number // SIGNS:
        sign += chr(FIRST_SIGN + number % SIGNS)
    return sign


def scope_of(port: str) -> str:
    """The name of a port's scope."""
    return port.replace("+", "plus_").replace("-", "minus_")


def variable(port: str, kind: str, number: int) -> str:
    """The name of a variable of a channel, which is whole also where a viewer shows no scopes."""
    return f"{scope_of(port)}_{kind}_{number}"


def routers_of(places: Iterable[Place]) -> Iterator[tuple[int, list[tuple[str, list[int]]]]]:
    """Each router with its ports, and each of these with the numbers of its channels."""
    for router, some in groupby(places, key=lambda place: place[0]):
        channels = [split(channel) for _, channel in some]
        yield router, [(port, [number for _, number in found]) for port, found in groupby(channels, lambda it: it[0])]


def declarations(signs: dict[Place, Signs]) -> Iterator[str]:
    """The head of the file: a scope for each router and port, and in it the variables of its channels."""
    yield "$comment The input channels of a network of noc; a unit of time is a cycle. $end"
    yield "$timescale 1 ns $end"
    yield "$scope module noc $end"
    for router, ports in routers_of(signs):
        yield f"$scope module router_{router} $end"
        for port, numbers in ports:
            yield f"$scope module {scope_of(port)} $end"
            for number in numbers:
                verdict, packet, out = signs[router, f"{port}.{number}"]
                yield f"$var string 1 {verdict} {variable(port, VERDICT, number)} $end"
                yield f"$var integer {BITS} {packet} {variable(port, PACKET, number)} $end"
                yield f"$var string 1 {out} {variable(port, OUT, number)} $end"
            yield "$upscope $end"
        yield "$upscope $end"
    yield "$upscope $end"
    yield "$enddefinitions $end"


def shown_signals(places: Sequence[Place], first: int) -> Iterator[str]:
    """The lines of a file for GTKWave: all signals, in a group for each port, and these in one for each router."""
    begin, end = OPEN if len({router for router, _ in places}) == 1 else CLOSED
    yield f"[timestart] {first}"
    for router, ports in routers_of(places):
        yield from (begin, f"-router {router}")
        for port, numbers in ports:
            yield from (OPEN[0], f"-{port}")
            for kind, number in ((kind, number) for number in numbers for kind in (VERDICT, PACKET, OUT)):
                yield AS_NUMBER if kind == PACKET else AS_TEXT
                yield f"noc.router_{router}.{scope_of(port)}.{variable(port, kind, number)}"
            yield from (OPEN[1], f"-{port}")
        yield from (end, f"-router {router}")


def changes(before: Finding | None, finding: Finding, signs: Signs) -> Iterator[str]:
    """What is said of a channel that was not said before."""
    verdict_sign, packet_sign, out_sign = signs
    if before is None or before.verdict != finding.verdict:
        yield f"s{finding.verdict} {verdict_sign}"
    if before is None or before.packet != finding.packet:
        yield f"b{'z' if finding.packet is None else format(finding.packet, 'b')} {packet_sign}"
    if before is None or before.out != finding.out:
        yield f"s{finding.out} {out_sign}"


def waves(findings: Iterable[Finding], places: Sequence[Place], first: int, last: int) -> Iterator[str]:
    """The lines of the file, from a trace of changes. Its first cycle says all of each channel."""
    numbers = count()
    signs = {place: (sign_of(next(numbers)), sign_of(next(numbers)), sign_of(next(numbers))) for place in places}
    yield from declarations(signs)
    nothing = (empty(place, first) for place in places)
    said: dict[Place, Finding] = {}
    for cycle, found in groupby(chain(nothing, findings), key=lambda finding: finding.cycle):
        yield f"#{cycle}"
        if cycle == first:
            yield "$dumpvars"
        for place, finding in {finding.place: finding for finding in found}.items():
            yield from changes(said.get(place), finding, signs[place])
            said[place] = finding
        if cycle == first:
            yield "$end"
    yield f"#{last + 1}"


def main(options: Namespace) -> None:
    run = run_of(options)
    first, last = span_of(run, options)
    if options.router is not None and not 0 <= options.router < run.network.nodes:
        raise Refused(f"there is no router {options.router}: the network has {run.network.nodes}")
    findings = run.trace(first=first, last=last, router=options.router, changes=True)
    places = [place for place in run.network.places if options.router in (None, place[0])]
    if options.gtkw:
        text = "".join(f"{line}\n" for line in shown_signals(places, first))
        check_output(options.gtkw, text.partition(" ")[0], (options.config, options.traffic, options.table))
        put(options.gtkw, text)
    sys.stdout.writelines(f"{line}\n" for line in waves(findings, places, first, last))
