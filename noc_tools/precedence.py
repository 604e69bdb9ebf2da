"""Packets that wait for others: a traffic file with a column `after`, and when its packets are due.

A field of that column has the packets that have to be out first, each by its number and with the
cycles that pass from the one in which it was out: `12+40 17` waits for 40 cycles after packet 12,
and for packet 17. Spaces are between them, and a dash or nothing stands for none.
"""
import re
from collections.abc import Iterable, Sequence
from graphlib import CycleError, TopologicalSorter
from pathlib import Path
from typing import NamedTuple

from .errors import Refused, refusing
from .files import named_rows, read_lines
from .network import Network
from .replies import Outs
from .statistics import NEVER
from .traffic import AFTER, COLUMNS, LATEST_DUE, Row, fields, numbers_in

ONE_AFTER = re.compile(r"([^+]+)(?:\+(\d{1,9}))?")
NOBODY = ("", "-")
# How many runs are made before it is said that they do not settle.
MOST_RUNS = 1000


class After(NamedTuple):
    """A packet that has to be out first, and the cycles from then on."""

    packet: int
    delay: int


class Dependent(NamedTuple):
    """A packet that is due in the cycle of its row at the earliest, and after others."""

    row: Row
    afters: tuple[After, ...] = ()


def names_in(field: str) -> list[tuple[str, int]]:
    """The names of a field `after`, each with its delay; a ValueError where it is no such field."""
    found = []
    for word in [] if field in NOBODY else field.split():
        name = ONE_AFTER.fullmatch(word)
        if name is None:
            raise ValueError
        found.append((name[1], int(name[2] or 0)))
    return found


def afters_in(field: str) -> tuple[After, ...]:
    """The packets of a field `after`; a ValueError where these are no numbers."""
    return tuple(After(int(name), delay) for name, delay in names_in(field))


def field_of(afters: Iterable[After]) -> str:
    """What a field `after` says."""
    return " ".join(f"{after.packet}+{after.delay}" for after in afters) or "-"


def dependent_text(packets: Iterable[Dependent]) -> str:
    """A traffic file with a column `after`."""
    lines = (",".join(map(str, (*each.row, field_of(each.afters)))) for each in packets)
    return "\n".join([",".join([*COLUMNS, AFTER]), *lines, ""])


def read_dependents(path: str | Path) -> list[Dependent]:
    """The packets of a traffic file; without a column `after` none waits for another."""
    found = []
    lines = named_rows(read_lines(path, "traffic"), COLUMNS, "traffic", str(path))
    for number, line in enumerate(lines, 2):
        wanted = f"{path}: line {number} is not five numbers and packets with delays"
        with refusing(ValueError, wanted):
            found.append(Dependent(numbers_in(fields(line)), afters_in(line.get(AFTER, ""))))
    for number, packet in enumerate(found):
        for after in packet.afters:
            if not 0 <= after.packet < len(found):
                nobody = f"after packet {after.packet}, which there is not"
                raise Refused(f"{path}: packet {number} is {nobody}")
    return found


def in_order(packets: Sequence[Dependent]) -> list[int]:
    """The numbers of the packets, each behind those that it is after."""
    waits = {
        number: {after.packet for after in packet.afters} for number, packet in enumerate(packets)
    }
    try:
        return list(TopologicalSorter(waits).static_order())
    except CycleError as error:
        circle = ", ".join(map(str, error.args[1]))
        raise Refused(f"packets that are after one another are never due: {circle}") from None


def due_after(packet: Dependent, outs: Sequence[int]) -> int:
    """When a packet is due where others were out then; NEVER where one of these was not."""
    cycles = [outs[after.packet] + after.delay for after in packet.afters]
    return min(max(packet.row[4], *cycles), NEVER) if cycles else packet.row[4]


def alone_dues(packets: Sequence[Dependent], network: Network) -> list[int]:
    """When packets are due in a network in which each would be alone."""
    dues, outs = [0] * len(packets), [0] * len(packets)
    for number in in_order(packets):
        source, destination, _, length, _ = packets[number].row
        if not (0 <= source < network.nodes and 0 <= destination < network.nodes):
            raise Refused(f"packet {number} has a node that the network has not")
        dues[number] = due_after(packets[number], outs)
        outs[number] = dues[number] + 3 * network.distance(source, destination) + 1 + length
    return dues


def settled(
    packets: Sequence[Dependent], network: Network, outs: Outs, most: int = MOST_RUNS
) -> list[Row]:
    """The packets with the cycles in which they are due, but for those that are due after the run.

    Runs are made until no packet is due in another cycle than in the run before. What is due from
    some cycle on does not change what was before: so each run brings at least one cycle that stays.
    """
    # (from `end` on it makes no difference when a packet is due)
    end = min(network.cycles, LATEST_DUE + 1)
    dues = [min(due, end) for due in alone_dues(packets, network)]
    for _ in range(most):
        chosen = [number for number, due in enumerate(dues) if due < end]
        rows = [(*packets[number].row[:4], dues[number]) for number in chosen]
        found = [NEVER] * len(packets)
        for number, out in zip(chosen, outs(rows)):
            found[number] = out
        again = [min(due_after(packet, found), end) for packet in packets]
        if again == dues:
            return rows
        dues = again
    raise Refused(f"after {most} runs packets are still due in other cycles than in the run before")
