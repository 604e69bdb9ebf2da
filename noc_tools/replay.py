"""The page that plays a run: its frame, and the data of all changes of channels that it shows."""
import json
import re
from collections.abc import Iterable, Iterator, Sequence
from html import escape
from itertools import islice
from pathlib import Path
from typing import Any

from .errors import Refused
from .findings import NO_CHANNEL, OWNING, ROUTED, VERDICTS, WINNING, Finding, Place, finding_of
from .life import QUEUE
from .network import LOCAL, Network, split
from .palette import KINDS, STROKE, TILE
from .runs import Run

# The parts of the page: a frame, which says by their names where the others go.
PARTS = Path(__file__).resolve().with_name("replay_page")
FRAME = "frame.html"
MOST_CHANGES = 2_000_000
NONE = -1


class Names:
    """Texts that are named by their numbers."""

    def __init__(self, *texts: str) -> None:
        self.numbers = {text: number for number, text in enumerate(texts)}

    def number(self, text: str) -> int:
        """The number of a text."""
        return self.numbers.setdefault(text, len(self.numbers))


def changes_of(
    findings: Iterable[Finding], places: Sequence[Place], first: int, names: Names
) -> tuple[list[list[int]], dict[int, int]]:
    """The changes of each channel, five numbers each: the cycles since the one before (or the first), the verdict, the
    packet or -1, the output channel, and the channels that are permitted. And each packet with its first cycle."""
    changes: dict[Place, list[int]] = {place: [] for place in places}
    since = dict.fromkeys(places, first)
    came: dict[int, int] = {}
    for finding in findings:
        place = finding.place
        out, permitted = names.number(finding.out), names.number(" ".join(finding.permitted) or NO_CHANNEL)
        packet = NONE if finding.packet is None else finding.packet
        changes[place] += finding.cycle - since[place], VERDICTS.index(finding.verdict), packet, out, permitted
        since[place] = finding.cycle
        came.setdefault(packet, finding.cycle)
    came.pop(NONE, None)
    return list(changes.values()), came


def changes_within(run: Run, first: int, last: int) -> Iterator[Finding]:
    """The findings of these cycles; too many are refused, before one is looked at."""
    lines = list(islice(run.trace_lines(first=first, last=last, changes=True), MOST_CHANGES + 1))
    if MOST_CHANGES < len(lines):
        fits = finding_of(lines[-1]).cycle - 1
        too_many = f"the cycles {first} to {last} have more than {MOST_CHANGES} changes"
        raise Refused(f"{too_many}: those up to {fits} fit (--to {fits})")
    return map(finding_of, lines)


def data_of(run: Run, first: int, last: int) -> dict[str, Any]:
    """All that the page shows."""
    network = run.network
    names = Names(NO_CHANNEL)
    changes, came = changes_of(changes_within(run, first, last), network.places, first, names)
    kinds = [KINDS[verdict] for verdict in VERDICTS]
    places = ((router, *split(channel)) for router, channel in network.places)
    return {
        "radix": network.radix, "nodes": network.nodes, "vcs": network.channels, "ports": network.ports,
        "first": first, "last": last,
        "verdicts": VERDICTS, "colours": [kind.colour for kind in kinds], "meanings": [kind.meaning for kind in kinds],
        "signs": [[kind.sign, kind.ink] for kind in kinds], "tile": [TILE, STROKE],
        "queue": KINDS[QUEUE].colour,
        "owning": sorted(OWNING), "winning": {lost: sorted(winning) for lost, winning in WINNING.items()},
        "links": links_of(network),
        "channels": [[router, network.ports.index(port), number] for router, port, number in places],
        "names": list(names.numbers),
        "packets": packets_of(run, first, last, came),
        "changes": changes,
    }


def packets_of(run: Run, first: int, last: int, came: dict[int, int]) -> dict[int, list[int]]:
    """Each packet that is in a channel or a queue in these cycles: source, destination, length, due cycle, and the
    first of these cycles in which it is in a channel, or -1."""
    heads = run.trace(last=first - 1, verdicts=(ROUTED,)) if first else ()
    gone = {finding.packet for finding in heads if finding.channel.startswith(LOCAL)}
    packets = map(run.packet, range(len(run.rows)))
    return {
        each.number: [each.source, each.destination, each.length, each.due, came.get(each.number, NONE)]
        for each in packets if each.number in came or (each.due <= last and each.number not in gone)
    }


def links_of(network: Network) -> list[tuple[int, str, int]]:
    """Each link: a router, the port by which it leaves, and the router to which it leads."""
    found = []
    for router in range(network.nodes):
        for port in network.ports:
            end = network.neighbour(router, port)
            if end is not None:
                found.append((router, port, end))
    return found


def title_of(run: Run, first: int, last: int) -> str:
    """What the page plays, in one line."""
    network = run.network
    return (
        f"{run.config.name}, {run.traffic.name}: {network.shape}, {network.rule}, "
        f"channels {network.channels}, buffer {network.buffer}, cycles {first} to {last}"
    )


def page(run: Run, first: int, last: int) -> str:
    """The frame with the other parts, title and data put in, at once: a title may look like the place of the data."""
    parts = {f"@{path.name}@": path.read_text(encoding="utf-8") for path in PARTS.iterdir() if path.name != FRAME}
    text = json.dumps(data_of(run, first, last), separators=(",", ":")).replace("<", "\\u003c")
    put_in = {**parts, "@TITLE@": escape(title_of(run, first, last)), "@DATA@": text}
    frame = (PARTS / FRAME).read_text(encoding="utf-8")
    return re.sub("|".join(map(re.escape, put_in)), lambda place: put_in[place[0]], frame)
