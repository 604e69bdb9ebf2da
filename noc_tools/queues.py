"""Classes in the queues of the nodes: a node has one queue for all of them, so one class may wait behind another."""
from collections import Counter
from collections.abc import Iterator, Sequence
from typing import NamedTuple

from .causes import Since, parts_by
from .statistics import NEVER, Columns, Window

# A class is told of that spends more than this part of its latency in queues, and of that more than this part behind
# another class.
MOST = 0.5
# The part of the packets of a class that are its slowest.
SLOWEST = 0.01


class Wait(NamedTuple):
    """The cycles of some packets of a class: of their lives, in queues, and there behind each class."""

    life: int
    queue: int
    behind: Counter[int]


def entries_by_node(packets: Columns) -> dict[int, list[Since]]:
    """For each node since when a packet of which class was the last that came in."""
    found: dict[int, list[Since]] = {}
    for entry, source, message_class in sorted(zip(packets.entries, packets.sources, packets.classes)):
        if entry < NEVER:
            found.setdefault(source, []).append((entry, message_class))
    return found


def wait_of(packets: Columns, places: Sequence[int], came_in: dict[int, list[Since]], end: int) -> Wait:
    """How these packets, by their places, spent their lives before the end of a run."""
    life = queue = 0
    behind: Counter[int] = Counter()
    for place in places:
        due = packets.dues[place]
        last = min(packets.entries[place], end)
        life += min(packets.outs[place], end) - due
        queue += last - due
        if due < last:
            for message_class, cycles in parts_by(came_in[packets.sources[place]], due, last):
                behind[message_class] += cycles
    return Wait(life, queue, behind)


def sentence(name: str, own: int, wait: Wait) -> str | None:
    """Where packets of a class waited mostly in queues, and mostly behind another class."""
    others = Counter({other: cycles for other, cycles in wait.behind.items() if other != own})
    if not others or wait.queue <= MOST * wait.life:
        return None
    ((other, cycles),) = others.most_common(1)
    if cycles <= MOST * wait.queue:
        return None
    parts = f"{100 * wait.queue / wait.life:.0f} percent of its latency"
    told = f"{name} spends {parts} in the queues of the nodes, {100 * cycles / wait.queue:.0f} percent of that"
    return f"{told} behind class {other}: a node has one queue for all classes"


def told_of_queues(packets: Columns, window: Window, cycles: int) -> Iterator[str]:
    """A sentence for each class that waited mostly in queues behind another one: of its packets that are due in the
    window, or else of the slowest hundredth of these."""
    came_in = entries_by_node(packets)
    end = max([cycles, *(out + 1 for out in packets.outs if out < NEVER)])
    measured = [place for place, due in enumerate(packets.dues) if window.has(due)]
    for own in sorted({packets.classes[place] for place in measured}):
        places = [place for place in measured if packets.classes[place] == own]
        places.sort(key=lambda place: packets.dues[place] - packets.outs[place])
        few = places[:max(1, round(SLOWEST * len(places)))]
        for name, some in ((f"class {own}", places), (f"the slowest hundredth of class {own}", few)):
            told = sentence(name, own, wait_of(packets, some, came_in, end))
            if told:
                yield told
                break
