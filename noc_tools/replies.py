"""Replies: packets that are due when the packets that they answer were out, and replies to these in turn."""
from collections import Counter
from collections.abc import Callable, Iterable, Sequence
from itertools import permutations
from typing import NamedTuple

from .errors import Refused
from .network import Network
from .statistics import NEVER
from .traffic import LONGEST, Row

# From packets to the cycles in which they were out, in the order of the packets.
Outs = Callable[[Sequence[Row]], Sequence[int]]


class Replies(NamedTuple):
    """Each packet of the class `to` is answered by one of the class `by`, due so many cycles after it was out."""

    to: int
    by: int
    length: int
    delay: int

    def check(self, network: Network) -> None:
        """Refuses what cannot be had of a network."""
        if self.to == self.by or not all(number < network.classes for number in (self.to, self.by)):
            raise Refused(f"replies are of another class than requests, and the classes are 0 to {network.classes - 1}")
        if not 1 <= self.length <= LONGEST:
            raise Refused(f"the length of a reply is 1 to {LONGEST}")
        if self.delay < 0:
            raise Refused("a reply is due 0 cycles after its request was out, or more")

    def rows(self, requests: Iterable[Row], outs: Iterable[int], cycles: int) -> list[Row]:
        """The replies that are due before the end of the run, in the order of the requests."""
        return [
            (destination, source, self.by, self.length, out + self.delay)
            for (source, destination, message_class, _, _), out in zip(requests, outs)
            if message_class == self.to and out + self.delay < cycles and out < NEVER
        ]


# Replies to the packets of a traffic, and behind them replies to these.
Levels = tuple[Replies, ...]


def check_levels(levels: Levels, network: Network) -> None:
    """Refuses what cannot be had of a network, and replies that an earlier level should have answered."""
    answered: set[int] = set()
    for level in levels:
        level.check(network)
        answered.add(level.to)
        if level.by in answered:
            raise Refused(f"replies of the class {level.by} would have to be answered again, without an end")


def weight_of(levels: Levels, row: Row) -> int:
    """For how many packets one counts with its replies, and their replies."""
    counts = {row[2]: 1}
    for level in levels:
        counts[level.by] = counts.get(level.by, 0) + counts.get(level.to, 0)
    return sum(counts.values())


def settled(requests: Sequence[Row], levels: Levels, outs: Outs, cycles: int) -> list[Row]:
    """The requests, and behind them the replies, level by level, as they come in a run of all.

    Runs are made until no reply is due in another cycle than in the run before. What is due from some cycle on does
    not change what was before: so each run brings at least one cycle more that stays, and this ends.
    """
    ends = outs(requests)
    check_unanswered(requests, ends)
    made: list[list[Row]] = [[] for _ in levels]
    while True:
        again = answers(levels, [requests, *made], ends, cycles)
        rows = [*requests, *(row for replies in again for row in replies)]
        if again == made:
            return rows
        made, ends = again, outs(rows)


def answers(levels: Levels, packets: Sequence[Sequence[Row]], ends: Sequence[int], cycles: int) -> list[list[Row]]:
    """The replies of each level to the packets before it, of which are known when they were out: those of the traffic,
    and then those of each level."""
    found, before = [], list[Row]()
    for level, some in zip(levels, packets):
        before += some
        found.append(level.rows(before, ends, cycles))
    return found


# ---- replies that are there already


def check_unanswered(rows: Sequence[Row], ends: Sequence[int]) -> None:
    """Refuses packets that are replies to others of them: behind further packets they would be due in other cycles."""
    classes = sorted({row[2] for row in rows})
    for to, by in permutations(classes, 2):
        delay = delay_between(rows, ends, to, by)
        if delay is not None:
            told = f"the packets of the class {by} are replies to those of the class {to}, {delay} cycles later"
            raise Refused(f"{told}; more packets would change when: all replies are made in one call (--then)")


def delay_between(rows: Sequence[Row], ends: Sequence[int], to: int, by: int) -> int | None:
    """How many cycles after packets of one class were out all those of another one are due, which go back from where
    these went; None where they are no such replies, or a single one."""
    replies = Counter((row[0], row[1], row[4]) for row in rows if row[2] == by)
    asked = [(row[1], row[0], end) for row, end in zip(rows, ends) if row[2] == to and end < NEVER]
    if replies.total() < 2 or not asked:
        return None
    # (the first reply is that to the first packet that was out)
    delay = min(due for *_, due in replies) - min(end for *_, end in asked)
    expected = Counter((source, destination, end + delay) for source, destination, end in asked)
    return delay if 0 <= delay and replies <= expected else None
