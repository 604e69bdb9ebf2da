"""Packets and traffic: reading and writing them, patterns, and making traffic of a pattern and a load."""
from collections.abc import Callable, Iterable, Iterator, Sequence
from dataclasses import dataclass, field
from itertools import islice, repeat
from operator import itemgetter
from pathlib import Path
from random import Random

from .errors import Refused, refusing
from .files import csv_rows, named_rows, read_lines
from .network import MOST_CYCLES, MOST_DRAINED, Network

# A pattern gives the destination of a packet from the generator and its source.
Pattern = Callable[[Random, int], int]


def below(random: Random, bound: int) -> int:
    """A number from 0 to bound - 1, all alike, by one draw."""
    return int(random.random() * bound)


def uniform(nodes: int) -> Pattern:
    """All other nodes alike."""
    def destination(random: Random, source: int) -> int:
        other = below(random, nodes - 1)
        return other + 1 if other >= source else other

    return destination


def hot_spot(nodes: int, spots: Sequence[int], share: float) -> Pattern:
    """One of some nodes for a share of the packets, and else uniform."""
    elsewhere = uniform(nodes)

    def destination(random: Random, source: int) -> int:
        is_hot, spot = random.random() < share, spots[below(random, len(spots))]
        other = elsewhere(random, source)
        return spot if is_hot and spot != source else other

    return destination


def permutation(nodes: int, random: Random) -> Pattern:
    """For each node always the same one, and for no two the same: one of all such choices, all alike."""
    goals = list(range(nodes))
    for place in range(nodes - 1, 0, -1):
        other = below(random, place + 1)
        goals[place], goals[other] = goals[other], goals[place]
    return lambda _, source: goals[source]


def by_bits(network: Network, bit_of: Callable[[int, int, list[int]], int]) -> Pattern:
    """The pattern in which `bit_of` gives each bit of the destination from its number, b and the bits of the source."""
    b = network.nodes.bit_length() - 1
    if network.nodes != 1 << b:
        raise Refused(f"{network.nodes} nodes are no power of two, which a pattern by bits needs")

    def destination(_: Random, source: int) -> int:
        bits = [source >> i & 1 for i in range(b)]
        return sum(bit_of(i, b, bits) << i for i in range(b))

    return destination


def by_coordinates(network: Network, moved: Callable[[int, int], int]) -> Pattern:
    """The pattern in which `moved` gives each coordinate of the destination from the radix and that of the source."""
    def destination(_: Random, source: int) -> int:
        return network.node_at([moved(k, x) % k for k, x in zip(network.radix, network.coordinates(source))])

    return destination


def transpose(network: Network) -> Pattern:
    """Over the diagonal of a square, and by bits elsewhere; both are the same where a radix is a power of two."""
    if len(network.radix) == 2 and network.radix[0] == network.radix[1]:
        return lambda _, source: network.node_at(network.coordinates(source)[::-1])
    pattern = by_bits(network, lambda i, b, bits: bits[(i + b // 2) % b])
    if network.nodes.bit_length() % 2 == 0:
        needs = "transpose needs a square, or nodes with an even number of bits"
        raise Refused(f"{needs}, which {network.nodes} nodes do not have")
    return pattern


# In these a node sends always to the same one, which its number or its place says.
FIXED: dict[str, Callable[[Network], Pattern]] = {
    "bit-complement": lambda network: by_bits(network, lambda i, b, bits: 1 - bits[i]),
    "bit-reverse": lambda network: by_bits(network, lambda i, b, bits: bits[b - 1 - i]),
    "bit-rotation": lambda network: by_bits(network, lambda i, b, bits: bits[(i + 1) % b]),
    "shuffle": lambda network: by_bits(network, lambda i, b, bits: bits[(i - 1) % b]),
    "transpose": transpose,
    "tornado": lambda network: by_coordinates(network, lambda k, x: x + (k + 1) // 2 - 1),
    "neighbour": lambda network: by_coordinates(network, lambda k, x: x + 1),
}
UNIFORM, PERMUTATION, HOT_SPOT = "uniform", "permutation", "hot-spot"
PATTERN_NAMES = [UNIFORM, *FIXED, PERMUTATION, HOT_SPOT]


def fixed(network: Network, name: str) -> Pattern:
    """A fixed pattern, with each destination worked out once."""
    pattern, nothing = FIXED[name](network), Random()
    goals = [pattern(nothing, node) for node in range(network.nodes)]
    return lambda _, source: goals[source]


def middle(network: Network) -> int:
    """The node in the middle."""
    return network.node_at([k // 2 for k in network.radix])


COLUMNS = ["source", "destination", "class", "length", "due"]
HEADER = ",".join(COLUMNS)
# The column of a traffic whose packets wait for others (noc_tools/precedence.py).
AFTER = "after"
fields = itemgetter(*COLUMNS)
REPORT_COLUMNS = ["packet", *COLUMNS, "out", "latency"]
MOST_PACKETS, LATEST_DUE, LONGEST = 20000, 1000000, 64
SHARE = 0.2
# The fields of a packet in a traffic file.
Row = tuple[int, int, int, int, int]


@dataclass(frozen=True)
class Packet:
    """A packet of a traffic; of a run also when it came in and was out, where it did, and where this is known.

    `latency` is the cycles from the due one to that in which it was out, and None where it was not.
    """

    number: int
    source: int
    destination: int
    message_class: int
    length: int
    due: int
    out: int | None = None
    came_in: int | None = None
    # (a field, so that it is a column of a table of packets)
    latency: int | None = field(init=False)

    def __post_init__(self) -> None:
        object.__setattr__(self, "latency", None if self.out is None else self.out - self.due)

    @property
    def queue_latency(self) -> int | None:
        """The part of its latency before its head came into the network."""
        return None if self.came_in is None else self.came_in - self.due

    @property
    def network_latency(self) -> int | None:
        """The part of its latency from then on."""
        return None if self.out is None or self.came_in is None else self.out - self.came_in

    @property
    def way(self) -> str:
        """From where to where it goes, with how many flits, in words."""
        flits = "one flit" if self.length == 1 else f"{self.length} flits"
        return f"node {self.source} to node {self.destination}, {flits}"

    @property
    def row(self) -> Row:
        """Its fields in a traffic file."""
        return self.source, self.destination, self.message_class, self.length, self.due


def traffic_text(rows: Iterable[Row]) -> str:
    """A traffic file."""
    return "".join([HEADER, "\n", *("%d,%d,%d,%d,%d\n" % row for row in rows)])


def numbers_in(row: Iterable[str]) -> Row:
    """The five numbers of a row; a ValueError where they are none."""
    source, destination, message_class, length, due = map(int, row)
    return source, destination, message_class, length, due


def read_traffic(path: str | Path, name: str | None = None, can_wait: bool = False) -> list[list[str]]:
    """The rows of a traffic file, as texts. What they say is looked at by noc. A file with a column `after`, whose
    packets wait for others, is taken where these can be worked out."""
    name = name or str(path)
    rows = csv_rows(read_lines(path, "traffic", name), "traffic", name)
    if rows[:1] == [[*COLUMNS, AFTER]]:
        if not can_wait:
            settled = "'noc-tools settle' works out when they are due"
            raise Refused(f"{name} has packets that wait for others: {settled}")
    elif rows[:1] != [COLUMNS]:
        raise Refused(f"{name} is no traffic: its first line is not {HEADER}")
    return rows[1:]


def read_latencies(lines: Iterable[str], network: Network, name: str) -> list[Packet]:
    """The packets of a latency report."""
    packets = []
    for number, row in enumerate(named_rows(lines, REPORT_COLUMNS, "latency report", name)):
        try:
            found = Packet(number, *numbers_in(fields(row)), None if row["out"] == "-" else int(row["out"]))
        except ValueError:
            raise Refused(f"{name} has no packet in line {number + 2}") from None
        if not (0 <= found.source < network.nodes and 0 <= found.destination < network.nodes):
            raise Refused(f"{name} has a node in line {number + 2} that the network has not")
        is_taken = 1 <= found.length <= LONGEST and 0 <= found.due <= LATEST_DUE
        if not (is_taken and (found.out is None or found.due < found.out < MOST_DRAINED)):
            raise Refused(f"{name} has a packet in line {number + 2} that noc does not report")
        packets.append(found)
    return packets


def lengths_in(words: str) -> tuple[int, ...]:
    """The lengths of packets: one, or several that are as frequent."""
    with refusing(ValueError, f"a length is a number of flits, or several as 1+8, not '{words}'"):
        return tuple(map(int, words.split("+")))


# ---- what noc takes


def check_classes(classes: Iterable[int], network: Network) -> None:
    """Refuses a class that the network does not have."""
    if not all(0 <= number < network.classes for number in classes):
        raise Refused(f"a class does not exist: the classes are 0 to {network.classes - 1}")


def alone(_: Row) -> int:
    """For how many packets one counts that brings no others."""
    return 1


def fitting(rows: Sequence[Row], cycles: int, weight: Callable[[Row], int] = alone) -> tuple[list[Row], int]:
    """The packets of the first cycles of which noc takes all, and how many of the run these are; `weight` says for how
    many packets one counts."""
    total = 0
    for row in sorted(rows, key=itemgetter(4)):
        total += weight(row)
        if MOST_PACKETS < total:
            too_many = row[4]
            return [row for row in rows if row[4] < too_many], min(cycles, too_many)
    return list(rows), cycles


@dataclass(frozen=True)
class Played:
    """The packets of a traffic file, which come so many times as fast."""

    path: str
    speed: float = 1

    def check(self, network: Network) -> None:
        """Refuses what cannot be had."""
        if not 0 < self.speed < float("inf"):
            raise Refused("the load of a traffic file is a number above 0: how many times as fast its packets come")
        self.first_rows(network)

    def first_rows(self, network: Network) -> list[Row]:
        """Its packets."""
        with refusing(ValueError, f"{self.path} is no traffic: a row is not five numbers"):
            rows = [numbers_in(row[:len(COLUMNS)]) for row in read_traffic(self.path, can_wait=True)]
        with refusing(OverflowError, f"{self.path}: at a load of {self.speed:g} its packets never come"):
            return [(*row[:4], int(row[4] / self.speed)) for row in rows]


# ---- traffic of a pattern and a load


@dataclass(frozen=True)
class Demand:
    """What traffic is asked for: a pattern, a load in flits per node and cycle, and the length of the packets."""

    pattern: str
    load: float
    # With several lengths each packet has one of them, all alike.
    length: int | tuple[int, ...]
    seed: int = 1
    # Packets are due before this cycle, without it before the end of the run.
    cycles: int | None = None
    classes: tuple[int, ...] = (0,)
    # The nodes of the hot spot, without them the one in the middle, and the part of the packets for them.
    spots: tuple[int, ...] | None = None
    share: float = SHARE
    # How many cycles a node is on and off on average, where it makes packets in bursts.
    burst: tuple[int, int] | None = None

    @property
    def lengths(self) -> tuple[int, ...]:
        """The lengths of the packets."""
        return (self.length,) if isinstance(self.length, int) else self.length

    @property
    def chance(self) -> float:
        """How probable it is that a node makes a packet in a cycle, and in bursts in one in which it is on."""
        packets = self.load * len(self.lengths) / sum(self.lengths)
        return packets if self.burst is None else packets * sum(self.burst) / self.burst[0]

    def destination(self, network: Network, random: Random) -> Pattern:
        """Where packets go."""
        if self.pattern == UNIFORM:
            return uniform(network.nodes)
        if self.pattern == PERMUTATION:
            return permutation(network.nodes, random)
        if self.pattern in FIXED:
            return fixed(network, self.pattern)
        if self.pattern != HOT_SPOT:
            raise Refused(f"there is no pattern '{self.pattern}': the patterns are {', '.join(PATTERN_NAMES)}")
        spots = self.spots or (middle(network),)
        if not all(0 <= spot < network.nodes for spot in spots):
            raise Refused(f"a spot is no node: the nodes are 0 to {network.nodes - 1}")
        return hot_spot(network.nodes, spots, self.share)

    def span(self, network: Network) -> int:
        """The cycle before which packets are due."""
        return network.cycles if self.cycles is None else self.cycles

    def check(self, network: Network) -> None:
        """Refuses what cannot be had of a network."""
        if not 0 <= self.share <= 1:
            raise Refused(f"the share of a hot spot is 0 to 1, not {self.share:g}")
        self.destination(network, Random(self.seed))
        if not all(1 <= length <= LONGEST for length in self.lengths):
            raise Refused(f"a length is 1 to {LONGEST}")
        if self.burst is not None and not all(1 <= cycles <= MOST_CYCLES for cycles in self.burst):
            raise Refused(f"a burst is ON:OFF, each of them 1 to {MOST_CYCLES} cycles")
        if not (0 <= self.load and self.chance <= 1):
            most = "the length of a packet" if self.burst is None else f"{self.load / self.chance:g} in these bursts"
            raise Refused(f"a load is 0 or more, and at most {most}")
        check_classes(self.classes, network)
        if LATEST_DUE < self.span(network) - 1:
            raise Refused(f"noc takes due times up to {LATEST_DUE}: give --cycles")

    def chances(self, nodes: int, random: Random) -> Iterator[list[float]]:
        """For each cycle how probable it is that a node makes a packet."""
        chance = self.chance
        if self.burst is None:
            yield from repeat([chance] * nodes)
            return
        on, off = self.burst
        is_on = [random.random() < on / (on + off) for _ in range(nodes)]
        while True:
            yield [chance if each else 0.0 for each in is_on]
            is_on = [random.random() >= 1 / on if each else random.random() < 1 / off for each in is_on]

    def rows(self, network: Network) -> Iterator[Row]:
        """The packets in the order of their due times, and at one due time in that of their sources."""
        random = Random(self.seed)
        draw, destination = random.random, self.destination(network, random)

        def one_of(values: tuple[int, ...]) -> int:
            # (one value needs no draw)
            return values[below(random, len(values)) if 1 < len(values) else 0]

        for due, chances in zip(range(self.span(network)), self.chances(network.nodes, random)):
            for source, chance in enumerate(chances):
                if draw() < chance:
                    goes_to = destination(random, source)
                    message_class, length = one_of(self.classes), one_of(self.lengths)
                    if goes_to != source:
                        yield source, goes_to, message_class, length, due

    def first_rows(self, network: Network) -> list[Row]:
        """The packets; where they are more than noc takes, one more than that."""
        self.check(network)
        return list(islice(self.rows(network), MOST_PACKETS + 1))

    def traffic(self, network: Network) -> str:
        """The traffic file, where noc takes all packets."""
        rows = self.first_rows(network)
        if MOST_PACKETS < len(rows):
            raise Refused(
                f"more than {MOST_PACKETS} packets, which noc does not take: lower the load, or take fewer cycles "
                f"(--cycles {rows[-1][-1]} fits)"
            )
        return traffic_text(rows)
