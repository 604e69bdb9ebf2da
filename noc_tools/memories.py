"""A traffic and the routes of its network as memories of a design in RTL, in files for $readmemh."""
from collections.abc import Iterable, Iterator, Sequence

from .errors import Refused
from .network import LOCAL, Network
from .rules import RULES
from .traffic import Row

# The fields of a packet in the queue of its source, the leftmost first, and their bits.
FIELDS = ("due", "length", "class", "destination", "packet")
WIDTHS = (20, 7, 2, 8, 16)


def routes(network: Network, router: int) -> Iterator[str]:
    """The lines of a router's routes: the channels that are permitted, for each class and destination."""
    rule = RULES[network.rule]
    for message_class in range(network.classes):
        for destination in range(network.nodes):
            if router == destination:
                ways = [(LOCAL, number) for number in network.block(message_class)]
            else:
                ways = rule(network, message_class, router, destination)
            indices = (network.ports.index(port) * network.channels + number for port, number in ways)
            yield f"{sum(1 << index for index in indices):x}"


def entry(fields: Iterable[int], widths: Sequence[int]) -> str:
    """A packet as a line of a queue."""
    value = 0
    for name, field, width in zip(FIELDS, fields, widths):
        if field >> width:
            raise Refused(f"the {name} of a packet is {field}, which {width} bits do not hold")
        value = value << width | field
    return f"{value:x}"


def queues(network: Network, rows: Iterable[Row]) -> list[list[tuple[int, ...]]]:
    """The packets of each node in the order in which they come in: by due cycle, and then by number."""
    found: list[list[tuple[int, ...]]] = [[] for _ in range(network.nodes)]
    for number, (source, destination, message_class, length, due) in enumerate(rows):
        if not (0 <= source < network.nodes and 0 <= destination < network.nodes):
            raise Refused(f"packet {number} has a node that the network has not")
        found[source].append((due, length, message_class, destination, number))
    return [sorted(queue, key=lambda packet: (packet[0], packet[-1])) for queue in found]


def lines_of_queue(queue: Sequence[tuple[int, ...]], length: int, widths: Sequence[int]) -> Iterator[str]:
    """The lines of a node's queue, and zeros up to so many and one behind them."""
    yield "// " + ", ".join(f"{name} {width}" for name, width in zip(FIELDS, widths))
    for packet in queue:
        yield entry(packet, widths)
    yield from ["0"] * (length + 1 - len(queue))


def parameters(network: Network, packets: int) -> dict[str, int]:
    """What the design has to know of the network and of its longest queue."""
    radix = {f"K{dimension}": k for dimension, k in enumerate([*network.radix, 1, 1][:max(2, len(network.radix))])}
    return {
        "DIMENSIONS": len(network.radix), **radix, "TORUS": int(network.kind == "torus"),
        "CLASSES": network.classes, "CHANNELS": network.channels, "BUFFER": network.buffer, "PACKETS": packets,
        "CYCLES": network.cycles,
    }
