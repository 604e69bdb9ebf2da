"""Routing rules: those that noc has itself, and those of which only a table can be made.

A rule gives the channels by which a packet may go on, as pairs of an output port and a number.
"""
from collections.abc import Callable, Iterator

from .errors import Refused
from .network import Network, opposite

Way = tuple[str, int]
# From the network, the class of a packet, the router where it is and its destination, another router.
Rule = Callable[[Network, int, int, int], list[Way]]
# A rule of a table looks at the input port and the number of the input channel too.
TableRule = Callable[[Network, int, tuple[int, str, int], int], list[Way]]


def nearer_ports(network: Network, router: int, destination: int) -> Iterator[str]:
    """In each dimension in which the nodes differ the port of the shorter way; up where both are equally long."""
    places = zip(network.radix, network.coordinates(router), network.coordinates(destination))
    for dimension, (k, x, t) in enumerate(places):
        if x != t:
            goes_up = (t - x) % k <= (x - t) % k if network.kind == "torus" else x < t
            yield f"{'+' if goes_up else '-'}{dimension}"


def dimension_order_port(network: Network, router: int, destination: int) -> str:
    """The port of the first dimension in which two routers differ."""
    return next(nearer_ports(network, router, destination))


def crosses_the_ends(network: Network, router: int, destination: int, port: str) -> bool:
    """Whether the way along a port still crosses the ends of its dimension."""
    dimension = int(port[1:])
    x, t = network.coordinates(router)[dimension], network.coordinates(destination)[dimension]
    return t < x if port[0] == "+" else x < t


def dor(network: Network, message_class: int, router: int, destination: int) -> list[Way]:
    """Dimension order."""
    port = dimension_order_port(network, router, destination)
    return [(port, number) for number in network.block(message_class)]


def dateline_along(network: Network, message_class: int, router: int, destination: int, port: str) -> list[Way]:
    """Along a port by the low half of the class's channels while the way still crosses the ends, else by the high."""
    block = network.block(message_class)
    half = len(block) // 2
    numbers = block[:half] if crosses_the_ends(network, router, destination, port) else block[half:]
    return [(port, number) for number in numbers]


def dateline(network: Network, message_class: int, router: int, destination: int) -> list[Way]:
    """As dimension order, with a dateline in each dimension."""
    return dateline_along(
        network, message_class, router, destination, dimension_order_port(network, router, destination)
    )


def west_first(network: Network, message_class: int, router: int, destination: int) -> list[Way]:
    """West before all else, and then in any order."""
    (x, y), (a, b) = network.coordinates(router), network.coordinates(destination)
    ports = ["-0"] if a < x else ["+0"] * (x < a) + ["+1"] * (y < b) + ["-1"] * (b < y)
    return [(port, number) for port in ports for number in network.block(message_class)]


def adaptive(network: Network, message_class: int, router: int, destination: int) -> list[Way]:
    """By an escape channel as by dimension order, and by the other channels along every port that comes nearer.

    On a torus the escape channel is one of two, as by a dateline.
    """
    ports = list(nearer_ports(network, router, destination))
    is_torus = network.kind == "torus"
    block = network.block(message_class)
    is_second = is_torus and not crosses_the_ends(network, router, destination, ports[0])
    escape = (ports[0], block[1 if is_second else 0])
    return [escape] + [(port, number) for port in ports for number in block[2 if is_torus else 1:]]


RULES: dict[str, Rule] = {"dor": dor, "dateline": dateline, "west-first": west_first, "adaptive": adaptive}


# ---- rules of which tables are made


def odd_even(network: Network, message_class: int, entered: tuple[int, str, int], destination: int) -> list[Way]:
    """East is up the first dimension. A packet that came in by `-0` goes east, and would turn."""
    router, in_port, _ = entered
    (x, y), (a, b) = network.coordinates(router), network.coordinates(destination)
    column = ["+1"] * (y < b) + ["-1"] * (b < y)
    if a < x:
        ports = ["-0"] + (column if x % 2 == 0 else [])
    elif a == x:
        ports = column
    else:
        # The last turn of a packet to an even column is in the column before.
        must_turn = bool(column) and a % 2 == 0 and a - x == 1
        may_turn = x % 2 == 1 or in_port != "-0"
        ports = ["+0"] * (not must_turn) + column * may_turn
    return [(port, number) for port in ports for number in network.block(message_class)]


def dateline_balanced(
    network: Network, message_class: int, entered: tuple[int, str, int], destination: int
) -> list[Way]:
    """As dateline; a packet that crosses no ends takes either half, until it has once taken the high one."""
    router, in_port, in_vc = entered
    port = dimension_order_port(network, router, destination)
    block = network.block(message_class)
    low, high = block[:len(block) // 2], block[len(block) // 2:]
    dimension = int(port[1:])
    first = 0 if port[0] == "+" else network.radix[dimension] - 1
    if crosses_the_ends(network, router, destination, port):
        halves = low
    elif in_port == opposite(port) and (in_vc in high or network.coordinates(router)[dimension] == first):
        halves = high
    else:
        halves = block
    return [(port, number) for number in halves]


def dateline_even(
    network: Network, message_class: int, entered: tuple[int, str, int], destination: int
) -> list[Way]:
    """As dateline; where both ways are equally long, up from even coordinates and down from odd ones."""
    router = entered[0]
    port = dimension_order_port(network, router, destination)
    dimension = int(port[1:])
    k, x, t = (each[dimension] for each in (network.radix, *map(network.coordinates, (router, destination))))
    if 2 * ((t - x) % k) == k and x % 2 == 1:
        port = opposite(port)
    return dateline_along(network, message_class, router, destination, port)


TABLE_RULES: dict[str, TableRule] = {
    "odd-even": odd_even, "dateline-balanced": dateline_balanced, "dateline-even": dateline_even,
}


def table_rule(network: Network, name: str) -> TableRule:
    """The rule of a table for a network that has the shape for it."""
    if name == "odd-even" and (network.kind != "mesh" or len(network.radix) != 2):
        raise Refused("odd-even is for a mesh of two dimensions")
    is_split = network.kind == "torus" and network.channels % (2 * network.classes) == 0
    if name in ("dateline-balanced", "dateline-even") and not is_split:
        raise Refused(f"{name} is for a torus, and channels are a multiple of twice the classes")
    return TABLE_RULES[name]
