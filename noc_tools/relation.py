"""The routing relation of a network as a whole: to which link channels each channel leads, on the entries that
packets reach.

A channel is a number here, in the order of router, port and channel. A link channel has the router that sends on it
and its output port there, an injection channel its router and the port 'local'. Ejection channels are left out: no
packet goes on from them.
"""
from collections.abc import Callable, Iterable, Iterator, Sequence
from functools import cache
from itertools import islice
from pathlib import Path

from .errors import refusing
from .files import each_row, read_lines
from .network import LOCAL, Network, opposite
from .program import report
from .rules import RULES, TableRule, Way
from .traffic import traffic_text

# A class and a destination.
Goal = tuple[int, int]
TABLE_HEADER = "class,router,in_port,in_vc,dst,out_port,out_vc"
# The link channels by which a packet may go on: from its class, the channel on which it is, the router at which that
# ends, and its destination, another router. Each of them leads nearer to the destination.
Permitted = Callable[[int, int, int, int], Sequence[int]]
# Each channel that packets reach, with the link channels to which it leads.
Steps = dict[int, Sequence[int]]


# The end of a port that has no link.
NOWHERE = -1


def arrival(network: Network, router: int, port: str) -> int:
    """The router at which the flits arrive that a router sends by a port, itself where the port is local."""
    if port == LOCAL:
        return router
    end = network.neighbour(router, port)
    return NOWHERE if end is None else end


class Channels:
    """The link and injection channels of a network."""

    def __init__(self, network: Network) -> None:
        self.network = network
        self.vcs = network.channels
        self.ports = network.ports
        self.place_of_port = {port: place for place, port in enumerate(self.ports)}
        self.ends = [arrival(network, router, port) for router in range(network.nodes) for port in self.ports]
        self.first_entering = {}
        for place, end in enumerate(self.ends):
            port = self.ports[place % len(self.ports)]
            if end != NOWHERE:
                self.first_entering[end, port if port == LOCAL else opposite(port)] = place * self.vcs

    def number(self, router: int, port: str, vc: int) -> int:
        """The number of a channel that leaves a router."""
        return (router * len(self.ports) + self.place_of_port[port]) * self.vcs + vc

    def parts(self, channel: int) -> tuple[int, str, int]:
        """The router, the port and the number of a channel."""
        place, vc = divmod(channel, self.vcs)
        router, port = divmod(place, len(self.ports))
        return router, self.ports[port], vc

    def name(self, channel: int) -> str:
        """A channel in words."""
        router, port, vc = self.parts(channel)
        return f"router {router}, {port}.{vc}"

    def end(self, channel: int) -> int:
        """The router at which the flits of a channel arrive."""
        return self.ends[channel // self.vcs]

    def links(self) -> list[int]:
        """All link channels."""
        found = range(len(self.ends) * self.vcs)
        return [channel for channel in found if self.end(channel) != NOWHERE and self.parts(channel)[1] != LOCAL]

    def injection(self, router: int) -> range:
        """The channels by which packets come in at a router."""
        first = self.number(router, LOCAL, 0)
        return range(first, first + self.vcs)

    def entered(self, channel: int) -> tuple[int, str, int]:
        """The router, the input port and the number by which a packet on this channel comes in."""
        router, port, vc = self.parts(channel)
        return (router, port, vc) if port == LOCAL else (self.end(channel), opposite(port), vc)

    def entering(self, router: int, in_port: str, vc: int) -> int:
        """The channel on which a packet is that comes in there."""
        return self.first_entering[router, in_port] + vc


class Relation:
    """A routing rule on the entries that packets reach."""

    def __init__(self, channels: Channels, permitted: Permitted) -> None:
        self.channels = channels
        self.permitted = permitted
        self.nodes = range(channels.network.nodes)

    def steps(self, message_class: int, destination: int) -> Steps:
        """Each channel that such packets reach, with the link channels to which it leads; the farthest come first.

        Channels that end at the destination come last, and lead to none.
        """
        found: Steps = {}
        arrived = [dict.fromkeys(self.channels.injection(router)) for router in self.nodes]
        arrived[destination] = {}
        hops = self.channels.network.hop_table[destination]
        for router in sorted(self.nodes, key=lambda router: -hops[router]):
            last: Sequence[int] | None = None
            for channel in arrived[router]:
                is_there = router == destination
                onward = () if is_there else self.permitted(message_class, channel, router, destination)
                found[channel] = onward
                if onward is not last:
                    for following in onward:
                        arrived[self.channels.end(following)][following] = None
                last = onward
        return found

    def reached(self, message_class: int, destination: int, sources: Iterable[int]) -> set[int]:
        """The channels that such packets reach from some routers."""
        waiting = [channel for source in sources for channel in self.channels.injection(source)]
        found: set[int] = set()
        for channel in waiting:
            router = self.channels.end(channel)
            if channel not in found and router != destination:
                waiting += self.permitted(message_class, channel, router, destination)
            found.add(channel)
        return found

    def lines(self, message_class: int, destination: int) -> Iterator[str]:
        """The lines of a table for such packets; at the destination the local channels of their class."""
        channels = self.channels
        out: list[Way] = [(LOCAL, number) for number in channels.network.block(message_class)]
        for channel, onward in self.steps(message_class, destination).items():
            router, in_port, in_vc = channels.entered(channel)
            ways = [channels.parts(following)[1:] for following in onward]
            entry = f"{message_class},{router},{in_port},{in_vc},{destination}"
            for out_port, out_vc in out if router == destination else ways:
                yield f"{entry},{out_port},{out_vc}"


def of_network(channels: Channels, table: str | Path | None = None) -> Relation:
    """The relation of a configuration, with its routing table where the rule is 'table'."""
    return Relation(channels, of_table(channels, table) if table else of_rule(channels))


def checked_relation(config: str, table: str | None = None) -> Relation:
    """The relation of a configuration in a file. What noc refuses it tells of itself: a run without packets makes the
    relation alone."""
    words = ["--table", table] if table else []
    network = Network.read(config)
    report("run", config, "/dev/stdin", "--report", "summary", *words, given=traffic_text([]))
    return of_network(Channels(network), table)


def of_rule(channels: Channels) -> Permitted:
    """What the rule of the configuration permits."""
    network = channels.network
    rule = RULES[network.rule]

    @cache
    def from_router(message_class: int, router: int, destination: int) -> list[int]:
        ways = rule(network, message_class, router, destination)
        return [channels.number(router, port, vc) for port, vc in ways]

    return lambda message_class, _, router, destination: from_router(message_class, router, destination)


def of_table_rule(channels: Channels, rule: TableRule) -> Relation:
    """The relation of a rule that only tables have."""
    def permitted(message_class: int, channel: int, router: int, destination: int) -> list[int]:
        found = rule(channels.network, message_class, channels.entered(channel), destination)
        return [channels.number(router, port, number) for port, number in found]

    return Relation(channels, permitted)


def of_table(channels: Channels, path: str | Path) -> Permitted:
    """What a table permits."""
    rows = read_rows(channels, path)

    def permitted(message_class: int, channel: int, _: int, destination: int) -> Sequence[int]:
        return rows.get((message_class, destination), {}).get(channel, ())

    return permitted


def read_rows(channels: Channels, path: str | Path) -> dict[Goal, dict[int, Sequence[int]]]:
    """For each class and destination the link channels to which a table leads from each channel."""
    goal = cache(lambda message_class, destination: (int(message_class), int(destination)))
    entering = cache(lambda router, port, vc: channels.entering(int(router), port, int(vc)))
    number = cache(lambda router, port, vc: channels.number(int(router), port, int(vc)))
    found: dict[Goal, dict[int, dict[int, None]]] = {}
    rows = each_row(read_lines(path, "table"), "table", str(path))
    with refusing((ValueError, KeyError), f"{path} is no table of this network: "):
        for message_class, router, in_port, in_vc, destination, out_port, out_vc in islice(rows, 1, None):
            if out_port != LOCAL:
                entries = found.setdefault(goal(message_class, destination), {})
                onward = entries.setdefault(entering(router, in_port, in_vc), {})
                onward[number(router, out_port, out_vc)] = None
    return {each: with_shared_values(entries) for each, entries in found.items()}


def with_shared_values(entries: dict[int, dict[int, None]]) -> dict[int, Sequence[int]]:
    """The same; channels that lead to the same ones share their value, so that what follows is worked out once."""
    values: dict[tuple[int, ...], tuple[int, ...]] = {}
    found: dict[int, Sequence[int]] = {}
    for channel, onward in entries.items():
        value = tuple(onward)
        found[channel] = values.setdefault(value, value)
    return found
