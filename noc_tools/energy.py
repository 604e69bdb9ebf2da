"""What a run did that costs energy, as counts for each router and link, by its stall report."""
from collections.abc import Iterator, Mapping

from .findings import Place
from .network import LOCAL, Network, opposite
from .stalls import Counts

# What costs energy, and the verdicts by whose counts it is counted at an input channel.
OF_VERDICTS = {
    "routes": ("routed",), "requests": ("granted", "lost_channel"), "grants": ("granted",),
    "picks": ("moved", "lost_input", "lost_switch"), "sends": ("moved", "lost_switch"),
    "writes": ("moved",), "reads": ("moved",), "crossings": ("moved",),
}
HOPS = "hops"
EVENTS = [*OF_VERDICTS, HOPS]


def link_hops(network: Network, counts: Mapping[Place, Counts]) -> dict[tuple[int, str], int]:
    """The flits that went over each link, by the router and the port where it begins."""
    found = {}
    for router in range(network.nodes):
        for port in network.ports:
            other = network.neighbour(router, port)
            if port != LOCAL and other is not None:
                channels = [f"{opposite(port)}.{number}" for number in range(network.channels)]
                found[router, port] = sum(counts[other, name]["moved"] for name in channels)
    return found


def router_events(network: Network, counts: Mapping[Place, Counts]) -> list[dict[str, int]]:
    """How often each event came at each router; hops are those over the links that leave it."""
    found = [dict.fromkeys(EVENTS, 0) for _ in range(network.nodes)]
    for (router, _), line in counts.items():
        for event, verdicts in OF_VERDICTS.items():
            found[router][event] += sum(line[verdict] for verdict in verdicts)
    for (router, _), flits in link_hops(network, counts).items():
        found[router][HOPS] += flits
    return found


def picojoules(events: Mapping[str, int], costs: Mapping[str, float]) -> float:
    """What events cost, each at so many picojoules."""
    return sum(costs.get(event, 0.0) * count for event, count in events.items())


def rows_of_routers(
    network: Network, counts: Mapping[Place, Counts], costs: Mapping[str, float]
) -> Iterator[list[str]]:
    """A row for each router, and one for all, with what it costs where costs are given."""
    found = router_events(network, counts)
    whole = {event: sum(each[event] for each in found) for event in EVENTS}
    more = ["picojoules"] if costs else []
    yield ["router", *EVENTS, *more]
    for name, events in [*enumerate(found), ("all", whole)]:
        cost = [f"{picojoules(events, costs):.1f}"] if costs else []
        yield [str(name), *map(str, events.values()), *cost]


def rows_of_links(
    network: Network, counts: Mapping[Place, Counts], costs: Mapping[str, float]
) -> Iterator[list[str]]:
    """A row for each link, and one for all, with what it costs where costs are given."""
    found = link_hops(network, counts)
    yield ["router", "port", "to", HOPS, *(["picojoules"] if costs else [])]
    names = [[str(router), port, str(network.linked(router, port))] for router, port in found]
    for name, flits in [*zip(names, found.values()), (["all", "-", "-"], sum(found.values()))]:
        cost = [f"{picojoules({HOPS: flits}, costs):.1f}"] if costs else []
        yield [*name, str(flits), *cost]
