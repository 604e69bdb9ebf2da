"""What a traffic asks of the links of a network and of the ports of its nodes, and the greatest
load that these allow.

Each of them carries one flit in a cycle. Where a rule leaves one way from a source to a
destination, the flits that a traffic asks of a link are a sum over pairs: its channel load (Dally
and Towles, chapter 3). One divided by the greatest of them is the load that no network of these
links exceeds, whatever its channels and buffers.

Where a rule leaves several ways, the best split of the packets over them is a linear programme.
Each choice of prices for links gives a bound on it: a packet pays at least the cheapest way, and
all links together earn no more than their prices in a cycle. A cut is such a choice, in which the
links that cross it have one price and all others none. Prices are improved step by step here (the
volume algorithm of Barahona and Anbil), and the best bound is taken, so it holds wherever the steps
end.
"""
from collections.abc import Callable, Iterable, Iterator, Mapping, Sequence
from dataclasses import replace
from functools import lru_cache
from math import exp, inf, log
from pathlib import Path
from random import Random
from typing import NamedTuple

from .network import LOCAL, Network
from .relation import Channels, Goal, Relation, of_network
from .rules import RULES
from .traffic import HOT_SPOT, UNIFORM, Demand, middle

# For each class and destination what each source sends there: flits in a cycle, at a load of 1.
Flows = Mapping[Goal, Mapping[int, float]]
# A place where a packet may be, with the links by which it may go on and the places behind them.
Step = tuple[int, tuple[tuple[int, int], ...]]
# For each class and destination the places that packets to it may come to, the farthest first.
Steps = Mapping[Goal, Sequence[Step]]
# So many steps are taken in all to improve prices, at least so many times, and so near to the best
# split.
MOST_STEPS, LEAST_TIMES, MOST_TIMES, NEAR = 4_000_000, 20, 300, 1.002
# How many networks and traffics are kept.
KEPT = 64
SUM, CUTS = "sum", "cuts"


class Ways:
    """The ways of a network by links. A link is a number, as is the port by which a node sends:
    that of the router and its port in their order; behind them come the ports by which nodes
    receive."""

    def __init__(self, network: Network, table: str | None) -> None:
        self.network, self.table = network, table
        self.ports = network.ports
        self.receiving = network.nodes * len(self.ports)
        self.count = self.receiving + network.nodes
        self.known: dict[Goal, tuple[Step, ...]] = {}
        self.relation: Relation | None = of_network(Channels(network), table) if table else None

    def link(self, router: int, port: str) -> int:
        """The number of a link, or of the port by which a node sends."""
        return router * len(self.ports) + self.ports.index(port)

    def name(self, link: int) -> str:
        """A link or a port in words."""
        if self.receiving <= link:
            return f"the port by which node {link - self.receiving} receives"
        router, place = divmod(link, len(self.ports))
        port = self.ports[place]
        sends = f"the port by which node {router} sends"
        return sends if port == LOCAL else f"router {router}, {port}"

    def entry(self, source: int) -> int:
        """The place where packets of a source come in."""
        return source if self.relation is None else self.link(source, LOCAL)

    def steps(self, goal: Goal) -> tuple[Step, ...]:
        """The places that packets of a class to a destination may come to, the farthest first."""
        # (by a rule of noc all classes go the same ways)
        goal = goal if self.relation else (0, goal[1])
        if goal not in self.known:
            found = by_entries(self.relation, goal) if self.relation else self.by_routers(goal[1])
            self.known[goal] = tuple(found)
        return self.known[goal]

    def by_routers(self, destination: int) -> Iterator[Step]:
        """The steps by a rule of noc, whose places are routers."""
        network, rule = self.network, RULES[self.network.rule]
        hops = network.hop_table[destination]
        for router in sorted(range(network.nodes), key=lambda router: -hops[router]):
            if router != destination:
                ports = dict.fromkeys(port for port, _ in rule(network, 0, router, destination))
                yield router, tuple(
                    (self.link(router, port), network.linked(router, port)) for port in ports
                )


def by_entries(relation: Relation, goal: Goal) -> Iterator[Step]:
    """The steps by a table, whose places are the links on which packets are: what any channel of a
    link permits."""
    vcs = relation.channels.vcs
    onward: dict[int, dict[int, None]] = {}
    for channel, following in relation.steps(*goal).items():
        if following:
            links = onward.setdefault(channel // vcs, {})
            links.update((other // vcs, None) for other in following)
    for place, beyond in onward.items():
        yield place, tuple((link, link) for link in beyond)


def ways_of(network: Network, table: str | Path | None = None) -> Ways:
    """The ways of a network that noc takes, which are worked out once."""
    changed = Path(table).stat().st_mtime_ns if table else 0
    return kept_ways(replace(network, buffer=1, cycles=1), str(table) if table else None, changed)


@lru_cache(maxsize=KEPT)
def kept_ways(network: Network, table: str | None, changed: int) -> Ways:
    """The same with a table that was changed then."""
    return Ways(network, table)


# ---- what a traffic sends


def sent(rows: Iterable[tuple[int, int, int, float]]) -> Flows:
    """The flows of source, destination, class and flits."""
    found: dict[Goal, dict[int, float]] = {}
    for source, destination, message_class, flits in rows:
        sources = found.setdefault((message_class, destination), {})
        sources[source] = sources.get(source, 0.0) + flits
    return found


def shares(demand: Demand, network: Network) -> Iterator[tuple[int, int, float]]:
    """From each source to each other node the part of its packets that go there."""
    nodes = range(network.nodes)
    if demand.pattern not in (UNIFORM, HOT_SPOT):
        random = Random(demand.seed)
        pattern = demand.destination(network, random)
        goals = ((source, pattern(random, source)) for source in nodes)
        yield from ((source, goal, 1.0) for source, goal in goals if goal != source)
        return
    spots = (demand.spots or (middle(network),)) if demand.pattern == HOT_SPOT else ()
    for source in nodes:
        others = [spot for spot in spots if spot != source]
        hot = {spot: demand.share * spots.count(spot) / len(spots) for spot in others}
        rest = (1 - sum(hot.values())) / (network.nodes - 1)
        yield from ((source, goal, rest + hot.get(goal, 0)) for goal in nodes if goal != source)


def flows_of(
    demand: Demand, network: Network, replies: Iterable[tuple[int, int, int]] = ()
) -> Flows:
    """What a demand sends at a load of 1, and what is sent in reply, level by level: packets of one
    class are answered by one of another class, which has so many flits."""
    packets = len(demand.lengths) / sum(demand.lengths)
    part = 1 / len(demand.classes)

    def rows() -> Iterator[tuple[int, int, int, float]]:
        made = []
        for source, goal, share in shares(demand, network):
            for message_class in demand.classes:
                made.append((source, goal, message_class, share * part * packets))
                yield source, goal, message_class, share * part
        for to, by, length in replies:
            answers = [
                (goal, source, by, count) for source, goal, number, count in made if number == to
            ]
            made += answers
            yield from ((source, goal, by, count * length) for source, goal, _, count in answers)

    return sent(rows())


# ---- what is asked of links


def asked_of_ports(ways: Ways, flows: Flows) -> list[float]:
    """What flows ask of the ports of nodes, for each link and port."""
    asked = [0.0] * ways.count
    for (_, destination), sources in flows.items():
        for source, flits in sources.items():
            asked[ways.link(source, LOCAL)] += flits
            asked[ways.receiving + destination] += flits
    return asked


def asked_for(ways: Ways, flows: Flows) -> list[float]:
    """What flows ask of each link and each port, as far as no choice of ways avoids it: where there
    is one way to each destination this is all."""
    asked = asked_of_ports(ways, flows)
    for goal, sources in flows.items():
        amounts = [0.0] * ways.count
        for source, flits in sources.items():
            amounts[ways.entry(source)] = flits
        for place, onward in ways.steps(goal):
            if amounts[place] and len(onward) == 1:
                (link, following), = onward
                asked[link] += amounts[place]
                amounts[following] += amounts[place]
    return asked


def has_one_way(ways: Ways, flows: Flows) -> bool:
    """Whether each packet of these flows has one way alone."""
    for goal, sources in flows.items():
        reached = set(map(ways.entry, sources))
        for place, onward in ways.steps(goal):
            if place in reached:
                if len(onward) != 1:
                    return False
                reached.add(onward[0][1])
    return True


# ---- the best split over several ways


class Split:
    """What is asked of links where packets have several ways: a linear programme over the links
    that they may use."""

    def __init__(self, ways: Ways, flows: Flows) -> None:
        self.ways = ways
        self.links: dict[int, int] = {}
        self.goals: list[tuple[list[Step], dict[int, float]]] = []
        self.places = ways.count
        for goal, sources in flows.items():
            amounts = {ways.entry(source): flits for source, flits in sources.items()}
            self.goals.append((list(self.reached(ways.steps(goal), set(amounts))), amounts))

    def reached(self, steps: Iterable[Step], places: set[int]) -> Iterator[Step]:
        """The steps that are reached from some places, with the links counted."""
        for place, onward in steps:
            if place in places:
                places.update(following for _, following in onward)
                yield place, tuple(
                    (self.links.setdefault(link, len(self.links)), following)
                    for link, following in onward
                )

    @property
    def steps(self) -> int:
        """How many steps a turn takes."""
        return sum(len(onward) for steps, _ in self.goals for _, onward in steps)

    def cuts(self) -> Iterator[list[float]]:
        """The prices of cuts across the middle of each dimension, one for each way across."""
        network = self.ways.network
        for dimension, k in enumerate(network.radix):
            for sign, places in ("+", (k // 2 - 1, k - 1)), ("-", (k // 2, 0)):
                port = f"{sign}{dimension}"
                links = {
                    self.links.get(self.ways.link(router, port)) for router in range(network.nodes)
                    if network.coordinates(router)[dimension] in places
                }
                links.discard(None)
                if links:
                    yield [(place in links) / len(links) for place in range(len(self.links))]

    def cheapest(self, prices: Sequence[float]) -> tuple[list[float], float]:
        """What is asked of each link where all flits go the cheapest way by some prices, and what
        they pay."""
        loads, paid = [0.0] * len(self.links), 0.0
        for steps, amounts in self.goals:
            costs, chosen = [0.0] * self.places, []
            for place, onward in reversed(steps):
                cost = inf
                for one, end in onward:
                    price = prices[one] + costs[end]
                    if price < cost:
                        cost, link, following = price, one, end
                costs[place] = cost
                chosen.append((place, link, following))
            there = [0.0] * self.places
            for place, flits in amounts.items():
                there[place] = flits
                paid += flits * costs[place]
            for place, link, following in reversed(chosen):
                if flits := there[place]:
                    loads[link] += flits
                    there[following] += flits
        return loads, paid


def on_simplex(numbers: Sequence[float]) -> list[float]:
    """The nearest prices to some numbers: none below 0, and 1 in all."""
    total = below = 0.0
    for count, number in enumerate(sorted(numbers, reverse=True), 1):
        total += number
        if (total - 1) / count < number:
            below = (total - 1) / count
    return [max(0.0, number - below) for number in numbers]


def steep(loads: Sequence[float], found: float) -> list[float]:
    """Prices that rise steeply with what is asked of links, the nearer this is to what is
    proved."""
    most = max(loads)
    slope = log(len(loads) + 1) / max(most - found, 0.001 * most)
    prices = [exp(slope * (load - most)) for load in loads]
    total = sum(prices)
    return [price / total for price in prices]


def nearer(loads: Sequence[float], others: Sequence[float], part: float) -> list[float]:
    """Loads moved towards others, by a part of the way that leaves the busiest link with least."""
    tried = (
        [load + share * (other - load) for load, other in zip(loads, others)]
        for share in (part, part / 2, part / 4, part / 16)
    )
    return min(tried, key=max)


def least_of_busiest(split: Split, least: float) -> float:
    """What every split asks of its busiest link at least, as far as prices prove it; `least` where
    this is more."""
    count = len(split.links)
    prices = best = [1 / count] * count
    loads, found = split.cheapest(prices)
    least = max([least, *(split.cheapest(cut)[1] for cut in split.cuts())])
    most, scale, stale = max(loads), 1.0, 0
    for turn in range(max(LEAST_TIMES, min(MOST_TIMES, MOST_STEPS // split.steps))):
        if max(most, least) <= NEAR * max(found, least):
            break
        mean = sum(loads) / count
        square = sum((load - mean) ** 2 for load in loads)
        length = scale * (most - found) / 2 / (square or 1)
        is_steep = turn % 10 == 0
        moved = (price + length * (load - mean) for price, load in zip(best, loads))
        prices = steep(loads, found) if is_steep else on_simplex(list(moved))
        others, paid = split.cheapest(prices)
        loads = nearer(loads, others, 0.1)
        most = min(most, max(loads))
        stale = 0 if found < paid else stale + 1
        if found < paid:
            best, found, scale = prices, paid, min(2.0, 1.1 * scale)
        elif stale == 10:
            scale, stale = max(0.001, 0.7 * scale), 0
    return max(found, least)


class Bound(NamedTuple):
    """The greatest load, as it is asked for, at which no link is asked for more than a flit in a
    cycle; the flits for each node and cycle that then come out; and whether a sum says it or cuts
    do, and then of which link or port."""

    load: float
    accepted: float
    way: str
    link: str | None


def bound_of(
    ways: Ways, flows: Flows, worth: Callable[[int], float], load: float,
    classes: Iterable[int] | None = None,
) -> Bound | None:
    """The bound on a traffic whose flows are these at some load, of which some classes or all are
    looked at; None where it sends nothing. `worth` says of a class what a flit of it counts for in
    what comes out."""
    if not flows:
        return None
    asked = asked_for(ways, flows)
    most, way, link = max(asked), SUM, ways.name(asked.index(max(asked)))
    if not has_one_way(ways, flows):
        most, way = least_of_busiest(Split(ways, flows), most), CUTS
    chosen = None if classes is None else set(classes)
    amount = sum(
        worth(number) * sum(sources.values()) for (number, _), sources in flows.items()
        if chosen is None or number in chosen
    )
    return Bound(load / most, amount / most / ways.network.nodes, way, link if way == SUM else None)
