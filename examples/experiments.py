"""Ten experiments whose outcome theory or a book says: what is expected, and what the program does.

    PYTHONPATH=. python3 examples/experiments.py [--jobs N]

Without PYTHONPATH where the package is installed. A line of the table for each measurement goes to
standard output, and the same program gives the same lines for any number of jobs. The page
docs/EXPERIMENTS.md tells each experiment, and why figures differ.
"""
import csv
from argparse import ArgumentParser
from collections import defaultdict
from collections.abc import Iterable, Iterator, Sequence
from dataclasses import replace
from random import Random
from statistics import mean
from typing import NamedTuple

import noc_tools
from noc_tools import Demand, Network, Packet, Run
from noc_tools.measure import Experiment, measured_side_by_side
from noc_tools.network import opposite
from noc_tools.program import processors, report
from noc_tools.statistics import Window
from noc_tools.traffic import FIXED

WIDTHS = (12, 50, 18, 20)
Rows = Sequence[tuple[int, int, int, int]]


class Outcome(NamedTuple):
    """One line of the table."""

    experiment: str
    what: str
    expected: str
    found: str


Outcomes = Iterator[Outcome]


def mesh(radix: Sequence[int], channels: int, buffer: int, cycles: int) -> Network:
    """A mesh under dimension order."""
    return Network("mesh", tuple(radix), channels, buffer, 1, "dor", cycles)


def packets(rows: Rows) -> list[Packet]:
    """Packets from source, destination, length and due cycle."""
    return [
        Packet(number, source, destination, 0, length, due)
        for number, (source, destination, length, due) in enumerate(rows)
    ]


def share(found: float, expected: float) -> str:
    """A figure, and how many percent it is above or below what is expected."""
    return f"{found:.3f} ({100 * (found - expected) / expected:+.1f} %)"


# ---- 1. one packet alone

LONELY = [
    ("mesh", (8, 8), "dor", 4), ("mesh", (8, 8), "adaptive", 4), ("mesh", (8, 8), "west-first", 2),
    ("torus", (8, 8), "dateline", 4), ("torus", (4, 4, 4), "adaptive", 3),
    ("mesh", (16,), "dor", 1),
]


def lone_rows(net: Network) -> Rows:
    """Packets of 1 to 64 flits between many pairs of nodes, 200 cycles apart."""
    pairs = [(s, d) for s in range(0, net.nodes, 3) for d in range(0, net.nodes, 5) if s != d]
    return [(s, d, 1 + (7 * s + 3 * d) % 64, 200 * n) for n, (s, d) in enumerate(pairs)]


def zero_load(jobs: int) -> Outcomes:
    """A packet alone takes 3 d + 2 + L - 1 cycles."""
    waited: list[bool] = []
    for kind, radix, rule, channels in LONELY:
        net = Network(kind, radix, channels, 2, 1, rule, 400_000)
        for each in noc_tools.run(net, packets(lone_rows(net))).packets:
            expected = 3 * net.distance(each.source, each.destination) + 1 + each.length
            waited.append(each.latency != expected)
    what = "lone packets on six networks: 3d + 2 + (L - 1)"
    yield Outcome("zero load", what, f"all {len(waited)}", f"{waited.count(False)}")


# ---- 2. nothing is lost

DRAINED = [
    (Network("mesh", (8, 8), 4, 4, 1, "dor", 2000), 0.3, 4),
    (Network("torus", (8, 8), 4, 4, 1, "dateline", 2000), 0.25, 8),
    (Network("mesh", (4, 4, 4), 4, 4, 1, "adaptive", 2000), 0.3, 5),
]


def conservation(jobs: int) -> Outcomes:
    """A packet of L flits over d hops is moved L (d + 1) times, and is granted d + 1 channels."""
    for net, load, length in DRAINED:
        run = noc_tools.run(net, Demand("uniform", load, length), drain=True)
        hops = [net.distance(each.source, each.destination) + 1 for each in run.packets]
        flits = [each.length * count for each, count in zip(run.packets, hops)]
        name = f"{net.kind} {'x'.join(map(str, net.radix))}, {net.rule}"
        expected = f"{sum(flits)}, {sum(hops)}"
        found = f"{run.counts['moved']}, {run.counts['granted']}"
        yield Outcome("conservation", f"moves and grants, {name}", expected, found)


# ---- 3 and 4. a link, and its credits


def flits_since(run: Run, first: int) -> int:
    """The flits of the packets that were out in a cycle or later."""
    return sum(each.length for each in run.packets if each.out is not None and each.out >= first)


def rate(net: Network, length: int) -> float:
    """The flits per cycle that node 1 gets of node 0, which has more than it can send."""
    first, end = 200, net.cycles
    run = noc_tools.run(net, packets([(0, 1, length, 0)] * (end // length + 10)))
    return flits_since(run, first) / (end - first)


def links(jobs: int) -> Outcomes:
    """A channel has a packet for L + 4 cycles, so V of them carry min(1, V L/(L + 4))."""
    for channels, length in [(1, 1), (1, 4), (1, 16), (2, 4), (4, 1), (4, 4), (8, 1)]:
        expected = min(1, channels * length / (length + 4))
        found = rate(mesh((2,), channels, 16, 2000), length)
        what = f"flits a cycle on a link, V = {channels}, L = {length}"
        yield Outcome("links", what, f"{expected:.3f}", share(found, expected))


def credits_back(jobs: int) -> Outcomes:
    """A slot can be taken again after two cycles: one gives half a flit a cycle, two are enough."""
    length = 64
    for slots, occupied in [(1, 2 * length + 3), (2, length + 4), (3, length + 4)]:
        expected, found = length / occupied, rate(mesh((2,), 1, slots, 60_000), length)
        what = f"flits a cycle on a link, one channel of {slots}"
        yield Outcome("credits", what, f"{expected:.3f}", share(found, expected))


# ---- 5 and 6. a queue, and all of them


def one_queue(jobs: int) -> Outcomes:
    """Packets come to one source with probability p: they wait p L (L - 1)/(2 (1 - p L))."""
    for length, chance in [(8, 0.08), (8, 0.11), (4, 0.2), (16, 0.05)]:
        random = Random(5)
        rows = [(0, 1, length, due) for due in range(180_000) if random.random() < chance][:20_000]
        net = mesh((2,), 8, 16, rows[-1][3] + 500)
        timed = noc_tools.run(net, packets(rows)).timed_packets
        found = mean(each.queue_latency for each in timed if each.queue_latency is not None)
        expected = chance * length * (length - 1) / (2 * (1 - chance * length))
        what = f"mean wait in a queue, load {chance * length:.2f}, L = {length}"
        yield Outcome("one queue", what, f"{expected:.2f}", share(found, expected))


def little(jobs: int) -> Outcomes:
    """Packets in the network, summed over cycles, are times in the network, summed over packets."""
    run = noc_tools.run(mesh((8, 8), 4, 4, 2000), Demand("uniform", 0.25, 8), drain=True)
    inside = len({(found.cycle, found.packet) for found in run.trace()})
    times = sum((each.network_latency or 0) + 1 for each in run.timed_packets)
    what = "packets in channels, summed over cycles"
    yield Outcome("Little's law", what, str(times), str(inside))


# ---- 7. bounds by pattern


Link = tuple[int, str]


def passed(net: Network, source: int, destination: int) -> Iterator[Link]:
    """The links by which dimension order goes, as a router and a port."""
    at, to = net.coordinates(source), net.coordinates(destination)
    for dimension in range(len(to)):
        while at[dimension] != to[dimension]:
            step = 1 if at[dimension] < to[dimension] else -1
            yield net.node_at(at), f"{'+' if step > 0 else '-'}{dimension}"
            at[dimension] += step


def asked_of_links(net: Network, pattern: str) -> dict[Link, float]:
    """The flits a cycle that a pattern asks of each link at a load of 1."""
    asked: dict[Link, float] = defaultdict(float)
    pairs = [(s, d) for s in range(net.nodes) for d in range(net.nodes) if s != d]
    share_of_each = 1 / (net.nodes - 1)
    if pattern in FIXED:
        goal_of = FIXED[pattern](net)
        pairs, share_of_each = [(s, d) for s, d in pairs if goal_of(Random(), s) == d], 1.0
    for source, destination in pairs:
        for link in passed(net, source, destination):
            asked[link] += share_of_each
    return asked


def use_of(run: Run, links: Iterable[Link], cycles: int) -> float:
    """The flits a cycle that left the buffers behind some links, on average over these."""
    net = run.network
    ends = {(str(net.linked(router, port)), opposite(port)) for router, port in links}
    lines = csv.DictReader(report("run", *run.files, "--report", "stalls").splitlines())
    moved = [int(line["moved"]) for line in lines if (line["router"], line["port"]) in ends]
    return sum(moved) / cycles / len(ends)


def bounds(jobs: int) -> Outcomes:
    """A pattern can have a load of 1 over what it asks of the busiest links at a load of 1."""
    for pattern in ("uniform", "bit-complement", "transpose", "tornado"):
        net = mesh((8, 8), 8, 4, 1200)
        asked = asked_of_links(net, pattern)
        most = max(asked.values())
        busiest = [link for link, flits in asked.items() if flits > most - 1e-9]
        low, *high = (
            use_of(Run(net, Demand(pattern, part / most, 4), drain=part < 0.6), busiest, net.cycles)
            for part in (0.5, 0.8, 0.9, 1.0, 1.1)
        )
        what = f"use of busiest links, {pattern},"
        yield Outcome("bounds", f"{what} 0.5 x {1 / most:.3f}", "0.500", share(low, 0.5))
        yield Outcome("bounds", f"{what} at most", "1, or less", f"{max(high):.3f}")


# ---- 8. head-of-line blocking


def head_of_line(jobs: int) -> Outcomes:
    """Two inputs with one queue each, for two outputs drawn by packets, keep these busy for 3/4."""
    random, length, count = Random(3), 64, 400
    rows = [(source, random.choice((2, 4)), length, 0) for _ in range(count) for source in (0, 1)]
    net = mesh((3, 2), 1, 4, 20_000)
    run = noc_tools.run(net, packets(rows))
    found = flits_since(run, 1000) / 2 / (net.cycles - 1000)
    expected = 0.75 * length / (length + 4)
    what = "flits a cycle at each of two outputs, two queues"
    yield Outcome("head of line", what, f"{expected:.3f}", share(found, expected))


# ---- 9 and 10. curves of whole networks


def most_accepted(nets: Iterable[tuple[Network, str, int]], jobs: int) -> list[float]:
    """The greatest accepted load of networks under a pattern with packets of a length."""
    loads = [0.05 * step for step in range(1, 14)]
    asked = [
        Experiment(net, Demand(pattern, load, length), Window(1000, 2000), parts=False)
        for net, pattern, length in nets for load in loads
    ]
    accepted = [found.figures.accepted for found in measured_side_by_side(asked, jobs)]
    return [max(accepted[n:n + len(loads)]) for n in range(0, len(accepted), len(loads))]


def constant_storage(jobs: int) -> Outcomes:
    """16 slots at each input as more and shallower channels: throughput rises with the channels."""
    splits = [(1, 16), (2, 8), (4, 4), (8, 2)]
    for length in (8, 20):
        nets = [(mesh((8, 8), *split, 3000), "uniform", length) for split in splits]
        found = most_accepted(nets, jobs)
        figures = " ".join(f"{each / 0.5:.2f}" for each in found)
        yield Outcome("16 slots", f"of capacity, 1 2 4 8 channels, L = {length}", "rises", figures)


def routing(jobs: int) -> Outcomes:
    """Dimension order is better where traffic is spread, and adaptive routing where it is not."""
    net = mesh((8, 8), 3, 5, 3000)
    pairs = [
        (replace(net, rule=rule), pattern, 5)
        for pattern in ("bit-complement", "transpose") for rule in ("dor", "adaptive")
    ]
    found = most_accepted(pairs, jobs)
    spread, crossed = ("bit-complement", "dor has more"), ("transpose", "adaptive has more")
    for (pattern, expected), (dor, adaptive) in [(spread, found[:2]), (crossed, found[2:])]:
        figures = f"{dor:.3f}, {adaptive:.3f}"
        yield Outcome("routing", f"greatest load, dor and adaptive, {pattern}", expected, figures)


EXPERIMENTS = [
    zero_load, conservation, links, credits_back, one_queue, little, bounds, head_of_line,
    constant_storage, routing,
]


def line_of(outcome: Iterable[str]) -> str:
    """A line of the table."""
    return "  ".join(field.ljust(width) for field, width in zip(outcome, WIDTHS)).rstrip()


def main() -> None:
    parser = ArgumentParser(description=__doc__.splitlines()[0])
    told = "runs side by side; by default all processors"
    parser.add_argument("--jobs", type=int, default=processors(), metavar="N", help=told)
    jobs = parser.parse_args().jobs
    print(line_of(Outcome._fields))
    for experiment in EXPERIMENTS:
        for outcome in experiment(jobs):
            print(line_of(outcome), flush=True)


if __name__ == "__main__":
    main()
