#!/usr/bin/env python3
"""Makes the workloads of the performance figures in a folder: NAME.toml (a configuration) and NAME.csv (its traffic).

    make_workloads.py FOLDER

What is random comes from the generator below alone, so the files never differ from one machine to the next. Each
workload stays within the simulator's limits. The load that is offered is in flits per node and cycle.
"""
import sys
from collections.abc import Callable, Sequence
from dataclasses import dataclass, replace
from functools import cached_property
from pathlib import Path

sys.path.append(str(Path(__file__).resolve().parent.parent))
from noc_tools.network import Network  # noqa: E402
from noc_tools.traffic import MOST_PACKETS, Row, traffic_text  # noqa: E402

MULTIPLIER = 6364136223846793005
INCREMENT = 1442695040888963407
WORD = 1 << 64


class Random:
    """A linear congruential generator over 64 bits, of which the upper 31 are used."""

    def __init__(self, seed: int) -> None:
        self.state = (seed * 2862933555777941757 + 3037000493) % WORD
        for _ in range(8):
            self.below(2)

    def below(self, bound: int) -> int:
        self.state = (self.state * MULTIPLIER + INCREMENT) % WORD
        return (self.state >> 33) % bound

    def one_of(self, values: Sequence[int]) -> int:
        return values[self.below(len(values))]


# A pattern gives the destination of a packet from its source, or None where the source sends nothing.
Pattern = Callable[[Random, int], int | None]


def uniform(nodes: int) -> Pattern:
    """Every other node alike."""

    def destination(random: Random, source: int) -> int | None:
        other = random.below(nodes - 1)
        return other + 1 if other >= source else other

    return destination


def transpose(radix: int) -> Pattern:
    """From column x and row y to column y and row x."""

    def destination(_: Random, source: int) -> int | None:
        y, x = divmod(source, radix)
        return None if x == y else x * radix + y

    return destination


def hotspot(nodes: int, spots: Sequence[int], percent: int) -> Pattern:
    """One of a few nodes for so many packets in a hundred, else uniform."""
    elsewhere = uniform(nodes)

    def destination(random: Random, source: int) -> int | None:
        if random.below(100) < percent:
            spot = random.one_of(spots)
            if spot != source:
                return spot
        return elsewhere(random, source)

    return destination


@dataclass
class Workload:
    """A network, and packets with uniform sources that are due uniformly in the cycles 0 to span - 1."""

    name: str
    network: Network
    seed: int
    lengths: list[int]
    span: int
    pattern: Pattern
    packets: int = MOST_PACKETS

    @cached_property
    def rows(self) -> list[Row]:
        """The rows of the packets."""
        random = Random(self.seed)
        rows: list[Row] = []
        while len(rows) < self.packets:
            source = random.below(self.network.nodes)
            destination = self.pattern(random, source)
            if destination is not None:
                # (the order of the draws is part of the workload)
                message_class, length = random.below(self.network.classes), random.one_of(self.lengths)
                rows.append((source, destination, message_class, length, random.below(self.span)))
        return rows

    def with_channels(self, channels: int | None) -> "Workload":
        """The same with so many virtual channels, where a number is named."""
        return replace(self, network=replace(self.network, channels=channels)) if channels else self

    def config(self, cycles: int | None = None) -> str:
        """The configuration's text, by default with the workload's own number of cycles."""
        return replace(self.network, cycles=cycles or self.network.cycles).text()

    def traffic(self) -> str:
        """The text of the traffic."""
        return traffic_text(self.rows)


def texts_in(folder: Path, load: Workload) -> list[str]:
    """Writes the two texts of a workload into files; returns their names."""
    names = [folder / f"{load.name}.toml", folder / f"{load.name}.csv"]
    for name, text in zip(names, (load.config(), load.traffic())):
        name.write_bytes(text.encode())
    return [str(name) for name in names]


def workloads() -> list[Workload]:
    mesh8, mesh16 = Network("mesh", (8, 8), 4, 4, 1, "dor", 0), Network("mesh", (16, 16), 4, 8, 1, "dor", 44000)
    return [
        # 0.11, some 30% of what the network takes
        Workload("a_long", replace(mesh8, cycles=182000), 2, [64], 181800, uniform(64)),
        # the same load in short packets
        Workload("a_mesh8_30", replace(mesh8, cycles=11500), 1, [4], 11400, uniform(64)),
        # 0.5, more than it takes; packets are left at the end
        Workload("b_long", replace(mesh8, cycles=62000), 4, [64], 40000, uniform(64)),
        Workload("b_mesh8_sat", replace(mesh8, cycles=3300), 3, [4], 2500, uniform(64)),
        # 0.15
        Workload("c_torus8", Network("torus", (8, 8), 2, 4, 1, "dateline", 133500), 5, [64], 133000, uniform(64)),
        # 0.12, more than it takes
        Workload("d_transpose16", mesh16, 6, [64], 41000, transpose(16)),
        # ten packets in all
        Workload("e_idle16", replace(mesh16, buffer=4, cycles=20000), 7, [4], 20000, uniform(256), packets=10),
        # 0.15, more than it takes: a fifth of the packets goes to two nodes
        Workload(
            "f_hotspot8", replace(mesh8, rule="west-first", cycles=75000), 8, [4, 64], 70800, hotspot(64, [27, 36], 20)
        ),
        # 0.3
        Workload("g_mesh444", Network("mesh", (4, 4, 4), 2, 4, 1, "dor", 67000), 9, [64], 66600, uniform(64)),
        # 0.2, more than it takes
        Workload(
            "h_torus16", Network("torus", (16, 16), 4, 4, 2, "dateline", 20000), 10, [16, 64], 15600, uniform(256)
        ),
    ]


def chosen(only: Sequence[str] | None, channels: int | None) -> list[Workload]:
    """The workloads of these names, or all where none is named, as `with_channels` has them."""
    return [load.with_channels(channels) for load in workloads() if not only or load.name in only]


def large_workloads() -> list[Workload]:
    """Two more of 256 routers, with which bench/workers.py measures."""
    return [
        # 0.42, more than it takes
        Workload("i_mesh16", Network("mesh", (16, 16), 4, 4, 1, "dor", 12000), 22, [64], 12000, uniform(256)),
        # 0.13
        Workload(
            "j_mesh884", Network("mesh", (8, 8, 4), 4, 4, 1, "dor", 24000), 23, [64], 23500, uniform(256), packets=12000
        ),
    ]


def main() -> None:
    if len(sys.argv) != 2:
        sys.exit("usage: make_workloads.py FOLDER")
    folder = Path(sys.argv[1])
    folder.mkdir(parents=True, exist_ok=True)
    for load in workloads() + large_workloads():
        texts_in(folder, load)


if __name__ == "__main__":
    main()
