#!/usr/bin/env python3
"""Writes a network to measure the commands why and timeline with: FOLDER/saturated.toml and FOLDER/saturated.csv.

    make_saturated.py FOLDER

A mesh of 16 by 16 with two channels and four places, 20,000 cycles, dimension order; packets of 64 flits, half of them
by transpose and half of them uniform, at more than the network takes (4.7 flits in 20 cycles at each node). The same
bytes on every machine. bench/lives.py measures with it.
"""
import sys
from collections.abc import Iterator
from itertools import islice
from pathlib import Path
from random import Random

sys.path.append(str(Path(__file__).resolve().parent.parent))
from noc_tools.network import Network  # noqa: E402
from noc_tools.traffic import LONGEST, MOST_PACKETS, Row, below, traffic_text  # noqa: E402

NETWORK = Network("mesh", (16, 16), 2, 4, 1, "dor", 20000)
LOAD = 0.235


def packets(random: Random) -> Iterator[Row]:
    """The rows of the packets."""
    for due in range(NETWORK.cycles):
        for source in range(NETWORK.nodes):
            if random.random() < LOAD / LONGEST:
                across = source % 16 * 16 + source // 16
                other = below(random, NETWORK.nodes)
                goes_to = across if random.random() < 0.5 else other
                if goes_to != source:
                    yield source, goes_to, 0, LONGEST, due


def main() -> None:
    folder = Path(sys.argv[1])
    folder.mkdir(parents=True, exist_ok=True)
    rows = list(islice(packets(Random(41)), MOST_PACKETS))
    (folder / "saturated.toml").write_text(NETWORK.text())
    (folder / "saturated.csv").write_text(traffic_text(rows))
    print(f"{len(rows)} packets in {folder}/saturated.csv")


if __name__ == "__main__":
    main()
