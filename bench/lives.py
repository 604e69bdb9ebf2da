#!/usr/bin/env python3
"""Measures the commands why and timeline on the network of make_saturated.py, with the program that runs here.

    lives.py FOLDER [--each N] [--times N]

FOLDER has saturated.toml and saturated.csv. N packets of each of these kinds are asked about: those that took
longest, those in the middle, those that never came in, and those that stand at another router than their source in
the last cycle. A line is one call: the least of so many times, in seconds of the clock, and whether that is within
two seconds. The last lines name the worst calls.
"""
import argparse
import subprocess
import sys
import time
from collections.abc import Sequence
from pathlib import Path

sys.path.append(str(Path(__file__).resolve().parent.parent))
from noc_tools import Packet, Run  # noqa: E402
from noc_tools.program import DONE, STUCK, program  # noqa: E402

TOOLS = Path(__file__).resolve().parent.parent / "noc-tools"
LIMIT = 2.0
SLOWEST = 5


class Calls:
    """Calls, each with the least of some times."""

    def __init__(self, files: list[str], times: int) -> None:
        self.files, self.times = files, times
        self.took: list[tuple[float, str]] = []

    def time(self, name: str, command: Sequence[str], *words: object) -> str:
        """Times a call on the files, says how long it took, and returns what it prints."""
        called = [*command, *self.files, *map(str, words)]
        best = float("inf")
        for _ in range(self.times):
            begin = time.perf_counter()
            ran = subprocess.run(called, capture_output=True, text=True)
            best = min(best, time.perf_counter() - begin)
            if ran.returncode not in (DONE, STUCK):
                sys.exit(f"{' '.join(map(str, called))}: status {ran.returncode}: {ran.stderr}")
        self.took.append((best, name))
        print(f"{best:6.2f} s  {'ok  ' if best <= LIMIT else 'SLOW'}  {name}", flush=True)
        return ran.stdout

    def time_packet(self, kind: str, packet: Packet, last: int) -> None:
        """Times all that can be asked about a packet."""
        why, timeline = ([str(TOOLS), command] for command in ("why", "timeline"))
        number, end = packet.number, last if packet.out is None else packet.out
        said = self.time(f"why {number}, {kind}", why, number).splitlines()
        waits = [line for line in said if " cycles of " in line and f" at router {packet.source}," not in line]
        print(f"          {len(waits)} of the long waits are at other routers than its source")
        for cycle in (packet.due, (packet.due + end) // 2, min(end + 1, last)):
            self.time(f"why {number} {cycle}, {kind}", why, number, cycle)
        self.time(f"timeline {number}, {kind}", timeline, number)


def spread(packets: Sequence[Packet], number: int) -> list[Packet]:
    """So many of these, from the first to the last."""
    return [packets[at * (len(packets) - 1) // max(1, number - 1)] for at in range(min(number, len(packets)))]


def kinds(run: Run, last: int, each: int) -> dict[str, list[Packet]]:
    """Packets by kind."""
    out = sorted((packet for packet in run.packets if packet.out is not None), key=lambda packet: packet.latency or 0)
    stands: dict[int, set[int]] = {}
    for finding in run.trace(first=last, last=last):
        if finding.packet is not None:
            stands.setdefault(finding.packet, set()).add(finding.router)
    behind = [run.packets[number] for number in sorted(stands) if stands[number] != {run.packets[number].source}]
    never = [packet for packet in run.packets if packet.out is None and packet.number not in stands]
    return {
        "took longest": out[-each:],
        "in the middle": spread(out[len(out) // 4:3 * len(out) // 4], each),
        "never came in": spread(never, each),
        "stands on its way at the end": spread(behind, each),
    }


def main() -> None:
    parser = argparse.ArgumentParser(description=__doc__, formatter_class=argparse.RawDescriptionHelpFormatter)
    parser.add_argument("folder", type=Path)
    parser.add_argument("--each", type=int, default=3)
    parser.add_argument("--times", type=int, default=2)
    options = parser.parse_args()
    config, traffic = (str(options.folder / f"saturated.{end}") for end in ("toml", "csv"))
    run, noc, calls = Run(config, traffic), str(program()), Calls([config, traffic], options.times)
    last = run.network.cycles - 1
    asked = kinds(run, last, options.each)
    first = asked["took longest"][-1]
    calls.time("noc run", [noc, "run"])
    calls.time("noc trace, last cycle alone", [noc, "trace"], "--from", last)
    calls.time("noc trace --packet", [noc, "trace"], "--packet", first.number)
    calls.time("noc trace --router", [noc, "trace"], "--router", first.source)
    calls.time("noc trace --router --changes", [noc, "trace"], "--router", first.source, "--changes")
    for kind, packets in asked.items():
        for packet in packets:
            calls.time_packet(kind, packet, last)
    print("\nthe slowest:")
    for took, name in sorted(calls.took, reverse=True)[:SLOWEST]:
        print(f"{took:6.2f} s  {name}")


if __name__ == "__main__":
    main()
