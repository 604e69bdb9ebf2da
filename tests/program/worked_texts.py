"""Joined texts and their answers, worked out by hand: first faults, runs that are cut off or in which nothing happens
for long, and rings after each number of cycles."""
from dataclasses import replace
from typing import TYPE_CHECKING

from fault_lines import HEADERS

from noc_tools.network import Network

if TYPE_CHECKING:
    from run_process import Calls

TRAFFIC_HEADER, REPORT_HEADER = HEADERS["traffic"], HEADERS["latency"]
TRACE_HEADER = "cycle,router,port,vc,verdict,packet,out,permitted\n"
MOST_PACKETS = 20000
# Traffic on a line of two routers with one channel and one class, and its first fault.
BAD_TRAFFIC = [
    ("1,1,0,1,0\n", "fault network 1 SelfPacket row 0\n"),
    ("0,2,0,1,0\n", "fault network 2 BadNode row 0\n"),
    ("0,1,1,1,0\n", "fault network 3 BadClass row 0\n"),
    ("0,1,0,0,0\n", "fault network 4 BadLength row 0\n"),
    ("0,1,0,65,0\n", "fault network 4 BadLength row 0\n"),
    ("0,1,0,1,1000001\n", "fault network 7 BadDue row 0\n"),
    ("0,1,0,1,0\n0,1,0\n", "fault traffic 10 BadCount row 1\n"),
    ("1,1,0,1,0\n0,1,0,x,0\n", "fault traffic 11 BadNumber row 1 column 3\n"),
    ("0,1,0,1,0\n" * (MOST_PACKETS + 1), "fault network 5 TooMany\n"),
]
LINE = Network("mesh", (2,), 1, 2, 1, "dor", 12)
# A configuration whose values do not go together, and its first fault, which comes before that of the traffic.
BAD_CONFIGS = [
    (replace(LINE, radix=(17,)), "fault shape 2 BadRadix\n"),
    (replace(LINE, radix=(1,)), "fault shape 2 BadRadix\n"),
    (replace(LINE, radix=(17, 2, 2, 2)), "fault shape 1 BadDimensions\n"),
    (replace(LINE, radix=(16, 16, 2)), "fault shape 3 TooManyNodes\n"),
    (replace(LINE, channels=9), "fault config 8 BadValue key channels\n"),
    (replace(LINE, rule="table"), "fault option 4 NoTable\n"),
    (replace(LINE, radix=(17,), rule="table"), "fault option 4 NoTable\n"),
    (replace(LINE, channels=4, classes=3), "fault relation 1 WrongShape\n"),
    (replace(LINE, radix=(3,), rule="west-first"), "fault relation 1 WrongShape\n"),
]
# Four packets of which each goes half round a ring of four. With one channel they wait for each other from the fifth
# cycle on.
AROUND = "0,2,0,4,0\n1,3,0,4,0\n2,0,0,4,0\n3,1,0,4,0\n"
FIRST_STUCK = 5
# A line with a packet that is due in cycle 500, after so many cycles: its last event, and its counts in the stalls.
# The packet is injected and routed in its due cycle.
LATE = "0,1,0,1,500\n"
AFTER_CYCLES = [
    (500, "-", [(500, 0, 0, 0), (500, 0, 0, 0)]), (501, "500", [(500, 1, 0, 0), (501, 0, 0, 0)]),
    (1000, "506", [(997, 1, 1, 1), (997, 1, 1, 1)]),
]
# In which cycles a packet of three flits moves out of its source router where the buffers have so many slots: the third
# flit waits for the credit of the first one, or each for that of the one before it.
MOVES = [(2, (2, 3, 6)), (1, (2, 6, 8))]
# Packets that never meet on a cube of eight routers, and when they are out: a head takes three cycles for each of its
# hops and two to leave, and each flit behind it one.
ON_A_CUBE = [("0,7,0,4,0", 14), ("7,1,0,1,50", 58)]
# A ring of a torus that is stuck, and another ring with one packet after the other, between which nothing happens.
BESIDE = AROUND + "6,8,0,4,300\n4,11,0,4,30000\n"


def joined(network: Network, traffic: str) -> bytes:
    """A joined text."""
    return f"{network.text()}---\n{TRAFFIC_HEADER}{traffic}".encode()


def first_faults(calls: "Calls") -> None:
    """Of the traffic, and before it of the configuration."""
    for traffic, fault in BAD_TRAFFIC:
        calls.answers(f"traffic {traffic[:30]!r}", [], fault.encode(), given=joined(LINE, traffic))
    for network, fault in BAD_CONFIGS:
        calls.answers(f"configuration {network}", [], fault.encode(), given=joined(network, "0,1,0\n"))


def short_runs(calls: "Calls") -> None:
    """A packet that is still under way, and the largest mesh with four channels and classes, which has no packets."""
    calls.answers("a run of five cycles", [], (REPORT_HEADER + "0,0,1,0,1,0,-,-\n").encode(),
                  given=joined(replace(LINE, cycles=5), "0,1,0,1,0\n"))
    largest = Network("mesh", (16, 16), 4, 2, 4, "dor", 1)
    calls.answers("the largest mesh", [], REPORT_HEADER.encode(), given=joined(largest, ""))


def rings_after_each_cycle(calls: "Calls") -> None:
    """A ring that is stuck from its fifth cycle on, and one with a dateline, which never is."""
    for channels, rule, most in ((1, "dor", 20), (2, "dateline", 60)):
        for cycles in range(1, most + 1):
            given = joined(Network("torus", (4,), channels, 1, 1, rule, cycles), AROUND)
            status = 5 if rule == "dor" and FIRST_STUCK <= cycles else 0
            ran = calls.run([], given=given)
            calls.count(f"{rule} after {cycles} cycles", (ran.returncode, ran.stderr) == (status, b""), ran)


def put_files(calls: "Calls", network: Network, traffic: str) -> None:
    """The same as two files."""
    calls.put(given=network.text().encode(), given_traffic=(TRAFFIC_HEADER + traffic).encode())


def moves_by_credits(calls: "Calls") -> None:
    for buffer, cycles in MOVES:
        put_files(calls, replace(LINE, buffer=buffer), "0,1,0,3,0\n")
        lines = "".join(f"{cycle},0,local,0,Moved,0,+0.0,-\n" for cycle in cycles)
        calls.answers(f"moves with {buffer} slots", ["trace", "given", "given_traffic", "--router", "0", "--verdict",
                                                     "Moved"], (TRACE_HEADER + lines).encode())


def jumps_to_late_packets(calls: "Calls") -> None:
    """Runs that end before, in and after the due cycle of a packet."""
    for cycles, last_event, (sent, arrived) in AFTER_CYCLES:
        put_files(calls, replace(LINE, buffer=4, cycles=cycles), LATE)
        words = ["run", "given", "given_traffic", "--report"]
        ran = calls.run([*words, "summary"])
        calls.count(f"last event after {cycles} cycles", f"\nlast_event {last_event}\n".encode() in ran.stdout, ran)
        ran = calls.run([*words, "stalls"])
        lines = [f"{channel},{','.join(map(str, counts))},0,0,0,0,0,0" for channel, counts in
                 (("0,local,0", sent), ("1,-0,0", arrived), ("0,+0,0", (cycles, 0, 0, 0)))]
        calls.count(f"counts after {cycles} cycles", set(lines) < set(ran.stdout.decode().splitlines()), ran)


def lone_packets(calls: "Calls") -> None:
    report = "".join(f"{number},{packet},{out},{out - int(packet.split(',')[4])}\n"
                     for number, (packet, out) in enumerate(ON_A_CUBE))
    for channels in (4, 8):
        cube = Network("mesh", (2, 2, 2), channels, 16, 1, "dor", 80)
        calls.answers(f"lone packets, {channels} channels", [], (REPORT_HEADER + report).encode(),
                      given=joined(cube, "".join(f"{packet}\n" for packet, _ in ON_A_CUBE)))


def jam_beside_a_ring(calls: "Calls") -> None:
    """The packets of the first ring never come out, and those of the other one do, of which one is due before the end
    of a short run."""
    for cycles, left in ((400, ["0", "1", "2", "3", "5"]), (2_000_000, ["0", "1", "2", "3"])):
        ran = calls.run([], given=joined(Network("torus", (4, 3), 1, 1, 1, "dor", cycles), BESIDE))
        found = [line.split(",")[0] for line in ran.stdout.decode().splitlines() if line.endswith(",-,-")]
        calls.count(f"a jam beside a ring, {cycles} cycles", (ran.returncode, ran.stderr, found) == (5, b"", left), ran)


def worked_texts(calls: "Calls") -> None:
    """All of these texts."""
    for group in (first_faults, short_runs, rings_after_each_cycle, moves_by_credits, jumps_to_late_packets,
                  lone_packets, jam_beside_a_ring):
        group(calls)
