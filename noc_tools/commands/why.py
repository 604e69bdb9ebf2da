"""Tells why a packet waits, or what the slowest packets waited for.

Without CYCLE it tells the whole life of the packet: a line for each place on its way, with the cycles that it had
each verdict there. A verdict says what an input channel did in a cycle, or what it lacked, as 'noc explain' gives it.
Then each cycle from the due one on is charged once, so that the parts add up to the life. That is read from the end
backwards, beginning with the last flit: where a channel had no flit, the channel before it counts; where it had no
credit, the next one counts, unless that moved a flit. At last, for the longest of these waits, it tells which packets
held what was waited for, or won it, and in how many cycles. Where they are more than three, it also says of which
class, from where and to where most of them were.

With CYCLE each line is a step: a packet, the router and the input channel where it stands, the verdict of that
channel in CYCLE, and what it waits for. The next line says where that stands. The last step is a packet that moves,
or one that comes back to a step before: then these packets wait for one another. Where a packet may go by several
channels, the steps follow the one that leads to a packet that moves in the fewest steps.

With --slowest in place of PACKET it tells to what the cycles of many packets went: those with the longest latencies,
so many or a part of them as 1%, of one class, or due in the cycles A to B - 1. Each cycle of each of them is charged
once, as above, from the due one to that in which it was out, or to the last one of the run. First come the causes.
Then three lines say who was ahead: of which classes, sources and destinations the packets were that were there before
or instead. At last come the places, each with these packets, and how many cycles of the waiting each had:

    queue of node      who came in last at the node; and how many flits came in in a cycle, which is one at most
    NoIdleChannel      who had the channel that the packet got in the end, or else the first that it may take
    LostChannel        who was granted the channel
    LostInput          who was picked at the port by which both came in
    LostSwitch         who won the port by which both go on
    NoCredit           nobody: its own flits fill the next buffer
    its own way        nobody: heads that are routed and granted a channel, and flits that move

With --csv all shares are rows: the packet, the cause, the router and the channel, the packet that was there before or
instead ('-' where there is none), and the cycles. They add up to the latencies of the packets and one cycle for each.

CONFIG, TRAFFIC and F are files, one of them '-' for standard input. With --drain the run goes on until all packets
are out, as by 'noc run --drain'; where some never are, until nothing happens any more. With CYCLE the network is run
once, by 'noc trace', and once more where only that tells whether the packet is out: at the same time, where a run
takes long. A life takes a run for the packet, and then one for each router where it waited long, up to that wait,
side by side; a run that takes long is shared by several processes, as far as processors are free. For the slowest
packets the run is traced twice: first what the heads of all packets do, and then what is done where these packets are,
once for each thousand of them.

For example:

    noc-tools why config.toml traffic.csv 3
    noc-tools why config.toml traffic.csv 3 20
    noc-tools why config.toml traffic.csv --slowest 1%
"""
import sys
from argparse import ArgumentParser, Namespace
from collections import Counter
from collections.abc import Callable, Iterable, Iterator

from ..arguments import PACKET_HELP, add, add_run, run_of
from ..causes import Ahead, Blame, Share, ahead_of, blame_of, candidates, slowest
from ..errors import Refused
from ..findings import GRANTED, MOVED, NO_CHANNEL, ROUTED
from ..life import QUEUE, Holders, Life, Stay, Wait, held_waits, life_of
from ..runs import ArrivalTimes, Run
from ..traffic import Packet
from ..waiting import Snapshot, waiting_lines
from ..words import counted, stretch

# So many of the packets are told of that held what was waited for, and of the places to which the most cycles went.
HOLDERS, PLACES = 3, 10
# What a packet says that nothing keeps.
OWN_WAY = (MOVED, ROUTED, GRANTED)


def add_arguments(parser: ArgumentParser) -> None:
    add_run(parser)
    add(parser, "packet PACKET", PACKET_HELP, type=int, nargs="?")
    add(parser, "cycle CYCLE", "the cycle; the whole life where it is not given", type=int, nargs="?")
    many = parser.add_argument_group("in place of PACKET")
    add(many, "--slowest N|P%", "the packets with the longest latencies, as 20 or 1%%")
    add(many, "--class C", "of the packets of this class", dest="message_class", type=int)
    add(many, "--window A:B", "of those due in the cycles A to B - 1; by default in all")
    add(many, "--csv", "all shares as rows")


def place_name(stay: Stay) -> str:
    """Where a packet stays."""
    return f"queue of node {stay.router}" if stay.channel == QUEUE else f"router {stay.router}, {stay.channel}"


def listed(counts: Counter[str]) -> str:
    """Counts in words, the greatest first, and of equals the first one found."""
    return ", ".join(f"{name} {count}" for name, count in counts.most_common())


def title(run: Run, life: Life) -> str:
    """What packet it is, and when it was out."""
    packet, last = life.packet, run.network.cycles - 1
    end = f"out in cycle {life.out}" if life.out is not None else f"not out in cycle {last}, the last"
    return f"packet {packet.number}, {packet.way}: due in cycle {packet.due}, {end}."


def mostly(run: Run, held: Holders) -> str:
    """Of which class, from where and to where most of the packets were that held something, by cycles."""
    shares = [Share(0, "", 0, "", packet, count) for (packet, _), count in held.items()]
    words = {"class": "of class", "source": "from node", "destination": "to node"}
    firsts = {kind: flows[0] for kind, flows in ahead_of(run, shares).items()}
    said = [f"{words[kind]} {first.value} ({100 * first.part:.0f} %)" for kind, first in firsts.items()]
    return f"mostly {', '.join(said)}"


def wait_line(run: Run, wait: Wait, held: Holders) -> str:
    """A wait, and how many cycles each packet held what it was for; where they are many, of what kind most are."""
    first, last = wait.cycles[0], wait.cycles[-1]
    span = f"({first})" if first == last else f"({first} to {last})"
    what = f"of {wait.verdict} at router {wait.router}, {wait.channel}"
    if wait.channel == QUEUE:
        what = f"in the queue of node {wait.router}"
    said = [f"packet {packet} {words} in {count}" for (packet, words), count in held.most_common(HOLDERS)]
    more = ""
    if len(said) < len(held):
        said.append(f"{len(held) - len(said)} more")
        more = f"; {mostly(run, held)}"
    return f"{counted(len(wait.cycles), 'cycle')} {what} {span}: {', '.join(said)}{more}."


def life_lines(run: Run, number: int) -> Iterator[str]:
    """The life in words, a line as soon as it is known."""
    life = life_of(run, number)
    yield title(run, life)
    for stay in life.stays:
        counts = "" if stay.channel == QUEUE else f": {listed(stay.counts())}"
        yield f"{place_name(stay)}, {stretch(stay.first, stay.end - 1)}{counts}."
    charged = Counter(bar.verdict for _, bar in life.charged())
    yield f"Where its {counted(charged.total(), 'cycle')} went: {listed(charged)}."
    yield from (wait_line(run, *held) for held in held_waits(run, life))


def may_be_out(packet: Packet, cycle: int) -> bool:
    """Whether a packet is out before a cycle that nothing keeps waiting on its way to a neighbour."""
    return packet.due + packet.length + 4 < cycle


def cycle_lines(run: Run, packet: Packet, cycle: int) -> list[str]:
    """The steps to a root. That a packet is out may be needed, so a run that takes long begins at once."""
    with ArrivalTimes(run, cycle) as arrivals:
        if run.is_long(cycle) and may_be_out(packet, cycle):
            arrivals.begin()
        return waiting_lines(Snapshot(run, cycle, arrivals), packet)


# ---- the slowest packets


def what_packets(blame: Blame, among: int) -> str:
    """Which packets are told of."""
    left = sum(packet.out is None for packet in blame.packets)
    latencies = [packet.latency for packet in blame.packets if packet.latency is not None]
    spread = [f"with latencies from {min(latencies)} to {max(latencies)}"] if latencies else []
    told = ", and ".join(spread + ([f"{left} not out"] if left else []))
    return f"the slowest {len(blame.packets)} of {among} packets, {told}"


def cause_of(share: Share) -> str:
    """The cause as it is told."""
    return "its own way" if share.cause in OWN_WAY else share.cause


def place_of(share: Share) -> str:
    """The cause with its place."""
    if share.cause in OWN_WAY:
        return "its own way"
    if share.cause == QUEUE:
        return f"queue of node {share.router}"
    return f"{share.cause} at router {share.router}, {share.channel}"


def who_was_ahead(shares: list[Share], blame: Blame) -> str:
    """Which packets were ahead at a place, or what the packets did themselves."""
    counts: Counter[str] = Counter()
    for share in shares:
        counts[share.cause if share.by is None else f"packet {share.by} in"] += share.cycles
    said = [f"{name} {cycles}" for name, cycles in counts.most_common(HOLDERS)]
    more = [f"{len(counts) - len(said)} more"] if len(said) < len(counts) else []
    busy = f"; {blame.busy[shares[0].router]:.2f} flits a cycle came in" if shares[0].cause == QUEUE else ""
    return f": {', '.join(said + more)}{busy}"


def added_up(shares: list[Share], name_of: Callable[[Share], str]) -> list[tuple[str, int, list[Share]]]:
    """The shares by their names with the sum of their cycles, the greatest first."""
    groups: dict[str, list[Share]] = {}
    for share in shares:
        groups.setdefault(name_of(share), []).append(share)
    sums = [(name, sum(share.cycles for share in group), group) for name, group in groups.items()]
    return sorted(sums, key=lambda group: -group[1])


def flows_in_words(kind: str, flows: list[Ahead]) -> str:
    """The classes, sources or destinations of packets that were ahead."""
    name = "class" if kind == "class" else "node"
    said = [f"{name} {flow.value} in {flow.cycles} ({100 * flow.part:.1f} %)" for flow in flows[:HOLDERS]]
    more = [f"{len(flows) - len(said)} more"] if len(said) < len(flows) else []
    return f"  by {kind}: {', '.join(said + more)}"


def ahead_lines(ahead: dict[str, list[Ahead]]) -> Iterator[str]:
    """Who was ahead of these packets."""
    cycles = sum(flow.cycles for flow in ahead["class"])
    if not cycles:
        yield "Nobody was ahead of them."
        return
    yield f"Who was ahead in {cycles} of these cycles:"
    yield from (flows_in_words(kind, flows) for kind, flows in ahead.items())


def blame_lines(run: Run, blame: Blame, among: int) -> Iterator[str]:
    """To what the cycles of these packets went, the causes and the places with the most cycles first."""
    whole = sum(share.cycles for share in blame.shares)

    def line(cycles: int, words: str) -> str:
        return f"{cycles:9} {100 * cycles / whole:6.1f} %  {words}"

    yield f"Where the cycles went of {what_packets(blame, among)}:"
    for name, cycles, _ in added_up(blame.shares, cause_of):
        yield line(cycles, name)
    yield from ahead_lines(ahead_of(run, blame.shares))
    yield "At which places, and who was ahead there:"
    places = added_up(blame.shares, place_of)
    for name, cycles, shares in places[:PLACES]:
        yield line(cycles, name + who_was_ahead(shares, blame))
    rest = [cycles for _, cycles, _ in places[PLACES:]]
    if rest:
        yield line(sum(rest), f"{len(rest)} more, none above {rest[0]}")
    yield line(whole, "in all")


def blame_rows(blame: Blame) -> Iterator[str]:
    """All shares as CSV."""
    yield ",".join(Share._fields)
    for share in blame.shares:
        yield ",".join(NO_CHANNEL if value is None else str(value) for value in share)


def slowest_lines(run: Run, options: Namespace) -> Iterator[str]:
    """What is told of the slowest packets."""
    if options.packet is not None:
        raise Refused("a packet and --slowest are two questions: ask one of them")
    among = candidates(run, options.message_class, options.window)
    blame = blame_of(run, slowest(run, options.slowest, among))
    return blame_rows(blame) if options.csv else blame_lines(run, blame, len(among))


def lines_of(run: Run, options: Namespace) -> Iterable[str]:
    """What is asked for."""
    if options.slowest is not None:
        return slowest_lines(run, options)
    if options.message_class is not None or options.window is not None or options.csv:
        raise Refused("--class, --window and --csv are for --slowest")
    if options.packet is None:
        raise Refused("which packet? Give its number, or --slowest")
    if options.cycle is None:
        return life_lines(run, options.packet)
    packet = run.packet(options.packet)
    if not 0 <= options.cycle < run.network.cycles:
        raise Refused(f"the run has the cycles 0 to {run.network.cycles - 1}")
    return cycle_lines(run, packet, options.cycle)


def main(options: Namespace) -> None:
    sys.stdout.writelines(f"{line}\n" for line in lines_of(run_of(options), options))
