"""Configurations of BookSim 2: what a network here takes over, sets otherwise and leaves out.

What BookSim does where a file says nothing stands here for the keys alone without which there is
no network and no traffic. The routers of both differ in more: that is told of the keys of a file.
"""
import re
from collections.abc import Iterable, Iterator, Mapping, Sequence
from dataclasses import dataclass
from typing import NamedTuple

from .errors import Refused, refusing
from .network import (
    KINDS, LEAST_RADIX, MOST_CHANNELS, MOST_CYCLES, MOST_DIMENSIONS, MOST_PLACES, MOST_RADIX,
    MOST_ROUTERS, Network,
)
from .traffic import HOT_SPOT, LATEST_DUE, LONGEST, PERMUTATION, SHARE, UNIFORM, Demand

COMMENT = re.compile(r"//[^\n]*")
SETTING = re.compile(r"\s*([A-Za-z_]\w*)\s*=\s*(.*?)\s*", re.DOTALL)
CALL = re.compile(r"(\w+)\s*(?:\(([^)]*)\))?")
WORD = re.compile(r"[^\s,{}()]+")

BY_DEFAULT = {
    "topology": "torus", "k": "8", "n": "2", "num_vcs": "16", "vc_buf_size": "8",
    "traffic": "uniform", "packet_size": "1", "injection_rate": "0.1",
    "warmup_periods": "3", "sample_period": "1000", "burst_alpha": "0.5", "burst_beta": "0.5",
}
# What becomes of a key.
TAKEN, OTHERWISE, LEFT_OUT = "taken over", "set otherwise", "left out"
KINDS_OF_NOTES = (OTHERWISE, LEFT_OUT, TAKEN)

# By kind and routing function the rule, and a sentence where packets do not go as in BookSim.
ESCAPE = "the relation is the same, but a head asks for the free channel of the least index"
EVERY_CHANNEL = "no channels are kept apart by destination"
EVEN = "where both ways round are equally long, sources take them by turns"
Routes = tuple[str, str | None]
RULES: dict[str, dict[str, Routes]] = {
    "mesh": {
        "dor": ("dor", None), "dim_order": ("dor", None), "dim_order_ni": ("dor", EVERY_CHANNEL),
        "dim_order_pni": ("dor", EVERY_CHANNEL), "min_adapt": ("adaptive", ESCAPE),
    },
    "torus": {
        "dim_order": ("dateline-even", EVEN), "dim_order_ni": ("dateline", EVERY_CHANNEL),
        "dim_order_bal": ("dateline-balanced", "a ring has one dateline"),
        "min_adapt": ("adaptive", ESCAPE),
    },
}
NEAREST = {"mesh": "dor", "torus": "dateline"}
# The rules of which a table is made.
MADE = ("dateline-even", "dateline-balanced")
PATTERNS = {
    "uniform": UNIFORM, "bitcomp": "bit-complement", "bitrev": "bit-reverse", "shuffle": "shuffle",
    "transpose": "transpose", "tornado": "tornado", "neighbor": "neighbour",
    "randperm": PERMUTATION, "hotspot": HOT_SPOT,
}

PIPELINE = "a hop takes three cycles with its wire: a head is routed, granted and moved"
ONE_ROUND = "a switch is allocated in one round, with no iterations"
NO_SPEEDUP = "the switch has no speedup"
INPUT_FIRST, ROBIN = "separable_input_first", "round_robin"
ARBITERS = "all arbiters are round robin"
OF_REPLIES = "'noc-tools replies' adds replies to a traffic"
NO_PRIORITY = "packets have no priorities"
OWN_BUFFERS = "each channel has a buffer of its own"
FAIR = "all channels are treated alike"
# Of keys that are fixed here: the value with which BookSim does the same, and what is done.
FIXED = {
    "router": ("iq", "routers have queues at their inputs"),
    "wait_for_tail_credit": ("1", "a channel is free only when its tail's credit is back"),
    "vc_allocator": (INPUT_FIRST, "a head asks for one channel, and each channel has one arbiter"),
    "sw_allocator": (INPUT_FIRST, "the switch is allocated in one round, input first"),
    **dict.fromkeys(["arb_type", "vc_alloc_arb_type", "sw_alloc_arb_type"], (ROBIN, ARBITERS)),
    **dict.fromkeys(["alloc_iters", "vc_alloc_iters", "sw_alloc_iters"], ("1", ONE_ROUND)),
    **dict.fromkeys(["input_speedup", "output_speedup", "internal_speedup"], ("1", NO_SPEEDUP)),
    **dict.fromkeys(["routing_delay", "vc_alloc_delay", "sw_alloc_delay"], ("1", PIPELINE)),
    **dict.fromkeys(["st_prepare_delay", "st_final_delay", "output_delay"], ("0", PIPELINE)),
    "credit_delay": ("0", "a slot that a flit left can be taken again two cycles later"),
    "speculative": ("0", "nothing is speculated"),
    "noq": ("0", "routes are not looked up a hop ahead"),
    "output_buffer_size": ("-1", "there are no buffers behind the switch"),
    "hold_switch_for_packet": ("0", "the switch is allocated anew for each flit"),
    "buffer_policy": ("private", OWN_BUFFERS), "private_bufs": ("-1", OWN_BUFFERS),
    **dict.fromkeys(["vc_busy_when_full", "vc_prioritize_empty"], ("0", FAIR)),
    **dict.fromkeys(["vc_priority_donation", "vc_shuffle_requests"], ("0", FAIR)),
    "priority": ("none", NO_PRIORITY), "class_priority": ("0", NO_PRIORITY),
    "subnets": ("1", "there is one network"), "link_failures": ("0", "no link fails"),
    "use_noc_latency": ("0", "each wire takes one cycle"),
    "include_queuing": ("1", "latencies have the queue in them"),
    "classes": ("1", "all packets are of one class, the first of the file"),
    "use_read_write": ("0", OF_REPLIES),
    "max_outstanding_requests": ("0", "a node sends without waiting for replies"),
    "sim_type": ("latency", "packets come as the load says, and are measured in a window"),
}

OF_BURSTS = "a node sends so much while it is on that the load holds"
OF_THE_RUN = "a run has as many cycles as the configuration says, and 'steady' says if it settled"
NO_MEANING = "it says nothing of a mesh or torus"
NO_POWER = "no power and no area is worked out"
WATCHED = "'noc trace' and 'noc-tools why' tell what happened in a run"
PRINTED = "the reports are those of docs/FORMATS.md"
UNKNOWN = "this command does not know the key"
DROPPED = {
    "burst_r1": OF_BURSTS,
    **dict.fromkeys(["burst_alpha", "burst_beta"], "packets come by a Bernoulli process"),
    **dict.fromkeys([
        "max_samples", "latency_thres", "warmup_thres", "acc_warmup_thres", "stopping_thres",
        "acc_stopping_thres", "sim_count", "measure_stats", "batch_size", "batch_count",
    ], OF_THE_RUN),
    **dict.fromkeys([
        f"{kind}_{end}" for kind in ("read_request", "write_request", "read_reply", "write_reply")
        for end in ("begin_vc", "end_vc", "subnet", "size")
    ] + ["write_fraction"], OF_REPLIES),
    **dict.fromkeys([
        "c", "x", "y", "xr", "yr", "in_ports", "out_ports", "perm_seed", "fail_seed",
    ], NO_MEANING),
    **dict.fromkeys([
        "sim_power", "power_output_file", "tech_file", "channel_width", "channel_sweep",
    ], NO_POWER),
    **dict.fromkeys([
        "watch_file", "watch_flits", "watch_packets", "watch_transients", "watch_out",
        "deadlock_warn_timeout",
    ], WATCHED),
    **dict.fromkeys([
        "stats_out", "viewer_trace", "print_activity", "print_csv_results", "print_vc_stats",
        "pair_stats",
    ], PRINTED),
}


class Note(NamedTuple):
    """What becomes of a key with its value, and in words why."""

    kind: str
    key: str
    value: str
    words: str


@dataclass(frozen=True)
class Translation:
    """A network and a traffic for what a file of BookSim says, and a note for each of its keys."""

    network: Network
    # The rule of which a table is made, where noc does not have it.
    made_rule: str | None
    demand: Demand
    notes: list[Note]


def settings_in(text: str, name: str) -> dict[str, str]:
    """The keys of a file with their values as texts; of a key that comes twice the last counts."""
    found = {}
    for statement in filter(None, map(str.strip, COMMENT.sub("", text).split(";"))):
        setting = SETTING.fullmatch(statement)
        if setting is None:
            no_setting = f"'{statement[:40]}' is no KEY = VALUE"
            raise Refused(f"{name} is no configuration of BookSim: {no_setting}")
        found[setting[1]] = setting[2].strip('"')
    return found


def is_same(one: str, other: str) -> bool:
    """Whether two values are the same, as numbers where both are numbers."""
    try:
        return float(one) == float(other)
    except ValueError:
        return one == other


class Reader:
    """The settings of a file: each is read by what it becomes here, and noted."""

    def __init__(self, given: Mapping[str, str]) -> None:
        self.given = given
        self.notes: list[Note] = []

    def value(self, key: str) -> str:
        """A value as a text: that of the file, or BookSim's own."""
        if key not in self.given and key not in BY_DEFAULT:
            raise Refused(f"'{key}' is not set, which this command needs")
        return self.given.get(key, BY_DEFAULT.get(key, ""))

    def numbers(self, key: str) -> list[float]:
        """The numbers of a value, of one or of a list."""
        value = self.value(key)
        with refusing(ValueError, f"'{key}' is a number or a list of numbers, not '{value}'"):
            found = [float(word) for word in WORD.findall(value)]
            if not found:
                raise ValueError
            return found

    def whole(self, key: str) -> int:
        """The first number of a value, which is a whole one."""
        first = self.numbers(key)[0]
        wanted = f"'{key}' is a whole number, not '{self.value(key)}'"
        with refusing((ValueError, OverflowError), wanted):
            if first != int(first):
                raise ValueError
            return int(first)

    def call(self, key: str) -> tuple[str, str]:
        """A value that is a name, of a list the first, and what stands in brackets behind it."""
        value = self.value(key)
        found = CALL.match(value[1:].strip()) if value.startswith("{") else CALL.fullmatch(value)
        if found is None:
            raise Refused(f"'{key}' is a name, not '{value}'")
        return found[1], found[2] or ""

    def note(self, key: str, kind: str, words: str) -> None:
        """Notes what becomes of a key; of one that the file lacks BookSim's value is taken."""
        value = self.given.get(key, f"{BY_DEFAULT.get(key)}, by default")
        self.notes.append(Note(kind, key, value, words))

    def took(self, key: str, words: str, otherwise: str | None = None) -> None:
        """Notes that a key is taken over, or in which way it is set otherwise."""
        self.note(key, OTHERWISE if otherwise else TAKEN, otherwise or words)

    def note_others(self) -> None:
        """Notes the keys of the file of which nothing was read."""
        noted = {note.key for note in self.notes}
        for key, value in self.given.items():
            if key in noted:
                continue
            if key in FIXED:
                same, words = FIXED[key]
                self.note(key, TAKEN if is_same(value, same) else OTHERWISE, words)
            else:
                self.note(key, LEFT_OUT, DROPPED.get(key, UNKNOWN))


# ---- the network


def kind_in(reader: Reader) -> str:
    """Whether it is a mesh or a torus."""
    kind = reader.value("topology")
    if kind not in KINDS:
        raise Refused(f"the topology is '{kind}', and noc has meshes and tori")
    reader.took("topology", f'kind = "{kind}"')
    return kind


def radix_in(reader: Reader) -> tuple[int, ...]:
    """The radix of each dimension."""
    k, n = reader.whole("k"), reader.whole("n")
    fits = 1 <= n <= MOST_DIMENSIONS and LEAST_RADIX <= k <= MOST_RADIX and k ** n <= MOST_ROUTERS
    if not fits:
        most = f"one to {MOST_DIMENSIONS} dimensions of {LEAST_RADIX} to {MOST_RADIX}"
        raise Refused(f"k = {k} and n = {n}: noc has {most}, and {MOST_ROUTERS} routers at most")
    for key in ("k", "n"):
        reader.took(key, f"radix = {[k] * n}")
    return (k,) * n


def function_in(reader: Reader, kind: str) -> str:
    """The routing function without the name of the topology behind it."""
    return reader.value("routing_function").removesuffix(f"_{kind}")


def rule_in(reader: Reader, kind: str) -> str:
    """The rule that routes most nearly as the file says."""
    name = function_in(reader, kind)
    nearest = NEAREST[kind]
    apart = f"'{name}' has no counterpart, and figures cannot be compared"
    rule, otherwise = RULES[kind].get(name, (nearest, apart))
    if rule == "dateline-even" and reader.whole("k") % 2:
        rule, otherwise = "dateline", None
    words = f"the rule '{rule}'"
    reader.took("routing_function", words, otherwise and f"{words}: {otherwise}")
    return rule


def bounded(reader: Reader, key: str, wanted: int, most: int, words: str) -> int:
    """A number as far as noc takes it."""
    taken = max(1, min(wanted, most))
    told = f"{words} = {taken}"
    reader.took(key, told, None if taken == wanted else f"{told}, as noc has 1 to {most}")
    return taken


def channels_in(reader: Reader, kind: str, rule: str) -> int:
    """The channels of a link; a rule may need more, or an even number."""
    wanted = reader.whole("num_vcs")
    least = {"adaptive": 2 if kind == "mesh" else 3}.get(rule, 1)
    count = max(least, min(wanted, MOST_CHANNELS))
    if rule.startswith("dateline"):
        count = max(2, count - count % 2)
    taken = f"channels = {count}"
    why = f", as noc has {MOST_CHANNELS} at most" if wanted > MOST_CHANNELS else " for this rule"
    reader.took("num_vcs", taken, None if count == wanted else taken + why)
    return count


def buffer_in(reader: Reader) -> int:
    """The slots of a channel: its own, or its part of those of an input."""
    if "buf_size" in reader.given and reader.whole("buf_size") > 0:
        share = reader.whole("buf_size") // max(1, reader.whole("num_vcs"))
        return bounded(reader, "buf_size", share, MOST_PLACES, "the part of each channel, buffer")
    return bounded(reader, "vc_buf_size", reader.whole("vc_buf_size"), MOST_PLACES, "buffer")


def cycles_in(reader: Reader) -> int:
    """The cycles of the run: its middle third is measured, after a warm-up as in BookSim."""
    asked = reader.whole("warmup_periods") * reader.whole("sample_period")
    warm = max(1, min(asked, LATEST_DUE // 3))
    words = f"{warm} cycles warm up, as many are measured, and as many bring packets out"
    for key in ("warmup_periods", "sample_period"):
        reader.took(key, words, None if warm == asked else words)
    return 3 * warm


# ---- the traffic


def weights_in(reader: Reader, sizes: Sequence[float]) -> list[int] | None:
    """How often packets of each size come, where whole numbers say it."""
    if "packet_size_rate" not in reader.given:
        return [1] * len(sizes)
    rates = reader.numbers("packet_size_rate")
    are_whole = all(rate in range(LONGEST + 1) for rate in rates) and any(rates)
    return list(map(int, rates)) if are_whole and len(rates) == len(sizes) else None


def lengths_read(reader: Reader) -> tuple[int, ...]:
    """The lengths of packets: a list has one for each class, and a list in it all of a class."""
    given = reader.numbers("packet_size")
    is_of_classes = len(given) > 1 and reader.value("packet_size").count("{") == 1
    sizes = given[:1] if is_of_classes else given
    if not all(size in range(1, LONGEST + 1) for size in sizes):
        most = f"noc has packets of 1 to {LONGEST} flits"
        raise Refused(f"'packet_size' is {reader.value('packet_size')}: {most}")
    weights = None if is_of_classes else weights_in(reader, sizes)
    often = weights or [1] * len(sizes)
    each = [int(size) for size, weight in zip(sizes, often) for _ in range(weight)]
    words = f"LENGTH is {'+'.join(map(str, each))}"
    otherwise = None if weights else f"{words}, {'the first class' if is_of_classes else 'all alike'}"
    reader.took("packet_size", words, otherwise)
    if "packet_size_rate" in reader.given:
        reader.took("packet_size_rate", words, otherwise)
    return tuple(each)


def load_in(reader: Reader, lengths: tuple[int, ...]) -> float:
    """The load in flits per node and cycle."""
    rate, *others = reader.numbers("injection_rate")
    in_flits = "injection_rate_uses_flits"
    is_in_flits = in_flits in reader.given and reader.whole(in_flits) != 0
    load = rate if is_in_flits else rate * sum(lengths) / len(lengths)
    words = f"a load of {load:g} flits per node and cycle"
    reader.took("injection_rate", words, f"{words}, that of the first class" if others else None)
    if in_flits in reader.given:
        reader.took(in_flits, words)
    return load


def spots_in(reader: Reader, inside: str) -> tuple[tuple[int, ...], bool]:
    """The nodes of a hot spot, and whether each gets as many packets: in brackets stand a node or a
    list of nodes, and behind it how often each comes."""
    parts = inside.split("}" if "{" in inside else ",")
    wanted = f"'traffic' is hotspot({{NODE,..}}), not '{reader.value('traffic')}'"
    with refusing(ValueError, wanted):
        nodes, rates = ([int(word) for word in WORD.findall(part)] for part in (*parts, "", "")[:2])
    return tuple(node for node in nodes if node >= 0), len(set(rates)) < 2


def pattern_in(reader: Reader) -> tuple[str, tuple[int, ...] | None]:
    """The pattern, and the nodes of a hot spot; BookSim draws a node that is below zero."""
    name, inside = reader.call("traffic")
    pattern = PATTERNS.get(name, UNIFORM)
    words, otherwise = f"the pattern {pattern}", ""
    spots: tuple[int, ...] = ()
    if pattern == HOT_SPOT:
        spots, is_alike = spots_in(reader, inside)
        words += " with --share 1, where a hot spot itself sends to all others"
        otherwise = "" if is_alike else "each hot spot gets as many packets"
        otherwise = otherwise if spots else "the hot spot is the node in the middle"
    elif name not in PATTERNS:
        otherwise = f"'{name}' has no counterpart"
    elif pattern == UNIFORM:
        words += ", where no node sends to itself"
    elif pattern == PERMUTATION:
        otherwise = "another one is drawn"
    reader.took("traffic", words, f"{words}: {otherwise}" if otherwise else None)
    return pattern, spots or None


def chances_in(reader: Reader, inside: str) -> tuple[float, float]:
    """The probabilities that a node goes on, and off: in brackets behind 'on_off', or as keys."""
    with refusing(ValueError, f"'injection_process' is on_off(ALPHA,BETA), not on_off({inside})"):
        given = list(map(float, WORD.findall(inside)))
    if len(given) < 2:
        given = [reader.numbers(key)[0] for key in ("burst_alpha", "burst_beta")]
    alpha, beta = given[:2]
    if not (1 / MOST_CYCLES <= alpha <= 1 and 1 / MOST_CYCLES <= beta <= 1):
        raise Refused("the probabilities of 'on_off' are above 0 and at most 1")
    return alpha, beta


def burst_in(reader: Reader) -> tuple[int, int] | None:
    """The mean cycles for which a node is on and off, where it is so by turns."""
    if "injection_process" not in reader.given:
        return None
    name, inside = reader.call("injection_process")
    if name != "on_off":
        words = "a Bernoulli process"
        unknown = None if name == "bernoulli" else f"{words}: '{name}' has no counterpart"
        reader.took("injection_process", words, unknown)
        return None
    alpha, beta = chances_in(reader, inside)
    burst = round(1 / beta), round(1 / alpha)
    words = f"--burst {burst[0]}:{burst[1]}, the mean cycles on and off"
    is_rounded = (1 / burst[0], 1 / burst[1]) != (beta, alpha)
    for key in ("injection_process", "burst_alpha", "burst_beta"):
        if key in reader.given:
            reader.took(key, words, f"{words}, rounded" if is_rounded else None)
    return burst


def demand_in(reader: Reader) -> Demand:
    """The traffic."""
    lengths = lengths_read(reader)
    load = load_in(reader, lengths)
    pattern, spots = pattern_in(reader)
    share = 1.0 if pattern == HOT_SPOT else SHARE
    seed = reader.whole("seed") if "seed" in reader.given else 1
    if "seed" in reader.given:
        reader.took("seed", f"--seed {seed}; the packets are others")
    return Demand(pattern, load, lengths, seed, spots=spots, share=share, burst=burst_in(reader))


def translated(given: Mapping[str, str]) -> Translation:
    """The network and the traffic of a file, and what becomes of its keys."""
    reader = Reader(given)
    kind, radix = kind_in(reader), radix_in(reader)
    rule = rule_in(reader, kind)
    made_rule = rule if rule in MADE else None
    channels, buffer = channels_in(reader, kind, rule), buffer_in(reader)
    cycles = cycles_in(reader)
    network = Network(kind, radix, channels, buffer, 1, "table" if made_rule else rule, cycles)
    demand = demand_in(reader)
    demand.check(network)
    reader.note_others()
    return Translation(network, made_rule, demand, reader.notes)


def words_of(demand: Demand) -> list[str]:
    """The options of 'noc-tools load' for a traffic, but for its load and length."""
    words = [] if demand.pattern == UNIFORM else ["--pattern", demand.pattern]
    if demand.pattern == HOT_SPOT:
        words += ["--share", f"{demand.share:g}"]
        words += ["--spots", ",".join(map(str, demand.spots))] if demand.spots else []
    words += ["--seed", str(demand.seed)] if demand.seed != 1 else []
    words += ["--burst", "{}:{}".format(*demand.burst)] if demand.burst else []
    return words


def listed(notes: Iterable[Note]) -> Iterator[str]:
    """The notes as lines, those that change figures first."""
    for kind in KINDS_OF_NOTES:
        some = [note for note in notes if note.kind == kind]
        if some:
            yield f"{kind}:"
        yield from (f"  {note.key} = {note.value}: {note.words}" for note in some)
