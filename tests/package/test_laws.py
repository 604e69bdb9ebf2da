"""Laws of the pure modules that hold for all inputs: hypothesis looks for one that breaks them, and
makes it small.

The inputs are the same ones each time, and nothing is kept of them.
"""
import atexit
import graphlib
import itertools
import math
import tempfile
import unittest
from collections import Counter
from collections.abc import Callable
from decimal import Decimal
from html.parser import HTMLParser
from random import Random
from typing import Any

try:
    from hypothesis import assume, configuration, given, settings, strategies as st
except ImportError:
    raise unittest.SkipTest("there is no hypothesis here") from None

from test_certify import arrows_in, boxes_in, is_in

from noc_tools import Demand, Network, Refused, curves, jam, page, statistics
from noc_tools.commands.sweep import part
from noc_tools.commands.waves import sign_of
from noc_tools.dependencies import Graph
from noc_tools.files import csv_line, csv_rows, read_lines
from noc_tools.network import KINDS, network_of, opposite, settings_of
from noc_tools.pool import Waiting
from noc_tools.ranks import NoRanks, find_ranks, members
from noc_tools.relation import Channels, Relation
from noc_tools.rules import RULES
from noc_tools.signals import filled
from noc_tools.study import plan
from noc_tools.traffic import HEADER, LONGEST, PATTERN_NAMES, numbers_in, read_traffic, traffic_text
from noc_tools.traffic import Row
from noc_tools.vcd import Dump

# (what hypothesis writes down for itself goes with this process)
KEPT = tempfile.TemporaryDirectory(prefix="noc-laws-")
atexit.register(KEPT.cleanup)
configuration.set_hypothesis_home_dir(KEPT.name)
settings.register_profile("laws", deadline=None, database=None, derandomize=True, max_examples=150)
settings.load_profile("laws")

radices = st.lists(st.integers(2, 6), min_size=1, max_size=3).map(tuple)
networks = st.builds(
    Network, st.sampled_from(KINDS), radices.filter(lambda radix: math.prod(radix) <= 64),
    st.integers(1, 8), st.integers(1, 16), st.just(1), st.sampled_from(sorted(RULES)),
    st.integers(1, 2_000_000),
)


def in_a_file(text: str) -> Any:
    """A file with this text, which is there until it is closed."""
    file = tempfile.NamedTemporaryFile("w", newline="", encoding="utf-8")
    file.write(text)
    file.flush()
    return file


# ---- files


class Files(unittest.TestCase):
    @given(networks)
    def test_a_configuration_is_read_as_it_was_written(self, network: Network) -> None:
        self.assertEqual(network_of(settings_of(network.text())), network)

    @given(st.lists(st.text(st.characters(blacklist_categories=["Cs"])), min_size=2, max_size=6))
    def test_a_line_of_csv_is_read_as_it_was_written(self, fields: list[str]) -> None:
        with in_a_file(csv_line(fields)) as file:
            self.assertEqual(csv_rows(read_lines(file.name, "x"), "x", "x"), [fields])

    @given(st.lists(st.tuples(*[st.integers(0, 10 ** 6)] * 5)))
    def test_a_traffic_is_read_as_it_was_written(self, rows: list[Row]) -> None:
        with in_a_file(traffic_text(rows)) as file:
            self.assertEqual(list(map(numbers_in, read_traffic(file.name))), rows)
        self.assertTrue(traffic_text(rows).startswith(f"{HEADER}\n"))

    @given(st.text("<>&;'\"/!-? #xa1"))
    def test_words_are_shown_as_they_are(self, words: str) -> None:
        """In a page of HTML, whatever signs they have that are its own."""
        seen = []

        class Seen(HTMLParser):
            def handle_data(self, data: str) -> None:
                seen.append(data)

        Seen().feed(f"<p>{page.in_html(words)}</p>")
        self.assertEqual("".join(seen), words)

    @given(st.lists(st.tuples(
        st.integers(0, 5),
        st.dictionaries(st.sampled_from("abc"), st.text("01xz", min_size=1, max_size=4), max_size=3),
    ), max_size=8))
    def test_a_dump_has_what_was_written(self, steps: list[tuple[int, dict[str, str]]]) -> None:
        lines = ["$timescale 1ns $end", "$scope module top $end"]
        lines += [f"$var wire 4 {sign} {sign}_name [3:0] $end" for sign in "abc"]
        lines += ["$upscope $end", "$enddefinitions $end"]
        times = list(itertools.accumulate(more for more, _ in steps))
        for time, (_, changes) in zip(times, steps):
            lines += [f"#{time}", *(f"b{value} {sign}" for sign, value in changes.items())]
        with in_a_file("\n".join(lines) + "\n") as file:
            dump = Dump(file.name)
            self.assertEqual(dump.signal("top.a_name[2:1]").value_in({"a": "0110"}), "11")
            self.assertEqual(list(dump.steps("abc")), list(zip(times, (one for _, one in steps))))

    @given(st.integers(0, 10 ** 6))
    def test_no_two_signs_are_alike(self, first: int) -> None:
        """Of 300 numbers in succession; and each is of the characters that a VCD file takes."""
        signs = [sign_of(number) for number in range(first, first + 300)]
        self.assertEqual(len(set(signs)), len(signs))
        self.assertTrue(all("!" <= character <= "~" for sign in signs for character in sign))

    numbers = st.integers(0, 99)
    sums = st.recursive(
        st.one_of(numbers.map(str), st.sampled_from(["router", "channel"])),
        lambda inner: st.tuples(inner, st.sampled_from("+-*"), inner).map("({0[0]} {0[1]} {0[2]})".format),
        max_leaves=6,
    )

    @given(sums, numbers, numbers)
    def test_braces_are_filled_as_python_would(self, words: str, router: int, channel: int) -> None:
        names: dict[str, int | str] = {"router": router, "channel": channel}
        self.assertEqual(filled(f"a[{{{words}}}]", names), f"a[{eval(words, {}, names)}]")


# ---- networks


class Networks(unittest.TestCase):
    @given(networks, st.data())
    def test_hops_are_a_distance(self, network: Network, data: Any) -> None:
        """They are those of a walk over the links that goes everywhere at once."""
        node = data.draw(st.integers(0, network.nodes - 1))
        found, waiting = {node: 0}, [node]
        for router in waiting:
            for port in network.ports:
                other = network.neighbour(router, port)
                if other is not None and other not in found:
                    found[other] = found[router] + 1
                    waiting.append(other)
        hops = [network.distance(node, other) for other in range(network.nodes)]
        self.assertEqual(hops, [found[other] for other in range(network.nodes)])

    @given(networks, st.data())
    def test_coordinates_name_a_node(self, network: Network, data: Any) -> None:
        node = data.draw(st.integers(0, network.nodes - 1))
        self.assertEqual(network.node_at(network.coordinates(node)), node)

    @given(networks, st.data())
    def test_a_link_leads_back(self, network: Network, data: Any) -> None:
        node = data.draw(st.integers(0, network.nodes - 1))
        for port in network.ports[:-1]:
            other = network.neighbour(node, port)
            if other is not None:
                self.assertEqual(network.neighbour(other, opposite(port)), node)

    @given(networks, st.data())
    def test_a_channel_has_one_number(self, network: Network, data: Any) -> None:
        """By its parts, and by where a packet comes in by it."""
        channels = Channels(network)
        channel = data.draw(st.sampled_from(channels.links()))
        self.assertEqual(channels.number(*channels.parts(channel)), channel)
        self.assertEqual(channels.entering(*channels.entered(channel)), channel)

    @given(networks, st.data())
    def test_a_rule_takes_shortest_ways(self, network: Network, data: Any) -> None:
        is_met = {
            "dateline": network.kind == "torus" and network.channels % 2 == 0,
            "west-first": network.kind == "mesh" and len(network.radix) == 2,
            "adaptive": network.channels >= (3 if network.kind == "torus" else 2),
        }
        assume(is_met.get(network.rule, True))
        router, goal = (data.draw(st.integers(0, network.nodes - 1)) for _ in range(2))
        assume(router != goal)
        ways = RULES[network.rule](network, 0, router, goal)
        self.assertTrue(ways)
        for port, number in ways:
            self.assertIn(number, range(network.channels))
            after = network.distance(network.linked(router, port), goal)
            self.assertEqual(after, network.distance(router, goal) - 1)

    @given(st.sampled_from(PATTERN_NAMES), st.floats(0.01, 0.9), st.integers(1, 8), st.integers(0, 99),
           st.integers(2, 4))
    def test_a_traffic_is_of_the_network(self, pattern: str, load: float, length: Any, seed: int, side: int) -> None:
        network = Network("mesh", (side, side), 1, 2, 1, "dor", 50)
        try:
            rows = Demand(pattern, load, length, seed).first_rows(network)
        except Refused:
            assume(False)
        self.assertEqual([row[4] for row in rows], sorted(row[4] for row in rows))
        for source, goal, message_class, flits, due in rows:
            self.assertNotEqual(source, goal)
            self.assertTrue({source, goal} <= set(range(network.nodes)))
            self.assertEqual((message_class, flits), (0, length))
            self.assertIn(due, range(50))

    @given(st.sampled_from(PATTERN_NAMES), st.integers(1, 4), st.integers(0, 99))
    def test_a_pattern_is_a_choice_for_each_node(self, pattern: str, power: int, seed: int) -> None:
        """But for uniform and the hot spot, a node sends to one node alone, and no two to the
        same one."""
        network = Network("torus", (2 ** power,) * 2, 1, 2, 1, "dor", 60)
        rows = Demand(pattern, 1, 1, seed).first_rows(network)
        goals = set(row[:2] for row in rows)
        if pattern not in ("uniform", "hot-spot"):
            self.assertEqual(len(goals), len({source for source, _ in goals}))
            self.assertEqual(len(goals), len({goal for _, goal in goals}))


# ---- ranks


@st.composite
def relations(draw: Any) -> Relation:
    """Relations of any kind: at each step some of the shortest ways are permitted, by any of the
    channels."""
    kind = draw(st.sampled_from(KINDS))
    radix = draw(st.sampled_from([(3,), (4,), (2, 2), (3, 2), (3, 3), (5,)]))
    network = Network(kind, radix, draw(st.integers(1, 3)), 2, 1, "table", 10)
    channels = Channels(network)
    random = draw(st.randoms(use_true_random=False))
    chosen = {}

    def permitted(_: int, channel: int, router: int, goal: int) -> list[int]:
        if (channel, goal) not in chosen:
            near = [port for port in network.ports[:-1] if network.neighbour(router, port) is not None and
                    network.distance(network.linked(router, port), goal) < network.distance(router, goal)]
            ways = [channels.number(router, port, vc) for port in near for vc in range(network.channels)]
            chosen[channel, goal] = random.sample(ways, random.randint(1, len(ways)))
        return chosen[channel, goal]

    return Relation(channels, permitted)


def dependencies_of(relation: Relation) -> dict[int, set[int]]:
    """For each link channel those that packets ask for next, goal by goal."""
    found: dict[int, set[int]] = {channel: set() for channel in relation.channels.links()}
    for goal in relation.nodes:
        for channel, onward in relation.steps(0, goal).items():
            if channel in found:
                found[channel].update(onward)
    return found


class Ranks(unittest.TestCase):
    @given(relations())
    def test_ranks_are_found_exactly_where_there_is_no_circle(self, relation: Relation) -> None:
        """As the sorter of the standard library sees it. A circle goes along dependencies, and
        ends where it began."""
        after = dependencies_of(relation)
        try:
            graphlib.TopologicalSorter(after).prepare()
            is_free = True
        except graphlib.CycleError:
            is_free = False
        try:
            ranks = find_ranks(relation, set(range(relation.channels.vcs)))
        except NoRanks as reason:
            ways = [step.way for step in reason.circle]
            self.assertFalse(is_free)
            self.assertTrue(all(way[1] in after[way[0]] for way in ways))
            self.assertEqual([way[-1] for way in ways], [way[0] for way in ways[1:] + ways[:1]])
            return
        self.assertTrue(is_free)
        self.assertTrue(all(ranks[one] < ranks[other] for one, onward in after.items() for other in onward))

    @given(relations())
    def test_no_arrow_of_a_graph_runs_behind_a_box(self, relation: Relation) -> None:
        try:
            ranks = find_ranks(relation, set(range(relation.channels.vcs)))
        except NoRanks:
            return
        picture = Graph(relation, ranks).picture()
        boxes = boxes_in(picture)
        for one, other, points in arrows_in(picture):
            behind = [name for name, box in boxes.items() if any(is_in(at, box) for at in points)]
            self.assertEqual(behind, [], (one, other))

    @given(st.sets(st.integers(0, 300)))
    def test_members_are_the_bits(self, numbers: set[int]) -> None:
        self.assertEqual(list(members(sum(1 << number for number in numbers))), sorted(numbers))


# ---- what is cut


lengths = st.integers(1, LONGEST)


class Cuts(unittest.TestCase):
    def first(self, is_stuck: Callable[[list[Row]], bool]) -> jam.First:
        """Of traffics the first that is stuck."""
        return lambda found: next((one for one in found if is_stuck(one[0])), None)

    @given(st.lists(lengths, min_size=1, max_size=40), st.data())
    def test_what_is_needed_is_left_and_nothing_else(self, flits: list[int], data: Any) -> None:
        """Where a traffic is stuck that has some packets, each of some length at least."""
        rows = [(number, 0, 0, length, 0) for number, length in enumerate(flits)]
        needed = data.draw(st.sets(st.integers(0, len(rows) - 1), min_size=1, max_size=6))
        least = {number: data.draw(st.integers(1, flits[number])) for number in sorted(needed)}

        def is_stuck(some: list[Row]) -> bool:
            there = {row[0]: row[3] for row in some}
            return all(least[number] <= there.get(number, 0) for number in needed)

        left = jam.smallest(rows, self.first(is_stuck))
        self.assertEqual(left, [(number, 0, 0, least[number], 0) for number in sorted(needed)])

    @given(st.integers(1, 40), st.randoms(use_true_random=False))
    def test_no_packet_can_be_left_out(self, count: int, random: Random) -> None:
        """Whatever is stuck: of what is left nothing is stuck that has a packet less."""
        seen: dict[tuple[int, ...], bool] = {}

        def is_stuck(some: list[Row]) -> bool:
            key = tuple(row[0] for row in some)
            return key == tuple(range(count)) or seen.setdefault(key, bool(key) and random.random() < 0.3)

        left = jam.fewest([(number, 0, 0, 1, 0) for number in range(count)], self.first(is_stuck))
        self.assertTrue(is_stuck(left))
        for place in range(len(left)):
            fewer = left[:place] + left[place + 1:]
            self.assertFalse(fewer and is_stuck(fewer))


# ---- figures


class Figures(unittest.TestCase):
    @given(st.lists(st.integers(0, 10_000), min_size=1, max_size=300), st.integers(1, 100))
    def test_a_percentile_is_the_least_that_suffices(self, numbers: list[int], percent: int) -> None:
        """The least of the numbers that so many percent of them do not exceed."""
        found = statistics.percentile(sorted(numbers), len(numbers), percent)
        enough = (one for one in numbers if percent * len(numbers) <= 100 * sum(x <= one for x in numbers))
        self.assertEqual(found, min(enough))

    @given(st.floats(1e-5, 1e14))
    def test_an_axis_ends_at_its_last_number(self, top: float) -> None:
        end = curves.rounded_up(top)
        numbers = curves.ticks(end)
        self.assertGreaterEqual(end, top * (1 - 1e-6))
        self.assertEqual((numbers[0], numbers[-1]), (0, end))
        self.assertEqual(numbers, sorted(numbers))
        self.assertLessEqual(len(numbers), curves.TICKS + 2)
        self.assertEqual(len({f"{number:g}" for number in numbers}), len(numbers))

    @given(st.decimals(0, 2, places=3), st.decimals(0, 2, places=3), st.decimals("0.001", 1, places=3))
    def test_a_range_of_loads_goes_from_the_first_to_the_last(
            self, first: Decimal, more: Decimal, step: Decimal) -> None:
        last = first + more
        assume(more < plan.MOST_LOADS * step)
        loads = [Decimal(word) for word in plan.load_range(f"{first}:{last}:{step}")]
        self.assertEqual(loads, [first + number * step for number in range(len(loads))])
        self.assertTrue(loads[-1] <= last < loads[-1] + step)

    @given(st.integers(1, 10_000), st.data())
    def test_a_window_of_a_shorter_run_is_a_part_of_it(self, cycles: int, data: Any) -> None:
        first = data.draw(st.integers(0, cycles - 1))
        window = statistics.Window(first, data.draw(st.integers(first + 1, cycles)))
        shorter = data.draw(st.integers(1, cycles))
        found = window.fitted(cycles, shorter)
        self.assertTrue(0 <= found.first < found.end <= shorter)
        self.assertEqual(window.fitted(cycles, cycles), window)

    @given(st.integers(0, 10_000), st.integers(1, 10_000))
    def test_halves_are_the_whole(self, first: int, cycles: int) -> None:
        window = statistics.Window(first, first + cycles)
        one, other = window.halves()
        self.assertEqual((one.first, one.end, other.end), (window.first, other.first, window.end))
        self.assertIn(other.cycles - one.cycles, (0, 1))


# ---- studies


class Studies(unittest.TestCase):
    @given(st.integers(1, 99), st.integers(1, 99))
    def test_parts_are_the_whole(self, runs: int, count: int) -> None:
        """Each run is in one part, and no part has more than one more than another."""
        parts = [part(f"{number}/{count}") for number in range(1, count + 1)]
        shares = [range(runs)[number - 1::of] for number, of in parts]
        self.assertEqual(sorted(itertools.chain(*shares)), list(range(runs)))
        self.assertLessEqual(max(map(len, shares)) - min(map(len, shares)), 1)

    @given(st.lists(st.sampled_from("abcd")), st.data())
    def test_each_item_is_given_once(self, items: list[str], data: Any) -> None:
        """Whatever group a process had last; it gets another of that group as long as there are
        some."""
        waiting, given_away = Waiting(items, lambda item: item), []
        while waiting.groups:
            last = data.draw(st.sampled_from([None, *"abcd"]))
            has_more = last in waiting.groups
            number, item = waiting.next(last)
            self.assertTrue(item == last or not has_more)
            given_away.append(number)
        self.assertEqual(sorted(given_away), list(range(len(items))))

    @given(st.lists(st.integers(1, LONGEST), min_size=1, max_size=4), st.integers(1, 30))
    def test_a_chance_brings_the_load(self, lengths: list[int], percent: int) -> None:
        """Of the chance of a packet and its mean length, in bursts as long as pauses too."""
        mean = sum(lengths) / len(lengths)
        for burst, part_on in (None, 1), ((7, 7), 0.5):
            demand = Demand("uniform", percent / 100, tuple(lengths), burst=burst)
            self.assertAlmostEqual(demand.chance * mean * part_on, percent / 100)

    @given(st.dictionaries(st.sampled_from(["channels", "buffer", "seed"]),
                           st.lists(st.integers(1, 5), min_size=1, max_size=3, unique=True), min_size=1))
    def test_values_are_combined_with_all_others(self, lists: dict[str, list[Any]]) -> None:
        words = {key: [str(value) for value in values] for key, values in lists.items()}
        fixed = {"kind": ["mesh"], "radix": ["4"], "rule": ["dor"], "length": ["1"], "load": ["0.1"]}
        fixed |= {key: ["1"] for key in ("channels", "buffer") if key not in words}
        cases = plan.combined(fixed | words)
        found = Counter(tuple(case.words[key] for key in words) for case in cases)
        self.assertEqual(found, Counter(itertools.product(*words.values())))
        self.assertEqual(len({case.run for case in cases}), len(cases))
