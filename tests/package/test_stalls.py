"""The pictures of 'stalls' beside the reports that they show.

The first report is that of six routers, three in a row, over ten cycles. What each cell must show was worked out by
hand. Others are made here, of other shapes.
"""
import re
import xml.etree.ElementTree as ElementTree
from dataclasses import replace

from support import HEADER, IN_THE_WAY, SVG, FolderTest

from noc_tools.network import Network

COLUMNS, ROWS = 3, 2
NETWORK = Network("mesh", (COLUMNS, ROWS), 1, 2, 1, "dor", 10)
STALLS = """\
router,port,vc,empty,routed,granted,moved,no_flit,no_idle_channel,lost_channel,no_credit,lost_input,lost_switch
0,+0,0,10,0,0,0,0,0,0,0,0,0
0,+1,0,7,1,1,1,0,0,0,0,0,0
0,local,0,10,0,0,0,0,0,0,0,0,0
1,+0,0,5,1,1,1,2,0,0,0,0,0
1,-0,0,10,0,0,0,0,0,0,0,0,0
1,+1,0,10,0,0,0,0,0,0,0,0,0
1,local,0,1,1,1,1,0,0,0,6,0,0
2,-0,0,10,0,0,0,0,0,0,0,0,0
2,+1,0,10,0,0,0,0,0,0,0,0,0
2,local,0,4,1,1,1,0,0,0,0,3,0
3,+0,0,10,0,0,0,0,0,0,0,0,0
3,-1,0,4,1,1,1,1,2,0,0,0,0
3,local,0,10,0,0,0,0,0,0,0,0,0
4,+0,0,10,0,0,0,0,0,0,0,0,0
4,-0,0,0,0,0,0,0,0,0,0,0,10
4,-1,0,0,0,0,0,0,0,0,0,0,10
4,local,0,10,0,0,0,0,0,0,0,0,0
5,-0,0,10,0,0,0,0,0,0,0,0,0
5,-1,0,10,0,0,0,0,0,0,0,0,0
5,local,0,0,1,0,0,0,0,9,0,0,0
"""
# What stands in the cell of each router: of 30 or 40 cycles of its channels 3, 14, 6, 6, 20 and 10 are occupied, and of
# these 0, 8, 3, 3, 20 and 9 stalled.
CELLS = [
    ["0", "10.0 %", "0.0 %", "\u2013", "\u2013"],
    ["1", "35.0 %", "57.1 %", "NoCredit", "local.0"],
    ["2", "20.0 %", "50.0 %", "LostInput", "local.0"],
    ["3", "20.0 %", "50.0 %", "NoIdleChannel", "-1.0"],
    ["4", "50.0 %", "100.0 %", "LostSwitch", "-0.0"],
    ["5", "33.3 %", "90.0 %", "LostChannel", "local.0"],
]
LINES = re.compile(r"^(\d.*?),(local|[+-]\d),0,.*$", re.MULTILINE)
# The same channels with nothing in them.
QUIET = LINES.sub(r"\1,\2,0,10,0,0,0,0,0,0,0,0,0", STALLS)
BY_SHARE = [[0], [2, 3], [1], [5], [4]]
REASONS = ["NoFlit", "NoIdleChannel", "LostChannel", "NoCredit", "LostInput", "LostSwitch"]
# A letter is at most about so wide on average, as a part of the size of its font.
LETTER = 0.58
# Black on white has 21; below 4.5 small print is hard to read.
LEAST_CONTRAST = 4.5
# Flits that came from router 3 by its port -1 went on in six of ten cycles, those from 2 by -0 in three, those from 0
# by +1 in one.
BUSY = STALLS.replace("0,+1,0,7,1,1,1,", "0,+1,0,2,1,1,6,").replace("1,+0,0,5,1,1,1,2,", "1,+0,0,3,1,1,3,2,")
TITLES = {
    "link-3-1": "router 3, -1, to router 0: 60.0 %",
    "link-2-0": "router 2, -0, to router 1: 30.0 %",
    "link-0+1": "router 0, +1, to router 3: 10.0 %",
    "link-4+0": "router 4, +0, to router 5: 0.0 %",
}
ENTRIES = [f"{router}in" for router in range(COLUMNS * ROWS)]
LINKS = ["0+0", "0+1", "1+0", "1-0", "1+1", "2-0", "2+1", "3+0", "3-1", "4+0", "4-0", "4-1", "5-0", "5-1"]
LAST = "5,local,0,0,1,0,0,0,0,9,0,0,0"
OTHER, UNEQUAL, LIMITS = "other channels than", "not of equally many cycles", "no network that noc takes"
LATENCIES = "packet,source,destination,class,length,due,out,latency\n0,0,1,0,1,0,5,5\n"
# What is wrong, the configuration and the report, and a part of the sentence.
REFUSED = [
    ("a latency report", NETWORK, LATENCIES, "is no stall report"),
    ("nothing", NETWORK, "", "is no stall report"),
    ("a report of fewer routers", NETWORK, STALLS[: STALLS.index("\n5,") + 1], OTHER),
    ("a report of more routers", replace(NETWORK, radix=(2, 2)), STALLS, OTHER),
    ("a channel of another number", NETWORK, STALLS.replace("5,-1,0,10", "5,-1,1,10"), OTHER),
    ("three dimensions", replace(NETWORK, radix=(3, 2, 2)), STALLS, OTHER),
    ("a line that is cut off", NETWORK, STALLS[:-9], "line 21 has not the 13 fields of the header"),
    ("a line with a field too many", NETWORK, STALLS.replace(LAST, LAST + ",0"), "line 21 has not the 13 fields"),
    ("a line with no number", NETWORK, STALLS.replace(LAST, LAST[:-1] + "x"), "line 21 of the stall report is not"),
    ("a line with less than nothing", NETWORK, STALLS.replace("4,local,0,10,0,", "4,local,0,11,-1,"), "line 18 of the"),
    ("a line twice", NETWORK, STALLS + STALLS.splitlines()[-1] + "\n", OTHER),
    ("a line of other cycles", NETWORK, STALLS.replace("0,local,0,10,", "0,local,0,11,"), UNEQUAL),
    ("no cycles", NETWORK, LINES.sub(r"\1,\2,0,0,0,0,0,0,0,0,0,0,0", STALLS), UNEQUAL),
    ("more routers than noc takes", replace(NETWORK, radix=(999, 999, 999)), STALLS, LIMITS),
    ("more channels than noc takes", replace(NETWORK, channels=999999999), STALLS, LIMITS),
    ("another kind", replace(NETWORK, kind="ring"), STALLS, LIMITS),
]


class Picture:
    """What stands in the picture: its cells and links by name, and every text."""

    def __init__(self, svg: str) -> None:
        self.root = ElementTree.fromstring(svg)
        self.groups = {group.get("id"): group for group in self.root.iter(f"{SVG}g") if group.get("id")}
        names = [name for name in self.groups if name.startswith("router-")]
        self.cells = [self.groups[f"router-{number}"] for number in range(len(names))]
        self.squares = [cell.find(f"{SVG}rect") for cell in self.cells]
        self.texts = list(self.root.iter(f"{SVG}text"))
        self.words = [text.text for text in self.texts]

    def colour(self, number: int) -> str:
        """The colour of a cell."""
        return self.squares[number].get("fill")

    def centre(self, number: int) -> tuple[float, float]:
        """The middle of a cell."""
        x, y, width, height = numbers(self.squares[number], "x", "y", "width", "height")
        return x + width / 2, y + height / 2

    def centres(self) -> list[tuple[float, float]]:
        """The middle of each cell."""
        return [self.centre(number) for number in range(len(self.cells))]

    def corners(self, name: str) -> list[tuple[float, ...]]:
        """The corners of a link's arrow."""
        points = self.groups[f"link-{name}"].find(f"{SVG}polygon").get("points").split()
        return [tuple(map(float, point.split(","))) for point in points]


def numbers(element: ElementTree.Element, *names: str) -> list[float]:
    """Attributes as numbers."""
    return [float(element.get(name)) for name in names]


def luminance(colour: str) -> float:
    """How light a colour is, from 0 to 1."""
    parts = [int(colour[at:at + 2], 16) / 255 for at in (1, 3, 5)]
    linear = [part / 12.92 if part <= 0.04045 else ((part + 0.055) / 1.055) ** 2.4 for part in parts]
    return sum(weight * part for weight, part in zip((0.2126, 0.7152, 0.0722), linear))


def contrast(one: str, other: str) -> float:
    """The contrast of two colours."""
    lower, higher = sorted((luminance(one), luminance(other)))
    return (higher + 0.05) / (lower + 0.05)


def extent(text: ElementTree.Element) -> tuple[float, float]:
    """From where to where a text goes along its line, about."""
    (x, size), width = numbers(text, "x", "font-size"), len(text.text) * LETTER
    left = x - size * width * {"start": 0, "middle": 0.5, "end": 1}[text.get("text-anchor")]
    return left, left + size * width


def made_report(network: Network, stalls: dict[int, int]) -> str:
    """A report of ten cycles in which the local channel of a router stood still so often, as `stalls` says, and else
    moved a flit; all other channels were empty."""
    lines = [STALLS.splitlines()[0]]
    for router, channel in network.places:
        port, vc = channel.split(".")
        moved = 10 - stalls.get(router, 0) if port == "local" else 0
        stalled = stalls.get(router, 0) if port == "local" else 0
        lines.append(f"{router},{port},{vc},{10 - moved - stalled},0,0,{moved},0,0,0,{stalled},0,0")
    return "\n".join([*lines, ""])


class Drawn(FolderTest):
    def picture_of(self, network: Network, stalls: str, *words: object) -> Picture:
        """The picture of a report."""
        self.put(**{"small.toml": network})
        return Picture(self.said("stalls", "small.toml", *words, given=stalls))


class SmallPicture(Drawn):
    picture: Picture

    @classmethod
    def setUpClass(cls) -> None:
        super().setUpClass()
        cls.picture = cls().picture_of(NETWORK, STALLS)

    def test_each_router_has_one_cell(self) -> None:
        self.assertEqual(len(self.picture.groups), len(CELLS))
        self.assertEqual(len(set(self.picture.centres())), len(CELLS))

    def test_cells_show_the_report(self) -> None:
        shown = [[text.text for text in cell.iter(f"{SVG}text")] for cell in self.picture.cells]
        self.assertEqual(shown, CELLS)

    def test_cells_lie_at_their_coordinates(self) -> None:
        """Node x + 3y stands in column x from the left and in row y from below, edge to edge."""
        (left, bottom), (side,) = self.picture.centre(0), numbers(self.picture.squares[0], "width")
        places = [(left + side * (number % COLUMNS), bottom - side * (number // COLUMNS)) for number in range(6)]
        self.assertEqual(self.picture.centres(), places)

    def test_axes_name_the_coordinates(self) -> None:
        """Below each column stands its number, left of each row its own."""
        texts = self.picture.texts
        places = [(text.text, float(text.get("x")), float(text.get("y"))) for text in texts]
        (left, low), (right, high) = self.picture.centre(0), self.picture.centre(len(CELLS) - 1)
        across, up = (right - left) / (COLUMNS - 1), (high - low) / (ROWS - 1)
        half = across / 2
        for x in range(COLUMNS):
            self.assertTrue(any(w == str(x) and a == left + across * x and low + half < b for w, a, b in places))
        for y in range(ROWS):
            at = low + up * y
            self.assertTrue(any(w == str(y) and a < left - half and abs(b - at) < 10 for w, a, b in places))

    def test_more_stalls_are_darker(self) -> None:
        """Equal shares have one colour, and a greater share a darker one."""
        colours = [{self.picture.colour(number) for number in group} for group in BY_SHARE]
        self.assertEqual({len(group) for group in colours}, {1})
        lights = [luminance(group.pop()) for group in colours]
        for lighter, darker in zip(lights, lights[1:]):
            self.assertGreater(lighter, darker + 0.04)

    def test_scale_runs_over_the_shares(self) -> None:
        """From below to above, from the colour of the least share to that of the greatest, and the shares stand beside
        it."""
        (scale,) = self.picture.root.iter(f"{SVG}linearGradient")
        stops = [stop.get("stop-color") for stop in scale]
        self.assertEqual(numbers(scale, "y1", "y2"), [1, 0])
        self.assertEqual([stops[0], stops[-1]], [self.picture.colour(0), self.picture.colour(4)])
        inside = {text for cell in self.picture.cells for text in cell.iter(f"{SVG}text")}
        height_of = {text.text: -float(text.get("y")) for text in self.picture.texts if text not in inside}
        heights = [height_of[share] for share in ("0.0 %", "50.0 %", "100.0 %")]
        self.assertEqual(heights, sorted(set(heights)))

    def test_legend_explains_each_reason(self) -> None:
        for reason in REASONS:
            self.assertTrue(any(words.startswith(f"{reason}: ") for words in self.picture.words), reason)

    def test_cells_can_be_read(self) -> None:
        """Each text has contrast to its cell, and fits in it."""
        for cell, square in zip(self.picture.cells, self.picture.squares):
            left, width = numbers(square, "x", "width")
            for text in cell.iter(f"{SVG}text"):
                start, end = extent(text)
                self.assertGreaterEqual(contrast(text.get("fill"), square.get("fill")), LEAST_CONTRAST)
                self.assertTrue(left <= start and end <= left + width, text.text)

    def test_nothing_runs_off_the_picture(self) -> None:
        width, height = numbers(self.picture.root, "width", "height")
        for text in self.picture.texts:
            start, end = extent(text)
            is_inside = 0 <= start and end <= width and 0 < float(text.get("y")) < height
            self.assertTrue(is_inside or "coordinate" in text.text, text.text)

    def test_no_stalls_are_the_lightest(self) -> None:
        quiet = self.picture_of(NETWORK, QUIET)
        self.assertEqual({quiet.colour(number) for number in range(6)}, {self.picture.colour(0)})


class OtherPictures(Drawn):
    def test_each_link_has_an_arrow(self) -> None:
        """Those of three by two, each with its use, and one from each node; the more it is, the darker the arrow."""
        picture = self.picture_of(NETWORK, BUSY, "--links")
        arrows = {name: group for name, group in picture.groups.items() if name.startswith("link-")}
        self.assertEqual(sorted(arrows), sorted(f"link-{name}" for name in LINKS + ENTRIES))
        self.assertEqual({name: arrows[name].find(f"{SVG}title").text for name in TITLES}, TITLES)
        lights = [luminance(arrows[name].find(f"{SVG}polygon").get("fill")) for name in TITLES]
        for darker, lighter in zip(lights, lights[1:]):
            self.assertLess(darker, lighter - 0.05)
        listed = [words for words in picture.words if words.startswith("router ") and "%" in words]
        self.assertEqual(listed, list(TITLES.values())[:3])

    def test_arrows_point_to_their_ends(self) -> None:
        """Along the way from sender to receiver an arrow begins broad, ends in one point, and stays between their
        boxes."""
        picture = self.picture_of(NETWORK, BUSY, "--links")
        for name in LINKS:
            (x, y), goes_to = picture.centre(int(name[0])), NETWORK.neighbour(int(name[0]), name[1:])
            across, up = picture.centre(goes_to)[0] - x, picture.centre(goes_to)[1] - y
            corners = picture.corners(name)
            along = [((a - x) * across + (b - y) * up) / (across**2 + up**2) for a, b in corners]
            self.assertTrue(0 < min(along) < max(along) < 1, name)
            self.assertEqual((along.count(min(along)), along.count(max(along))), (2, 1), name)

    def test_arrows_from_nodes_come_from_the_upper_left(self) -> None:
        """Each ends in one point, next to its router."""
        picture = self.picture_of(NETWORK, BUSY, "--links")
        for name in ENTRIES:
            x, y = picture.centre(int(name[0]))
            away = [round(x - a + y - b, 1) for a, b in picture.corners(name)]
            self.assertTrue(0 < min(away) and away.count(min(away)) == 1, (name, away))

    def test_a_fixed_scale_has_the_same_colours(self) -> None:
        """Router 1 with 57.1 percent looks the same beside a router of 100 percent and beside one of none."""
        quieter = STALLS.replace(",0,0,0,0,0,0,0,0,0,10", ",10,0,0,0,0,0,0,0,0,0")
        one, other = (self.picture_of(NETWORK, stalls, "--top", "95") for stalls in (STALLS, quieter))
        self.assertEqual(one.colour(1), other.colour(1))
        self.assertNotEqual(one.colour(1), self.picture_of(NETWORK, quieter).colour(1))
        self.assertIn("95.0 %", one.words)
        self.assertNotEqual(one.colour(4), one.colour(5))

    def test_the_title_says_what_was_run(self) -> None:
        for words in (), ("--links",):
            said = self.picture_of(NETWORK, STALLS, *words).words
            self.assertIn("mesh 3 x 2, dor, 1 channel of 2 slots, 10 cycles", said)

    def uses(self, *words: object) -> tuple[list[str], list[str]]:
        """The use of each link of a run that is made for the picture, in words, but for those that are not used."""
        picture = Picture(self.said("stalls", "c", "--traffic", "t", "--links", *words))
        titles = [group.find(f"{SVG}title") for group in picture.groups.values()]
        used = [title.text for title in titles if title is not None and not title.text.endswith(": 0.0 %")]
        return used, [words for words in picture.words if ", dor, " in words]

    def test_a_run_is_made_and_a_window_of_it(self) -> None:
        """Two flits go from node 0 to node 1 and are out in cycle 6; three go from node 2 to node 1, due in cycle 10,
        leave router 2 from 12 on, and are out in 17."""
        self.put(t=HEADER + "0,1,0,2,0\n2,1,0,3,10\n")
        self.assertEqual(self.uses(), ([
            "router 0, +0, to router 1: 10.0 %", "node 0 to its router: 10.0 %", "router 1, local, to its node: 25.0 %",
            "router 2, -0, to router 1: 15.0 %", "node 2 to its router: 15.0 %",
        ], ["mesh 3, dor, 1 channel of 2 slots, 20 cycles"]))
        self.assertEqual(self.uses("--window", "12:20"), ([
            "router 1, local, to its node: 37.5 %",
            "router 2, -0, to router 1: 37.5 %", "node 2 to its router: 37.5 %",
        ], ["mesh 3, dor, 1 channel of 2 slots, cycles 12 to 19"]))

    def assertDrawnAs(self, made: str, report: str) -> None:
        """A picture is that of a report, but for the queues, of which it says that they are empty."""
        for words in ("; 0.00 packets in the queue of its node", "queue: packets that wait at the node, on average"):
            made = made.replace(words, "")
        expected = self.said("stalls", "c", given=report)
        self.assertEqual([words for words in Picture(made).words if words], Picture(expected).words)
        cells = ([ElementTree.tostring(cell) for cell in Picture(picture).cells] for picture in (made, expected))
        self.assertEqual(*cells)

    def test_a_run_that_drains_is_drawn_to_its_end(self) -> None:
        """The second packet is due in cycle 30, and so leaves router 2 from 32 on and is out in 37. The limit is
        30 + 14 + 19. A ring in which each head moves in cycle 2 has no event from cycle 4 on."""
        self.put(t=HEADER + "0,1,0,2,0\n2,1,0,3,30\n")
        self.assertEqual(self.uses("--drain"), ([
            "router 0, +0, to router 1: 3.2 %", "node 0 to its router: 3.2 %", "router 1, local, to its node: 7.9 %",
            "router 2, -0, to router 1: 4.8 %", "node 2 to its router: 4.8 %",
        ], ["mesh 3, dor, 1 channel of 2 slots, 63 cycles"]))
        self.assertEqual(self.uses("--drain", "--window", "32:40"), ([
            "router 1, local, to its node: 37.5 %",
            "router 2, -0, to router 1: 37.5 %", "node 2 to its router: 37.5 %",
        ], ["mesh 3, dor, 1 channel of 2 slots, cycles 32 to 39"]))
        report = self.noc("run", "c", "t", "--drain", "--report", "stalls").stdout
        self.assertDrawnAs(self.said("stalls", "c", "--traffic", "t", "--drain"), report)
        self.put(c=Network("torus", (4,), 1, 1, 1, "dor", 2), t=(self.folder / "examples/ring.csv").read_text())
        self.assertEqual(self.uses("--drain"), ([f"node {node} to its router: 20.0 %" for node in range(4)], [
            "torus 4, dor, 1 channel of 1 slot, 5 cycles",
        ]))

    def test_a_run_that_is_made_is_drawn_as_its_report(self) -> None:
        """But for the queues of the nodes, of which a report says nothing; here there are none."""
        self.put(t=HEADER + "0,2,0,3,0\n1,2,0,3,0\n")
        report = self.noc("run", "c", "t", "--report", "stalls").stdout
        self.assertDrawnAs(self.said("stalls", "c", "--traffic", "t"), report)

    def test_queues_of_nodes_are_shown(self) -> None:
        """Packet 2 waits at node 0 from its due cycle 0 until it comes in in cycle 3: in 3 of the 20 cycles of the run,
        and in one of the two of a window."""
        self.put(t=IN_THE_WAY)
        made = Picture(self.said("stalls", "c", "--traffic", "t"))
        self.assertIn("queue 0.1", made.words)
        titles = [cell.find(f"{SVG}title").text for cell in made.cells]
        found = [float(re.search(r"; ([0-9.]+) packets in the queue of its node", title)[1]) for title in titles]
        self.assertEqual(found, [0.15, 0, 0])
        bars = [cell.findall(f"{SVG}rect")[1:] for cell in made.cells]
        self.assertEqual([len(some) for some in bars], [1, 0, 0])
        self.assertEqual(float(bars[0][0].get("width")), 96)
        half = Picture(self.said("stalls", "c", "--traffic", "t", "--window", "2:4"))
        self.assertIn("; 0.50 packets in the queue of its node", half.cells[0].find(f"{SVG}title").text)
        self.assertNotIn("queue", "".join(Picture(self.said("stalls", "c", "--traffic", "t", "--links")).words))

    def test_one_dimension_is_a_row(self) -> None:
        network = replace(NETWORK, kind="torus", radix=(6,))
        for words in (), ("--links",):
            xs, ys = zip(*self.picture_of(network, made_report(network, {}), *words).centres())
            self.assertEqual((len(set(ys)), list(xs)), (1, sorted(set(xs))))

    def test_three_dimensions_are_planes_side_by_side(self) -> None:
        """Node x + 2y + 4z: the second plane lies as the first does, further to the right."""
        network = replace(NETWORK, radix=(2, 2, 2))
        for words in (), ("--links",):
            places = self.picture_of(network, made_report(network, {}), *words).centres()
            steps = {(round(b[0] - a[0], 6), round(b[1] - a[1], 6)) for a, b in zip(places[:4], places[4:])}
            ((across, up),) = steps
            self.assertEqual(up, 0)
            self.assertGreater(across, places[1][0] - places[0][0])
            self.assertLess(places[2][1], places[0][1])

    def test_large_maps_can_be_read(self) -> None:
        """256 cells on the width of a page, 1300 points at most, with numbers of 15 points or more; the ten worst in
        words. Routers 70 and 147, at 6, 4 and 3, 9, stood still in all ten cycles, and router 63 at 15, 3 in nine;
        router 5 in both of two."""
        network = replace(NETWORK, radix=(16, 16))
        report = made_report(network, {7 * number: number % 11 for number in range(30)})
        report = report.replace("\n5,local,0,0,0,0,10,0,0,0,0,", "\n5,local,0,8,0,0,0,0,0,0,2,")
        picture = self.picture_of(network, report)
        texts = [list(cell.iter(f"{SVG}text")) for cell in picture.cells]
        self.assertEqual({len(found) for found in texts}, {1})
        self.assertLessEqual(15, min(float(found[0].get("font-size")) for found in texts))
        self.assertLessEqual(float(picture.root.get("width")), 1300)
        self.assertEqual([texts[number][0].text for number in (70, 63)], ["100", "90.0"])
        listed = [words for words in picture.words if words.startswith("router ") and " at " in words]
        self.assertEqual((len(listed), listed[:4]), (10, [
            "router 5 at 5, 0: 100.0 %, NoCredit, local.0",
            "router 70 at 6, 4: 100.0 %, NoCredit, local.0",
            "router 147 at 3, 9: 100.0 %, NoCredit, local.0",
            "router 63 at 15, 3: 90.0 %, NoCredit, local.0",
        ]))

    def test_links_round_the_ends_leave_the_torus(self) -> None:
        """On a torus of four in a row each router has two arrows, and those between the ends point outward."""
        network = replace(NETWORK, kind="torus", radix=(4,))
        picture = self.picture_of(network, made_report(network, {}), "--links")
        names = sorted(name for name in picture.groups if name.startswith("link-"))
        self.assertEqual(names, sorted(f"link-{router}{port}" for router in range(4) for port in ("+0", "-0", "in")))
        self.assertGreater(min(x for x, _ in picture.corners("3+0")), picture.centre(3)[0])
        self.assertLess(max(x for x, _ in picture.corners("0-0")), picture.centre(0)[0])
        half = (picture.centre(3)[0] - picture.centre(2)[0]) / 2
        self.assertLess(max(x for x, _ in picture.corners("3+0")), picture.centre(3)[0] + half)

    def test_odd_characters_are_drawn(self) -> None:
        """A rule with a control character and the name of a file that is not UTF-8: the picture is XML that shows a
        mark in their place."""
        self.put(**{"od\udcffd.toml": NETWORK.text().replace("dor", "d\\u0001or")})
        said = " ".join(Picture(self.said("stalls", "od\udcffd.toml", given=STALLS)).words)
        self.assertIn("od\ufffdd", said)
        self.assertIn("d\ufffdor", said)

    def test_what_is_refused(self) -> None:
        for what, network, stalls, sentence in REFUSED:
            with self.subTest(what):
                self.assertEachRefused([("stalls c", {"c": network}, sentence)], given=stalls)

    def test_a_scale_has_an_extent(self) -> None:
        """And one of no more than all; and a window is one of the run."""
        self.assertEachRefused([
            ("stalls c --top 0", "--top is a number above 0"),
            ("stalls c --links --top 101", "--top is a number above 0"),
            *((f"stalls c {words}", "--table, --drain and --window are for --traffic") for words in (
                "--window 0:5", "--table t", "--drain",
            )),
            ("stalls c --traffic t --window 5:30", "B at most the 20 cycles of the run, not '5:30'"),
            ("stalls c --traffic t --drain --window 5:30", "B at most the 20 cycles of the run, not '5:30'"),
        ])
