"""The page of 'replay': its data by hand and beside the program; and what headless Chromium shows of it."""
import json
import re
import shutil
import unittest
import xml.etree.ElementTree as ET
from collections.abc import Iterable
from html.parser import HTMLParser
from typing import Any
from unittest.mock import patch

from support import HEADER, IN_THE_WAY, LINE, SVG, TOP, FolderTest, made_networks
from test_waves import AT_ROUTER_1, found_by_explain

from noc_tools import Refused, replay
from noc_tools.network import Network
from noc_tools.runs import Run
from noc_tools.waiting import Snapshot, waiting_lines

CHROMIUM = next(filter(None, map(shutil.which, ("chromium", "chromium-browser", "google-chrome"))), None)


def data_of(page: str) -> Any:
    """The data of a page."""
    return json.loads(re.search(r'<script type="application/json" id="data">(.*?)</script>', page)[1])


def changes_in(data: Any) -> dict[tuple[int, str], list[tuple[Any, ...]]]:
    """What each channel says, by router and name: from a cycle on, with verdict, packet, out and permitted."""
    found: dict[tuple[int, str], list[tuple[Any, ...]]] = {}
    for (router, port, number), flat in zip(data["channels"], data["changes"]):
        cycle, changes = data["first"], list[tuple[Any, ...]]()
        for at in range(0, len(flat), 5):
            step, verdict, packet, out, permitted = flat[at:at + 5]
            cycle += step
            holder = None if packet == -1 else packet
            changes.append((cycle, data["verdicts"][verdict], holder, data["names"][out], data["names"][permitted]))
        found[router, f"{data['ports'][port]}.{number}"] = changes
    return found


class Replay(FolderTest):
    def setUp(self) -> None:
        self.put(c=LINE, t=IN_THE_WAY)

    def test_it_has_all_changes(self) -> None:
        data = data_of(self.said("replay", "c", "t"))
        changes = changes_in(data)
        self.assertEqual((data["first"], data["last"], data["nodes"]), (0, 19, 3))
        self.assertEqual((changes[1, "-0.0"], changes[1, "+0.0"]), (AT_ROUTER_1, []))
        self.assertEqual(data["packets"], {"0": [0, 2, 1, 0, 0], "1": [1, 2, 1, 0, 0], "2": [0, 2, 3, 0, 3]})
        self.assertEqual(sorted(data["links"]), [[0, "+0", 1], [1, "+0", 2], [1, "-0", 0], [2, "-0", 1]])

    def test_it_has_the_packets_of_queues(self) -> None:
        """Packet 2 comes in when packet 0 has left local.0, in cycle 3. In 8 packet 1 is out and packet 0 is not. The
        last packet is due in cycle 19, and comes in then."""
        self.put(late=f"{IN_THE_WAY}2,0,0,1,19\n")
        spans = {
            (0, 2): {"0": 0, "1": 0, "2": -1}, (1, 3): {"0": 1, "1": 1, "2": 3}, (8, 9): {"0": 8, "2": 8},
            (18, 18): {}, (18, 19): {"3": 19},
        }
        for (first, last), came in spans.items():
            packets = data_of(self.said("replay", "c", "late", "--from", first, "--to", last))["packets"]
            self.assertEqual({number: packet[-1] for number, packet in packets.items()}, came)

    def test_it_agrees_with_the_program(self) -> None:
        for network, traffic in made_networks(4):
            self.put(c=network, t=traffic)
            data = data_of(self.said("replay", "c", "t", "--from", 5, "--to", 30))
            changes = changes_in(data)
            for router, cycle in [(router, cycle) for router in range(network.nodes) for cycle in (5, 13, 30)]:
                for channel, row in found_by_explain(self, cycle, router).items():
                    before = [one for one in changes[router, channel] if one[0] <= cycle]
                    _, verdict, packet, out, _ = ([(0, "Empty", None, "-", "-")] + before)[-1]
                    self.assertEqual((verdict, "-" if packet is None else str(packet), out), row)

    def test_it_stands_alone(self) -> None:
        """Nothing in the page names another file or an address, but for the name of the language of its pictures."""
        page = self.said("replay", "examples/blocked.toml", "examples/blocked.csv")
        others = re.findall(r"\b(?:src|href)\s*=|@import|\burl\((?!#)|\bfetch\(|XMLHttpRequest|\bimport\b", page)
        self.assertEqual(others, [])
        self.assertEqual(set(re.findall(r"\w+://[^\"' ]+", page)), {"http://www.w3.org/2000/svg"})

    def test_it_takes_any_name(self) -> None:
        """The name of a file may look like the place of the data."""
        self.put(**{"@DATA@": LINE})
        named, odd = (self.said("replay", name, "t") for name in ("c", "@DATA@"))
        self.assertEqual(data_of(named), data_of(odd))
        self.assertIn("<h1>@DATA@, t: mesh of 3, dor", odd)
        self.assertEqual(len(odd) - len(named), 2 * len("@DATA@") - 2)

    def test_it_says_what_fits(self) -> None:
        """Two changes in each of the cycles 0 to 2, four in 3, when two heads come to other routers, one channel is
        empty and packet 2 comes in, and three in 4: so thirteen are those up to cycle 4. Too many are refused before
        one is looked at."""
        run = Run(self.folder / "c", self.folder / "t")
        with patch.object(replay, "MOST_CHANGES", 13):
            self.assertIn("mesh of 3", replay.page(run, 0, 4))
            for last in (19, 5):
                sentence = f"the cycles 0 to {last} have more than 13 changes: those up to 4 fit (--to 4)"
                with patch.object(replay, "changes_of"), self.assertRaisesRegex(Refused, re.escape(sentence)):
                    replay.page(run, 0, last)


class Shown(HTMLParser):
    """What a browser shows: the cells of each table, and the words, attributes and body's colour of each other element
    with a name."""

    def __init__(self, text: str) -> None:
        super().__init__()
        self.tables: dict[str, list[list[str]]] = {}
        self.words: dict[str, str] = {}
        self.attributes: dict[str, dict[str, str]] = {}
        self.bodies: dict[str, str] = {}
        self.tips: dict[str, int] = {}
        self.paths: dict[str, str] = {}
        self.table: list[list[str]] | None = None
        self.name: str | None = None
        self.feed(text)

    def handle_starttag(self, tag: str, pairs: list[tuple[str, str | None]]) -> None:
        attributes = dict(pairs)
        if tag == "table":
            self.table = self.tables.setdefault(attributes["id"], [])
        elif "id" in attributes:
            self.name, self.kind = attributes["id"], tag
            self.words[self.name], self.attributes[self.name] = "", attributes
        elif tag == "tr":
            self.table.append([])
        elif tag in ("td", "th"):
            self.table[-1].append("")
        elif attributes.get("class") == "body":
            self.bodies[self.name] = attributes["fill"]
        elif attributes.get("class") == "tip":
            self.tips[self.name] = attributes["d"].count("Z")
            self.paths[self.name] = attributes["d"]

    def handle_endtag(self, tag: str) -> None:
        if tag == "table":
            self.table = None
        elif self.name and tag == self.kind:
            self.name = None

    def arrows(self) -> dict[str, int]:
        """How many arrows of each kind are drawn: each tip is a closed line."""
        return {kind: self.tips[f"arrows-{kind}"] for kind in ("own", "other", "followed", "circle")}

    def handle_data(self, words: str) -> None:
        if self.table:
            self.table[-1][-1] += words
        elif self.name:
            self.words[self.name] += words


KEYS = """
const forward = document.getElementById("forward"), seen = [];
const press = (kind, key, target, more) => {
  const event = new KeyboardEvent(kind, { key, bubbles: true, cancelable: true, ...more });
  target.dispatchEvent(event);
  return event.defaultPrevented;
};
const now = () => document.getElementById("cycle").value;
"""
CHANGES = KEYS + """
for (const cycle of [8, 17]) {
  go(cycle);
  for (const id of ["behind", "behind", "before", "before"]) {
    document.getElementById("change-" + id).click();
    seen.push(now());
  }
  for (const key of ["ArrowRight", "ArrowLeft", "ArrowLeft"]) {
    press("keydown", key, forward, { shiftKey: true });
    seen.push(now());
  }
}
document.getElementById("router-name").textContent = seen.join(" ");
"""
MIDDLES = """
const drawn = [11, 12, 13].map((cycle) => {
  go(cycle);
  return document.getElementById("stands").getAttribute("d").split("Z").length - 1;
});
document.getElementById("router-name").textContent = drawn.join(" ");
"""
ADDRESS = """
document.getElementById("forward").click();
document.getElementById("router-2").dispatchEvent(new MouseEvent("click", { bubbles: true }));
setTimeout(() => { document.getElementById("router-name").textContent = location.hash; }, 1000);
"""
FOLLOW = """
const field = document.getElementById("follow");
field.value = -1;
field.dispatchEvent(new Event("change"));
"""
ARROWS = """
const field = document.getElementById("arrows");
field.value = "%s";
field.dispatchEvent(new Event("change"));
"""
WRITTEN = """
const field = document.getElementById("%s"), answers = [];
for (const word of %s) {
  field.value = word;
  field.dispatchEvent(new Event("change"));
  answers.push([document.getElementById("told").textContent, field.value, document.getElementById("cycle").value]);
}
document.getElementById("router-name").textContent = JSON.stringify(answers);
"""
# A clock that goes on by a quarter of a second whenever it is read.
SLOW = """
let time = 0;
performance.now = () => (time += 250);
const visited = [], now = document.getElementById("now");
new MutationObserver(() => visited.push(cycle)).observe(now, { attributeFilter: ["x1"] });
document.getElementById("play").click();
setTimeout(() => { document.getElementById("router-name").textContent = visited.join(" "); }, 4000);
"""
ROLES = """
const router = document.getElementById("router-1");
router.focus();
const isFocused = document.activeElement === router;
router.dispatchEvent(new KeyboardEvent("keydown", { key: "Enter", bubbles: true, cancelable: true }));
const named = [picture, router].map((each) => [each.getAttribute("role"), each.getAttribute("aria-label")]);
document.getElementById("packet-name").textContent = JSON.stringify([isFocused, router.tabIndex, ...named]);
"""
ZOOM = """
const box = picture.getBoundingClientRect(), parts = [picture.getAttribute("viewBox")];
const at = (name, x, y, more) => new (name === "wheel" ? WheelEvent : PointerEvent)(
  name, { clientX: box.left + x, clientY: box.top + y, bubbles: true, cancelable: true, ...more },
);
const note = () => parts.push(picture.getAttribute("viewBox"));
picture.dispatchEvent(at("wheel", box.width / 2, box.height / 2, { deltaY: -100 }));
note();
picture.dispatchEvent(at("pointerdown", box.width / 2, box.height / 2));
window.dispatchEvent(at("pointermove", box.width / 2 + 40, box.height / 2));
window.dispatchEvent(at("pointerup", box.width / 2 + 40, box.height / 2));
note();
document.getElementById("whole").click();
note();
document.getElementById("router-name").textContent = JSON.stringify(parts);
"""
PLANES = """
const names = [...document.querySelectorAll(".plane")].map((name) => name.textContent);
document.getElementById("router-name").textContent = JSON.stringify(
  { whole: [WIDE, HIGH], routers: [0, 4, 8, 12].map(centre), names },
);
"""
DARK = """
const colours = [document.body, document.querySelector("#picture text")].map((each) => getComputedStyle(each));
document.getElementById("router-name").textContent = colours[0].backgroundColor + " " + colours[1].fill;
"""
SAVE = """
URL.createObjectURL = (blob) => {
  blob.text().then((text) => { document.getElementById("router-name").textContent = text; });
  return "#";
};
document.getElementById("save").click();
"""
# What the page says of these packets in these cycles: the places step by step, and the sentence at their end.
ALL_STEPS = """
const found = [];
for (const [cycle, packet] of ASKED) {
  go(cycle);
  follow(packet);
  const rows = [...document.querySelectorAll("#steps-table tr")].slice(1);
  const steps = rows.map((row) => [...row.cells].slice(0, 3).map((cell) => cell.textContent).join(" "));
  found.push([...steps, document.getElementById("steps-end").textContent]);
}
document.getElementById("router-name").textContent = JSON.stringify(found);
"""
# A step in the words of 'why': the packet, and the queue's node or the router and its channel.
STEP = re.compile(r"packet (\d+), (?:the queue of node (\d+)|router (\d+), ([^:]+)):")


def steps_of(lines: list[str]) -> list[str]:
    """The steps in the words of 'why' as the page has them, and the sentence at their end."""
    found = [STEP.match(line) for line in lines]
    steps = [f"{step[1]} {step[2] or step[3]} {step[4] or 'queue'}" for step in found if step]
    end = lines[-1] if lines[-1].startswith("So ") else ""
    return [*steps, end]


@unittest.skipUnless(CHROMIUM, "there is no Chromium here")
class InABrowser(FolderTest):
    def setUp(self) -> None:
        self.put(c=LINE, t=IN_THE_WAY)

    def shown(self, moment: str, acts: str = "", files: Iterable[str] = ("c", "t"), more: Iterable[str] = ()) -> Shown:
        """What Chromium shows of the page of the line or of other files, opened at a moment, after some acts, with more
        words for it."""
        page = self.said("replay", *files).replace("</body>", f"<script>{acts}</script></body>")
        self.put(**{"page.html": page})
        address = f"{(self.folder / 'page.html').as_uri()}#{moment}"
        # (a profile of its own, since one that another browser has open would not be opened again)
        words = ["--headless", "--no-sandbox", "--disable-gpu", "--disable-dev-shm-usage", "--virtual-time-budget=6000"]
        profile = f"--user-data-dir={self.folder / 'profile'}"
        return Shown(self.called([CHROMIUM, *words, *more, profile, "--dump-dom", address]).stdout)

    def test_a_moment(self) -> None:
        """Cycle 5: packet 0 waits at router 1, and packet 2 at router 0, which has the colour of that stall too. Both
        wait for the second cycle. Nobody has +0.0 of router 1, but packet 1 has not left the buffer behind it."""
        seen = self.shown("cycle=5&router=1&packet=2")
        self.assertEqual(seen.words["router-name"], "Router 1 in cycle 5")
        self.assertEqual(seen.tables["router-table"][1:], [
            ["+0.0", "Empty", "-", "-", "-", "-", "-"], ["-0.0", "NoIdleChannel", "2", "0", "-", "+0.0", "1"],
            ["local.0", "Empty", "-", "-", "-", "-", "-"],
        ])
        self.assertEqual(seen.tables["packet-table"][1:], [["0", "local.0", "NoIdleChannel", "2", "-", "+0.0"]])
        self.assertIn("From node 0 to node 2, 3 flits, due in cycle 0.", seen.words["packet-state"])
        self.assertEqual(seen.attributes["channel-2--0.0"]["data-verdict"], "Moved")
        self.assertEqual(seen.bodies["router-0"], seen.bodies["router-1"])
        self.assertNotEqual(seen.bodies["router-1"], seen.bodies["router-2"])
        self.assertIn("followed", seen.attributes["channel-0-local.0"]["class"].split())

    def test_the_steps_of_a_packet(self) -> None:
        """Packet 2 waits for packet 0, and that for packet 1, which leaves the network: two purple arrows."""
        seen = self.shown("cycle=5&packet=2")
        self.assertEqual(seen.tables["steps-table"][1:], [
            ["2", "0", "local.0", "NoIdleChannel", "2"], ["0", "1", "-0.0", "NoIdleChannel", "2"],
            ["1", "2", "-0.0", "Moved", "-"],
        ])
        self.assertEqual(seen.words["steps-end"], "So packet 2 waits for packet 1, which goes on.")
        self.assertEqual(seen.arrows(), {"own": 0, "other": 0, "followed": 2, "circle": 0})
        self.assertEqual(sum(self.shown("cycle=5").arrows().values()), 0)

    def test_other_arrows(self) -> None:
        """In cycle 5 packet 2 waits at router 0 for packet 0 at router 1, and that for packet 1. From each router one
        arrow leads to packet 1, which goes on; or all lead from each that waits to the next."""
        for wanted, others in ("all", 2), ("roots", 2), ("packet", 0), ("none", 0):
            seen = self.shown("cycle=5", ARROWS % wanted)
            self.assertEqual(seen.arrows(), {"own": 0, "other": others, "followed": 0, "circle": 0}, wanted)
        ends = {wanted: self.shown("cycle=5", ARROWS % wanted).paths["arrows-other"] for wanted in ("all", "roots")}
        self.assertNotEqual(ends["all"], ends["roots"])

    def test_what_cannot_be_shown_is_told(self) -> None:
        """A field keeps what is shown where something else is written; nothing ends the following of a packet."""
        told = "{} is no cycle of this page, which has the cycles 0 to 19."
        words = ["7", "99", "1.5", "-1", "", "8"]
        said = json.loads(self.shown("cycle=4", WRITTEN % ("cycle", json.dumps(words))).words["router-name"])
        wrong = [[told.format(word or "What was written"), "7", "7"] for word in words[1:5]]
        self.assertEqual(said, [["", "7", "7"], *wrong, ["", "8", "8"]])
        said = json.loads(self.shown("packet=1", WRITTEN % ("follow", '["-1", "2", ""]')).words["router-name"])
        told = "-1 is no packet: packets are numbered from 0."
        self.assertEqual([each[:2] for each in said], [[told, "1"], ["", "2"], ["", ""]])

    def test_a_slow_picture_leaves_cycles_out(self) -> None:
        """At 8 cycles in a second a picture that takes a quarter of one shows every second cycle."""
        seen = self.shown("", SLOW).words["router-name"]
        self.assertEqual(seen, " ".join(map(str, [*range(2, 19, 2), 19])))

    def test_routers_can_be_reached_and_are_named(self) -> None:
        seen = self.shown("cycle=5", ROLES)
        self.assertEqual(json.loads(seen.words["packet-name"]), [
            True, 0, ["group", "the network"], ["button", "router 1: NoIdleChannel"],
        ])
        self.assertEqual(seen.words["router-name"], "Router 1 in cycle 5")

    def test_the_picture_zooms_and_moves(self) -> None:
        """By a fifth about the middle, then 40 points of the screen to the right, and back to the whole."""
        whole, closer, moved, again = json.loads(self.shown("", ZOOM).words["router-name"])
        (_, _, wide, high), (x, y, less, lower) = (list(map(float, part.split())) for part in (whole, closer))
        self.assertAlmostEqual(wide / less, 1.2, 1)
        self.assertAlmostEqual(x + less / 2, wide / 2, delta=0.5)
        self.assertAlmostEqual(y + lower / 2, high / 2, delta=0.5)
        self.assertLess(float(moved.split()[0]), x)
        self.assertEqual((moved.split()[1:], again), (closer.split()[1:], whole))

    def test_planes_stand_in_a_square(self) -> None:
        """Four planes of two by two routers, two beside each other, each below its name. A router has a side of 72, and
        between two are 30; so a plane is 234 wide, and with its name 252 high."""
        self.put(c=Network("mesh", (2, 2, 4), 1, 2, 1, "dor", 20))
        seen = json.loads(self.shown("", PLANES).words["router-name"])
        self.assertEqual(seen["whole"], [468, 504])
        self.assertEqual(seen["routers"], [[66, 186], [300, 186], [66, 438], [300, 438]])
        self.assertEqual(seen["names"], [f"plane {z} of dimension 2" for z in range(4)])

    def test_a_dark_system_is_heeded(self) -> None:
        dark = self.shown("", DARK, more=["--blink-settings=preferredColorScheme=0"]).words["router-name"]
        light = self.shown("", DARK, more=["--blink-settings=preferredColorScheme=1"]).words["router-name"]
        self.assertEqual((dark, light), ("rgb(20, 23, 27) rgb(242, 242, 242)", "rgb(255, 255, 255) rgb(0, 0, 0)"))

    def test_a_queue(self) -> None:
        """Packet 2 waits at node 0 until packet 0 has left local.0; in cycle 2 it comes in next, and waits for none."""
        seen = self.shown("cycle=1&router=0&packet=2")
        self.assertEqual(seen.words["queue"], "In the queue of node 0: 1 packet, first 2")
        self.assertEqual([seen.words[f"queue-{node}"] for node in range(3)], ["1", "", ""])
        self.assertIn("It waits in the queue of node 0, behind 0 packets.", seen.words["packet-state"])
        self.assertEqual(seen.words["steps-end"], "So packet 2 waits for packet 0, which goes on.")
        self.assertEqual(seen.tables["steps-table"][1], ["2", "0", "queue"])
        self.assertEqual(self.shown("cycle=2&packet=2").words["steps-end"], "")
        self.assertEqual(self.shown("cycle=3&router=0").words["queue"], "Nothing waits in the queue of node 0.")

    def test_a_circle(self) -> None:
        """Each packet of the ring has come to the next router in cycle 3, and in 4 asks there for the link of the next
        packet. So from then on eight channels wait in a circle."""
        files = "examples/ring.toml", "examples/ring.csv"
        seen = self.shown("cycle=20&packet=0", files=files)
        self.assertEqual(seen.words["circles"], "Packets wait for one another from cycle 4 on (red): 0, 1, 2, 3.")
        self.assertEqual(seen.words["steps-end"], "So these packets wait for one another: 0, 1, 2, 3.")
        self.assertEqual([row[:3] for row in seen.tables["steps-table"][1:]], [
            ["0", "1", "-0.0"], ["1", "1", "local.0"], ["1", "2", "-0.0"], ["2", "2", "local.0"],
            ["2", "3", "-0.0"], ["3", "3", "local.0"], ["3", "0", "-0.0"], ["0", "0", "local.0"],
        ])
        self.assertEqual(seen.arrows(), {"own": 0, "other": 0, "followed": 0, "circle": 8})
        before = self.shown("cycle=3", files=files)
        self.assertEqual(before.words["circles"], "Packets wait for one another from cycle 4 on (red).")
        self.assertEqual(before.arrows()["circle"], 0)
        self.assertEqual(sum(self.shown("cycle=20", ARROWS % "none", files).arrows().values()), 0)

    def test_it_stands_whatever_the_reason(self) -> None:
        """Two heads ask for one link in cycle 4. The one that loses stands from then on, though its verdict changes."""
        self.put(t=HEADER + "0,2,0,1,0\n1,2,0,1,3\n")
        for cycle, stands in (4, {"Granted": "-", "LostChannel": "1"}), (5, {"Moved": "-", "NoIdleChannel": "2"}):
            rows = self.shown(f"cycle={cycle}&router=1").tables["router-table"][1:]
            self.assertEqual({row[1]: row[2] for row in rows}, {"Empty": "-", **stands})

    def test_it_darkens(self) -> None:
        """In the ring four channels wait from cycle 3 on without credit, and four more from cycle 4 on."""
        files = "examples/ring.toml", "examples/ring.csv"
        self.assertEqual(self.shown("", MIDDLES, files).words["router-name"], "0 4 8")

    def test_it_says_what_why_says(self) -> None:
        """Of all packets in networks of all rules with more traffic than they take, in cycles before their last; and in
        a ring with two channels on a link, in which packets that go half way round are stuck."""
        ring = Network("torus", (6,), 2, 1, 1, "dor", 40)
        rows = [f"{node},{(node + 3) % 6},0,6,0\n" for node in range(6)]
        for network, traffic in [*made_networks(4), (ring, HEADER + 4 * "".join(rows))]:
            self.put(c=network, t=traffic)
            run = Run(self.folder / "c", self.folder / "t")
            moments = {cycle: Snapshot(run, cycle) for cycle in range(5, 38, 3)}
            asked = [(cycle, packet) for cycle in moments for packet in range(len(run.rows))]
            told = [steps_of(waiting_lines(moments[cycle], run.packet(packet))) for cycle, packet in asked]
            acts = f"const ASKED = {json.dumps(asked)};{ALL_STEPS}"
            self.assertEqual(json.loads(self.shown("", acts).words["router-name"]), told)
        self.assertTrue(any("wait for one another" in steps[-1] for steps in told))

    def test_a_page_plays_to_its_end(self) -> None:
        """Twenty cycles at 8 in a second are over in three."""
        seen = self.shown("router=1&packet=1", 'document.getElementById("play").click();')
        self.assertEqual((seen.words["router-name"], seen.words["play"]), ("Router 1 in cycle 19", "Play"))
        self.assertIn("It is out.", seen.words["packet-state"])

    def test_it_goes_from_change_to_change(self) -> None:
        """Router 1 changes in 7, 8, 10, 11, 12, 14, 16 and at last in 17. Shift and an arrow do what the buttons do."""
        seen = self.shown("router=1", CHANGES).words["router-name"]
        self.assertEqual(seen, "10 11 10 8 10 8 7 17 17 16 14 16 14 12")

    def test_the_address_is_that_of_the_moment(self) -> None:
        moments = {
            "cycle=4&router=1&packet=2": "#cycle=5&router=2&packet=2", "cycle=x&packet=-1": "#cycle=1&router=2",
            "": "#cycle=1&router=2",
        }
        seen = {moment: self.shown(moment, ADDRESS).words["router-name"] for moment in moments}
        self.assertEqual(seen, moments)

    def test_less_than_nothing_is_no_packet(self) -> None:
        """Channels without a packet are not those of packet -1, which is told."""
        seen = self.shown("cycle=4", FOLLOW)
        classes = {found.get("class") for name, found in seen.attributes.items() if name.startswith("channel-")}
        self.assertTrue(seen.words["packet-name"].startswith("Click on a packet"))
        self.assertEqual(classes, {"channel"})

    def test_a_picture_is_saved(self) -> None:
        """A picture that stands alone: its style, all seven channels, its title, and a key for each of two verdicts."""
        picture = ET.fromstring(self.shown("cycle=5&packet=2", SAVE).words["router-name"])
        channels = [found for found in picture.iter(f"{SVG}rect") if "channel" in found.get("class", "").split()]
        self.assertEqual(len(channels), 7)
        self.assertIn(".channel", picture.find(f"{SVG}style").text)
        words = [found.text for found in picture.findall(f"{SVG}text")]
        self.assertTrue(words[0].startswith("c, t: mesh of 3, dor"), words)
        self.assertEqual(words[1], "cycle 5, packet 2 in purple")
        self.assertEqual([key.split(":")[0] for key in words[2:]], ["Empty", "Moved", "NoIdleChannel"])

    def test_the_pages_show_pictures_that_were_saved(self) -> None:
        for name, moment in ("blocked", "cycle=20&packet=3"), ("ring", "cycle=20"):
            saved = self.shown(moment, SAVE, (f"examples/{name}.toml", f"examples/{name}.csv")).words["router-name"]
            self.assertEqual(saved, (TOP / f"examples/{name}_20.svg").read_text())
