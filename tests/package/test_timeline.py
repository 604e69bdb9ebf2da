"""What the picture of 'timeline' shows of a packet, worked out by hand from docs/MODEL.md."""
import re
import xml.etree.ElementTree as ElementTree

from support import HEADER, SVG, FolderTest


def bars_of(svg: str) -> dict[str, list[str]]:
    """The bars of each row, by its name."""
    found = {}
    for group in ElementTree.fromstring(svg).iter(f"{SVG}g"):
        titles = [title.text for title in group.iter(f"{SVG}title")]
        found[group.find(f"{SVG}text").text] = titles
    return found


class Timeline(FolderTest):
    def test_a_packet_alone(self) -> None:
        """A head is routed, granted a channel and moved in three cycles, and is in the next buffer in the fourth."""
        self.put(t=HEADER + "0,1,0,2,4\n")
        self.assertEqual(bars_of(self.said("timeline", "c", "t", 0)), {
            "router 0, local.0": ["cycle 4: Routed", "cycle 5: Granted", "cycles 6 to 7: Moved"],
            "router 1, -0.0": ["cycle 7: Routed", "cycle 8: Granted", "cycles 9 to 10: Moved"],
        })

    def test_a_wait(self) -> None:
        """Packet 2 waits in its queue until packet 0 has gone, and then for the channel that packet 0 went by.

        Packet 1 leaves router 2 in cycle 5 and its credit is back in 6. So packet 0 is granted its channel in 6 and
        leaves router 1 in 7, its credit is back in 8, and packet 2 is granted its channel in 8.
        """
        bars = bars_of(self.said("timeline", "c", "t", 2))
        self.assertEqual(list(bars), ["node 0, queue", "router 0, local.0", "router 1, -0.0", "router 2, -0.0"])
        self.assertEqual(bars["node 0, queue"], ["cycles 0 to 2: queue"])
        self.assertEqual(bars["router 0, local.0"][:2], ["cycle 3: Routed", "cycles 4 to 7: NoIdleChannel"])

    def test_numbers_at_its_ends(self) -> None:
        """The axis begins with the due cycle and ends behind the last; each row says its cycles, and why the packet
        stood still longest."""
        root = self.drawn("timeline", "c", "t", 2)
        ends = [group.findall(f"{SVG}text")[-1].text for group in root.iter(f"{SVG}g")]
        inside = {text for group in root.iter(f"{SVG}g") for text in group.iter(f"{SVG}text")}
        numbers = [int(text.text) for text in root.iter(f"{SVG}text") if text not in inside and text.text.isdigit()]
        self.assertEqual((numbers[0], numbers[-1]), (0, 18))
        self.assertEqual(numbers, sorted(set(numbers)))
        self.assertEqual(ends, ["3 cycles", "11 cycles, NoIdleChannel in 4", "7 cycles, NoCredit in 2", "5 cycles"])

    def test_bars_lie_at_their_cycles(self) -> None:
        """The bars of a row follow one another, each as wide as its cycles, and stay within the picture."""
        root = self.drawn("timeline", "examples/blocked.toml", "examples/blocked.csv", 3)
        scales, ends = set(), []
        for bar in root.iter(f"{SVG}rect"):
            title = bar.find(f"{SVG}title")
            if title is not None:
                first, *last = map(int, re.findall(r"\d+", title.text))
                scales.add(round(float(bar.get("width")) / (last[0] + 1 - first if last else 1), 1))
                ends.append(float(bar.get("x")) + float(bar.get("width")))
        self.assertEqual(len(scales), 1)
        self.assertLessEqual(max(ends), float(root.get("width")))

    def test_no_two_bars_look_alike(self) -> None:
        """Each verdict, and the queue, is filled by a pattern of its own, which the picture has."""
        root = self.drawn("timeline", "c", "t", 2)
        patterns = {f"url(#{pattern.get('id')})" for pattern in root.iter(f"{SVG}pattern")}
        legend = [rect.get("fill") for rect in root.findall(f"{SVG}rect")][1:]
        self.assertEqual((len(legend), len(set(legend)), set(legend) - patterns), (10, 10, set()))
        bars = {rect.get("fill") for group in root.iter(f"{SVG}g") for rect in group.iter(f"{SVG}rect")}
        self.assertEqual(bars - patterns, {"none"})
