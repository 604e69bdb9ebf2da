"""The colours of verdicts lie far from one another, for eyes that see few colours and in print without colour too."""
import math
import unittest
import xml.etree.ElementTree as ElementTree
from collections.abc import Sequence
from itertools import combinations
from typing import Any

from noc_tools.palette import KINDS, TILE, patterns
from noc_tools.picture import WHITE

# What is left of red, green and blue light: without loss, with deuteranopia and protanopia (Machado, Oliveira and
# Fernandes, 2009), and in print without colour.
SEEN = {
    "all colours": [[1, 0, 0], [0, 1, 0], [0, 0, 1]],
    "deuteranopia": [
        [0.367322, 0.860646, -0.227968], [0.280085, 0.672501, 0.047413], [-0.011820, 0.042940, 0.968881],
    ],
    "protanopia": [
        [0.152286, 1.052583, -0.204868], [0.114503, 0.786281, 0.099216], [-0.003882, -0.048116, 1.051998],
    ],
    "no colour": [[0.2126, 0.7152, 0.0722]] * 3,
}
# Small squares less than some 20 apart in CIE Lab are hard to tell apart. Nine steps of grey cannot be that far.
LEAST = {"all colours": 25, "deuteranopia": 25, "protanopia": 25, "no colour": 9}


def light_of(colour: str) -> list[float]:
    """The light of a colour #rrggbb, each part from 0 to 1."""
    parts = [int(colour[place:place + 2], 16) / 255 for place in (1, 3, 5)]
    return [part / 12.92 if part <= 0.04045 else ((part + 0.055) / 1.055) ** 2.4 for part in parts]


def lab_of(light: Sequence[float]) -> tuple[float, float, float]:
    """CIE Lab of some light, under the white D65."""
    red, green, blue = light
    parts = (
        (0.4124 * red + 0.3576 * green + 0.1805 * blue) / 0.9505, 0.2126 * red + 0.7152 * green + 0.0722 * blue,
        (0.0193 * red + 0.1192 * green + 0.9505 * blue) / 1.089,
    )
    x, y, z = (part ** (1 / 3) if part > 0.008856 else 7.787 * part + 16 / 116 for part in parts)
    return 116 * y - 16, 500 * (x - y), 200 * (y - z)


def seen_as(colour: str, matrix: Any) -> tuple[float, float, float]:
    """A colour as such eyes see it, in CIE Lab."""
    light = light_of(colour)
    return lab_of([min(1, max(0, sum(a * b for a, b in zip(row, light)))) for row in matrix])


class Palette(unittest.TestCase):
    def test_colours_are_far_apart(self) -> None:
        """Those of the kinds that have one, and the paper."""
        colours = {name: kind.colour for name, kind in KINDS.items() if kind.colour != WHITE} | {"paper": WHITE}
        self.assertEqual(len(colours), 9)
        for eyes, matrix in SEEN.items():
            for one, other in combinations(colours, 2):
                apart = math.dist(*(seen_as(colours[name], matrix) for name in (one, other)))
                self.assertGreater(apart, LEAST[eyes], (eyes, one, other))

    def test_the_distances_are_those_of_cie(self) -> None:
        """Black to white is 100, and pure red lies at 53, 80, 67."""
        self.assertAlmostEqual(math.dist(lab_of((0, 0, 0)), lab_of((1, 1, 1))), 100, delta=0.1)
        for found, expected in zip(lab_of((1, 0, 0)), (53.2, 80.1, 67.2)):
            self.assertAlmostEqual(found, expected, delta=0.2)

    def test_signs_tell_kinds_apart_too(self) -> None:
        """Each stall has a sign that no other kind has; what has the colour of the paper has another sign or none; and
        strokes are far from the colour under them."""
        stalls = [kind.sign for name, kind in KINDS.items() if name.startswith(("No", "Lost"))]
        self.assertEqual((len(stalls), len({"", *stalls})), (6, 7))
        white = [kind.sign for kind in KINDS.values() if kind.colour == WHITE]
        self.assertEqual((len(white), len(set(white))), (3, 3))
        for name, kind in KINDS.items():
            if kind.sign:
                lightness = [lab_of(light_of(colour))[0] for colour in (kind.ink, kind.colour)]
                self.assertGreater(abs(lightness[0] - lightness[1]), 40, name)

    def test_patterns_have_the_colour_and_the_sign(self) -> None:
        for text, (name, kind) in zip(patterns()[1:-1], KINDS.items(), strict=True):
            pattern = ElementTree.fromstring(text)
            ground, *strokes = pattern
            self.assertEqual((pattern.get("id"), pattern.get("width")), (f"kind-{name}", str(TILE)))
            signs = [path.get("d") for path in strokes]
            self.assertEqual((ground.get("fill"), signs), (kind.colour, [kind.sign] if kind.sign else []))
