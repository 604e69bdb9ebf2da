"""The colours and signs of verdicts in pictures and on the page that plays a run.

Each kind has a colour that lies far from all others for eyes that see all colours, and for those with deuteranopia or
protanopia; in print without colour the colours are steps of grey. Where nothing stands still the colour is white or
green. A stall has a second sign beside its colour: strokes that repeat, each kind in a direction of its own.
"""
from typing import NamedTuple

from .findings import (
    EMPTY, GRANTED, LOST_CHANNEL, LOST_INPUT, LOST_SWITCH, MOVED, NO_CREDIT, NO_FLIT, NO_IDLE_CHANNEL, REASONS, ROUTED,
)
from .life import QUEUE
from .picture import BLACK, WHITE


class Kind(NamedTuple):
    """A colour, the strokes of its sign in a tile and their colour, and what it means."""

    colour: str
    sign: str
    ink: str
    meaning: str


# The side of a tile, which repeats to the right and downwards, and how wide its strokes are.
TILE, STROKE = 6, 0.8
# A dot, a cross, and strokes in four directions; those aslant reach over the corners of their tile.
DOT, PLUS, CROSS = "M2 3h2", "M1.5 3h3M3 1.5v3", "M-1 -1L7 7M-1 7L7 -1"
RISING, FALLING = "M-1 1L1 -1M0 6L6 0M5 7L7 5", "M-1 5L1 7M0 0L6 6M5 -1L7 1"
LEVEL, UPRIGHT, SPECKS = "M0 3h6", "M3 0v6", "M1 1.5h1M4 4.5h1"
KINDS = {
    QUEUE: Kind("#421f45", "", WHITE, "it is due, and waits in the queue of its source"),
    EMPTY: Kind(WHITE, "", BLACK, "it holds no packet"),
    ROUTED: Kind(WHITE, DOT, BLACK, "its head is routed"),
    GRANTED: Kind(WHITE, PLUS, BLACK, "it is granted its next channel"),
    MOVED: Kind("#23e099", "", BLACK, "a flit moves on"),
    NO_FLIT: Kind("#1295e5", SPECKS, BLACK, REASONS[NO_FLIT]),
    NO_IDLE_CHANNEL: Kind("#a4350d", CROSS, WHITE, REASONS[NO_IDLE_CHANNEL]),
    LOST_CHANNEL: Kind("#b9517a", RISING, BLACK, REASONS[LOST_CHANNEL]),
    NO_CREDIT: Kind("#d8a02c", LEVEL, BLACK, REASONS[NO_CREDIT]),
    LOST_INPUT: Kind("#02418a", FALLING, WHITE, REASONS[LOST_INPUT]),
    LOST_SWITCH: Kind("#fae400", UPRIGHT, BLACK, REASONS[LOST_SWITCH]),
}


def pattern(name: str, kind: Kind) -> str:
    """What fills a shape with a colour and its sign, as an SVG pattern of this name."""
    tile = f'id="{name}" width="{TILE}" height="{TILE}" patternUnits="userSpaceOnUse"'
    ground = f'<rect width="{TILE}" height="{TILE}" fill="{kind.colour}"/>'
    strokes = f'<path d="{kind.sign}" stroke="{kind.ink}" stroke-width="{STROKE}" fill="none"/>' if kind.sign else ""
    return f"<pattern {tile}>{ground}{strokes}</pattern>"


def patterns() -> list[str]:
    """The patterns of all kinds, for the beginning of a picture."""
    return ["<defs>", *(pattern(f"kind-{name}", kind) for name, kind in KINDS.items()), "</defs>"]


def fill_of(name: str) -> str:
    """What fills a shape of a kind, in a picture that has the patterns."""
    return f"url(#kind-{name})"
