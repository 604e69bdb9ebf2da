"""Pictures as SVG: texts, lines, and the frame that holds them."""
import re
from collections.abc import Iterable
from html import escape

BLACK, WHITE, GREY = "#000000", "#ffffff", "#666666"
Colour = tuple[int, int, int]
# The colours of shares, from 0 to the greatest.
SCALE: list[Colour] = [(255, 255, 229), (254, 227, 145), (254, 153, 41), (204, 76, 2), (102, 37, 6)]
BAR_WIDTH, BAR_STEPS = 22, 4
# What no XML may hold: control characters, and what Python makes of the bytes of a name that is not UTF-8.
NO_XML = re.compile("[^\t\n\r -\ud7ff\ue000-\ufffd\U00010000-\U0010ffff]")


def text(x: float, y: float, words: str, size: int = 13, anchor: str = "middle", fill: str = BLACK) -> str:
    """A line of words."""
    style = f'font-size="{size}" text-anchor="{anchor}" fill="{fill}" font-weight="normal"'
    return f'<text x="{x:g}" y="{y:g}" {style}>{escape(NO_XML.sub(chr(0xFFFD), words))}</text>'


def bold(x: float, y: float, words: str, size: int = 13, anchor: str = "start", fill: str = BLACK) -> str:
    """A line of bold words."""
    return text(x, y, words, size, anchor, fill).replace(' font-weight="normal">', ' font-weight="bold">', 1)


def upwards(x: float, y: float, words: str) -> list[str]:
    """A line of words that is read from below."""
    return [f'<g transform="rotate(-90 {x:g} {y:g})">', text(x, y, words), "</g>"]


def line(x1: float, y1: float, x2: float, y2: float, drawn: str) -> str:
    """A line, and how it is drawn."""
    return f'<line x1="{x1:g}" y1="{y1:g}" x2="{x2:g}" y2="{y2:g}" {drawn}/>'


def rectangle(x: float, y: float, width: float, height: float, drawn: str) -> str:
    """A rectangle, and how it is drawn."""
    return f'<rect x="{x:g}" y="{y:g}" width="{width:g}" height="{height:g}" {drawn}/>'


def svg(width: float, height: float, parts: Iterable[str]) -> str:
    """The picture of these parts, on white."""
    size = f'width="{width:g}" height="{height:g}"'
    head = f'<svg xmlns="http://www.w3.org/2000/svg" viewBox="0 0 {width:g} {height:g}" {size} '
    paper = f'<rect {size} fill="{WHITE}"/>'
    return "\n".join([f'{head}font-family="DejaVu Sans, Arial, sans-serif">', paper, *parts, "</svg>\n"])


# ---- shares


def percent(share: float) -> str:
    """A share in words."""
    return f"{100 * share:.1f} %"


def colour_of(part: float) -> Colour:
    """The colour of a part from 0 to 1 of the scale, as red, green and blue; what is above it has that of its end."""
    place = min(part, 1) * (len(SCALE) - 1)
    step = min(int(place), len(SCALE) - 2)
    red, green, blue = (round(a + (b - a) * (place - step)) for a, b in zip(SCALE[step], SCALE[step + 1]))
    return red, green, blue


def hexadecimal(colour: Colour) -> str:
    """A colour as SVG writes it."""
    return "#" + "".join(f"{value:02x}" for value in colour)


def ink_on(colour: Colour) -> str:
    """Black or white, whichever has the greater contrast to a colour."""
    red, green, blue = ((value / 255) ** 2.2 for value in colour)
    return BLACK if 0.2126 * red + 0.7152 * green + 0.0722 * blue > 0.18 else WHITE


def colour_bar(x: float, y: float, height: float, words: str, top_share: float) -> list[str]:
    """The scale of the colours, the highest share on top."""
    last = len(SCALE) - 1
    stops = [f'<stop offset="{step / last:g}" stop-color="{hexadecimal(SCALE[step])}"/>' for step in range(last + 1)]
    parts = [bold(x, y - 12, words), '<linearGradient id="scale" x1="0" y1="1" x2="0" y2="0">', *stops]
    parts += ["</linearGradient>", rectangle(x, y, BAR_WIDTH, height, 'fill="url(#scale)" stroke="#999999"')]
    for step in range(BAR_STEPS + 1):
        part = step / BAR_STEPS
        parts.append(text(x + BAR_WIDTH + 8, y + height * (1 - part) + 5, percent(top_share * part), anchor="start"))
    return parts


def column_of_words(x: float, y: float, head: str, lines: list[str]) -> tuple[list[str], float]:
    """A head and lines under it, and where they end."""
    words = [text(x, y + 20 * number, words, anchor="start") for number, words in enumerate(lines, 1)]
    return [bold(x, y, head), *words], y + 20 * len(lines) + 36
