"""Pictures of results: which curves there are, in which frames they stand, and how they are told apart."""
import re
from collections.abc import Callable, Iterable, Iterator, Sequence
from pathlib import Path

from ..curves import (
    BOUNDS, COLOURS, DASHES, KEPT, STYLES, Curve, Frame, Point, Style, around, axes_of, picture,
    with_ends,
)
from ..files import put
from ..units import FLITS, NAMES
from .combinations import Combination, Line, Row, combinations_of, place_of, varying
from .plan import SEED, View, name_of

# What a picture says of all its combinations, where they do not differ by it.
NAMED_ONCE = ["kind", "radix", "rule", "channels", "buffer", "traffic", "pattern", "length", "cycles", "window"]
PICTURES = {
    "latency": ("accepted", "mean"), "p95": ("accepted", "p95"), "p99": ("accepted", "p99"),
    "accepted": ("offered", "accepted"),
}
# Settings of which each value has a frame of its own, where nothing else is said.
FRAMED = ["pattern", "traffic"]
MOST_CURVES, MOST_FRAMES = 8, 9


def curve_of(combination: Combination, name: str, style: Style, x: str, y: str) -> Curve:
    """The curve of a combination, of those points that have both figures."""
    points = with_ends(point_of(line, x, y) for line in combination.lines)
    bound = combination.lines[-1].least(BOUNDS[x]) if x in BOUNDS else None
    return Curve(name or "all", points, style, combination.can_deadlock, bound)


def point_of(line: Line, x: str, y: str) -> Point | None:
    """The point of a line; None where it has not both figures."""
    across, height = line.at(x), line.at(y)
    if across is None or height is None:
        return None
    least, most = around(height, line.margin(y))
    step, load = (line.at(name) if name in line.rows[0] else None for name in ("keeps_up_step", "keeps_up_load"))
    if y == KEPT and step and load:
        least, most = height, height * (1 + step / load)
    return Point(across, height, line.is_whole, least, most, line.is_stuck)


# ---- frames and styles


def apart_by(combinations: Iterable[Combination], keys: Sequence[str]) -> list[list[Combination]]:
    """Combinations by their values of some settings."""
    groups: dict[tuple[str, ...], list[Combination]] = {}
    for combination in combinations:
        groups.setdefault(tuple(combination.words[key] for key in keys), []).append(combination)
    return list(groups.values())


def in_order(groups: list[list[Combination]], keys: Sequence[str]) -> list[list[Combination]]:
    """Such groups by these settings, the first one as the slowest: numbers by their size, and words as they come."""
    seen = {key: list(dict.fromkeys(group[0].words[key] for group in groups)) for key in keys}

    def places(group: list[Combination]) -> list[tuple[float, int]]:
        return [(place_of(word)[0], seen[key].index(word)) for key in keys for word in [group[0].words[key]]]

    return sorted(groups, key=places)


def framed(combinations: Sequence[Combination], keys: Sequence[str], view: View) -> list[str]:
    """The settings of which each value has a frame: those of the view, or as many as make few enough curves."""
    if view.frames is not None:
        return view.frames
    chosen = [key for key in FRAMED if key in keys]
    spare = [key for key in keys if key not in (*chosen, view.colour, view.dash)]
    spare.sort(key=lambda key: -len(apart_by(combinations, [key])))
    # (what is left tells the curves of a frame apart)
    while spare and len(chosen) + 1 < len(keys) and MOST_CURVES < max(map(len, apart_by(combinations, chosen))):
        chosen.append(spare.pop())
    return chosen


def most_of(keys: list[str], amount: Callable[[str], int]) -> str | None:
    """The first of some settings that has most, if there are any."""
    return max(keys, key=amount) if keys else None


def styled(combinations: Sequence[Combination], keys: list[str], view: View) -> dict[str, Style]:
    """A style for each name of a curve: the colour by one setting, the dashes by another. Where these two do not tell
    curves apart, one has the next style that is free; so have all where they are points, at which no dash is seen."""
    if not view.colour and not view.dash and all(len(combination.lines) == 1 for combination in combinations):
        return dict(zip(dict.fromkeys(name_of(combination.words, keys) for combination in combinations), STYLES))

    def values(key: str | None) -> list[str]:
        return list(dict.fromkeys(combination.words[key] for combination in combinations)) if key else []

    colour = view.colour or most_of([key for key in keys if key != view.dash], lambda key: len(values(key)))
    splits = [key for key in keys if key != colour]
    dash = view.dash or most_of(splits, lambda key: len(apart_by(combinations, [colour, key])) if colour else 0)
    places = {key: {value: number for number, value in enumerate(values(key))} for key in (colour, dash) if key}
    found: dict[str, Style] = {}
    for combination in combinations:
        name = name_of(combination.words, keys)
        if name not in found:
            first = Style(*(
                places[key][combination.words[key]] % count if key else 0
                for key, count in ((colour, len(COLOURS)), (dash, len(DASHES)))
            ))
            free = [style for style in [first, *STYLES] if style not in found.values()]
            found[name] = free[0] if free else first
    return found


def frames_of(combinations: Sequence[Combination], view: View, x: str, y: str) -> Iterator[list[Frame]]:
    """The frames of each picture: several pictures where there are too many frames or names for one."""
    keys = varying(combinations, view.along)
    chosen = framed(combinations, keys, view)
    rest = [key for key in keys if key not in chosen]
    groups = [
        group[first:first + MOST_CURVES]
        for group in in_order(apart_by(combinations, chosen), chosen)
        for first in range(0, len(group), MOST_CURVES)
    ]
    while groups:
        some: list[list[Combination]] = []
        while groups and len(some) < MOST_FRAMES and len(names_of([*some, groups[0]], rest)) <= len(STYLES):
            some.append(groups.pop(0))
        styles = styled([combination for group in some for combination in group], rest, view)
        frames = [frame_of(group, chosen, rest, styles, x, y) for group in some]
        if any(curve.points for frame in frames for curve in frame.curves):
            yield frames


def names_of(groups: Iterable[Iterable[Combination]], keys: list[str]) -> set[str]:
    """The names of the curves of some frames."""
    return {name_of(combination.words, keys) for group in groups for combination in group}


def frame_of(
    group: Sequence[Combination], chosen: list[str], rest: list[str], styles: dict[str, Style], x: str, y: str
) -> Frame:
    """The frame of some combinations."""
    names = [name_of(combination.words, rest) for combination in group]
    curves = [curve_of(combination, name, styles[name], x, y) for combination, name in zip(group, names)]
    return Frame(name_of(group[0].words, chosen), curves)


# ---- pictures


def subtitle_of(rows: Sequence[Row], keys: Iterable[str]) -> str:
    """What all curves have in common, and the cycles of the shortest run where noc does not take the packets of all."""
    parts = [name_of(rows[0], [key for key in NAMED_ONCE if key in rows[0] and key not in keys])]
    seeds = len({row.get(SEED) for row in rows})
    if 1 < seeds:
        parts.append(f"mean over {seeds} seeds")
    shorter = [int(row["ran"]) for row in rows if "cycles" in row and int(row["ran"]) < int(row["cycles"])]
    if shorter:
        parts.append(f"shortest run: {min(shorter)} cycles")
    return "; ".join(part for part in parts if part)


def pictures_of(
    rows: Sequence[Row], view: View, x: str, y: str, top: float | None, name: str = "picture"
) -> Iterator[tuple[str, str]]:
    """The pictures of one figure against another with the names of their files, several where there are too many curves
    for one; then each says which frames stand in the others."""
    combinations = combinations_of(rows, view.along)
    unit = NAMES[rows[0].get("unit", FLITS)]
    subtitle = subtitle_of(rows, [*varying(combinations, view.along), view.along])
    drawn = {
        f"{name}.svg" if number == 1 else f"{name}_{number}.svg": frames
        for number, frames in enumerate(frames_of(combinations, view, x, y), 1)
    }
    for file, frames in drawn.items():
        told = [words for other, some in drawn.items() if other != file for words in also_told(other, some)]
        yield file, picture(frames, axes_of(frames, x, y, top, unit), subtitle, told)


def also_told(file: str, frames: Iterable[Frame]) -> list[str]:
    """Which frames stand in another file, line by line."""
    names = list(dict.fromkeys(frame.name for frame in frames if frame.name))
    return [f"also in {file}:", *(f"  {name}" for name in names)] if names else [f"more curves in {file}"]


def pictures_in(folder: Path) -> list[Path]:
    """The pictures of a study that are in a folder. Other files of such a name are not a study's."""
    names = "|".join(PICTURES)
    return [path for path in folder.glob("*.svg") if re.fullmatch(rf"({names})(_[1-9][0-9]*)?\.svg", path.name)]


def draw_study(folder: Path, rows: Sequence[Row], view: View, top: float | None) -> None:
    """Writes the pictures of a study in place of those of an earlier sweep, which may have been more; these stay where
    one cannot be drawn."""
    drawn: dict[str, str] = {}
    for name, (x, y) in PICTURES.items():
        drawn.update(pictures_of(rows, view, x, y, None if y == "accepted" else top, name))
    for path in pictures_in(folder):
        if path.name not in drawn:
            path.unlink()
    for name, made in drawn.items():
        put(folder / name, made)
