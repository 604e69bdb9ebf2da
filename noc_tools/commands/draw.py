"""Draws the results of a study again, any column against any other.

FILE is results.csv or saturation.csv of a study. The picture is SVG, and goes to standard output. --along names what
varies along a curve, by default the load. With --along buffer a curve joins the lines that differ in buffer alone.
Along traffic it goes from file to file by their names, as where each has its own load. The other settings by which
lines differ make the curves, and the seeds make a mean.

A bar is the 95 percent interval of confidence, where this is known, and of keeps_up_to it goes up to the next load that
was tried. A dashed upright line is the bound of a pattern, and an arrow at a point says that the next one is not known.
Marks of deadlock are those of 'noc-tools curves'.

--frames names settings of which each value has a frame of its own, --colour and --dash the settings by which curves
have their colours and dashes. None of them can be the setting along which curves go, nor the seed. Without these,
patterns and traffics have frames, and so have further settings until no frame has more than eight curves. --where
takes only lines with this value of a setting, and with several words for one setting those that have any of them.

For example:

    noc-tools draw study/saturation.csv --along buffer --x buffer --y keeps_up_to > buffer.svg
"""
from argparse import ArgumentParser, Namespace
from collections.abc import Iterable

from ..arguments import add, add_top, check_top
from ..curves import number_of
from ..study.drawing import pictures_of
from ..errors import Refused, refusing
from ..files import named_rows, read_lines
from ..study.plan import LOAD, NONE, SETTINGS, View
from ..statistics import columns_of
from ..study.combinations import Row

# The columns that are whole numbers, which a picture may tell of.
WHOLE = ["ran", "cycles"]


def add_arguments(parser: ArgumentParser) -> None:
    add(parser, "file FILE", "results.csv or saturation.csv of a study")
    add(parser, "--x COLUMN", "what lies across; by default accepted", default="accepted")
    add(parser, "--y COLUMN", "what lies upwards; by default mean", default="mean")
    add(parser, "--where SETTING=VALUE", "only lines that have this", nargs="+", default=[])
    add(parser, "--along SETTING", "along which setting a curve goes; by default load", default=LOAD)
    add(parser, "--frames SETTING,..", "each of their values has a frame", type=lambda words: words.split(","))
    add(parser, "--colour SETTING", "each of its values has a colour")
    add(parser, "--dash SETTING", "each of its values has a kind of line")
    add_top(parser)


def chosen(rows: list[dict[str, str]], words: list[str]) -> list[Row]:
    """The rows that have one of the values for each setting that these words name."""
    wanted: dict[str, set[str]] = {}
    for word in words:
        key, equals, value = word.partition("=")
        if not equals or key not in rows[0]:
            raise Refused(f"'{word}' is no COLUMN=VALUE of the file, whose columns are {', '.join(rows[0])}")
        wanted.setdefault(key, set()).add(value)
    found: list[Row] = [row for row in rows if all(row[key] in values for key, values in wanted.items())]
    if not found:
        raise Refused(f"no line has {' '.join(words)}")
    return found


def check_known(rows: list[Row], names: Iterable[str], path: str) -> None:
    """Refuses a column of which these rows tell nothing."""
    for name in names:
        if all(row[name] == NONE for row in rows):
            is_part = name in (*columns_of("queue"), *columns_of("network"))
            is_asked = any(row.get("parts") != "no" for row in rows)
            reason = ": the study would need parts = true" if is_part and not is_asked else ""
            raise Refused(f"{path}: each line has a dash in the column '{name}'{reason}")


def check(rows: list[dict[str, str]], options: Namespace) -> None:
    """Refuses columns and settings that the file does not have."""
    for name in (options.x, options.y):
        if name not in rows[0]:
            raise Refused(f"{options.file} has no column '{name}': its columns are {', '.join(rows[0])}")
        for row in rows:
            with refusing(ValueError, f"{options.file}: '{row[name]}' of the column '{name}' is no number"):
                if row[name] != NONE:
                    number_of(row[name])
    for name in WHOLE:
        for row in rows:
            with refusing(ValueError, f"{options.file}: '{row.get(name)}' of the column '{name}' is no whole number"):
                int(row.get(name, 0))
    along = [options.along] if options.along != LOAD else []
    for key in [*(options.frames or []), options.colour, options.dash, *along]:
        if key is not None and (key not in SETTINGS or key not in rows[0]):
            raise Refused(f"'{key}' is no setting of {options.file}")


def main(options: Namespace) -> None:
    check_top(options.top)
    rows = named_rows(read_lines(options.file, "file of results"), [], "file of results", options.file)
    if not rows:
        raise Refused(f"{options.file} has no results")
    check(rows, options)
    view = View(options.frames, options.colour, options.dash, options.along)
    view.check()
    taken = chosen(rows, options.where)
    check_known(taken, (options.x, options.y), options.file)
    drawn = list(pictures_of(taken, view, options.x, options.y, options.top))
    if len(drawn) != 1:
        told = f"{len(drawn)} pictures are needed for all curves: --where takes some lines alone"
        raise Refused(told if drawn else "there is no point to draw")
    print(drawn[0][1], end="")
