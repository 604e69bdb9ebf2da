"""Draws curves of 'noc-tools load' in one picture.

There is a curve for each NAME, with a mark for each load in the file behind it. The picture is SVG, and goes to
standard output. Along the vertical axis are the columns of such a file: the latency (mean, median, p95, p99, max),
the same of its parts (queue_mean, .., network_mean, ..) and of the hops (hops_mean, ..), the accepted load, and that
of the sources (sources_least, sources_mean, sources_most).

At a hollow mark not all packets that were measured were out at the end, so the mean is too low; a percentile that
falls among those has no mark. A mark of two strokes that cross is of a run that stood still, since its packets wait
for one another in a circle. The name of a network that has no ranks goes on with "(can deadlock)". Curves end where
they leave the picture, at the NUMBER on the vertical axis: by default four times the lowest latency, and all of the
other figures. The line below the title says how many cycles the runs had.

A bar is the 95 percent interval of confidence, a dashed upright line the bound of the pattern, and an arrow at a point
says that the next one is not known.

For example:

    noc-tools curves mesh=mesh.csv torus=torus.csv --y p99 > curves.svg
"""
from argparse import ArgumentParser, Namespace

from ..arguments import add, add_top, check_top
from ..curves import HEADER, STYLES, Frame, axes_of, picture, read_curve, subtitle_of
from ..errors import Refused
from ..units import FLITS

# The columns that are no heights of a point.
NO_HEIGHTS = "load", "ran", "steady", "packets", "flits", "out", "offered", "stuck", "deadlock_free"


def add_arguments(parser: ArgumentParser) -> None:
    add(parser, "curves NAME=CURVE.csv", "a name, and a file that 'noc-tools load' wrote", nargs="+")
    across = "what lies along the horizontal axis; by default load"
    parser.add_argument("--x", choices=("load", "offered", "accepted"), default="load", help=across)
    upwards = "what lies along the vertical axis, such as p95 or queue_mean; by default mean"
    figures = [name for name in HEADER if name not in NO_HEIGHTS]
    add(parser, "--y FIGURE", upwards, choices=figures, default="mean")
    add_top(parser)


def main(options: Namespace) -> None:
    check_top(options.top)
    if len(STYLES) < len(options.curves):
        raise Refused(f"a picture has at most {len(STYLES)} curves")
    given = [read_curve(word) for word in options.curves]
    curves = [one.curve(options.x, options.y, style) for one, style in zip(given, STYLES)]
    frames = [Frame("", curves)]
    axes = axes_of(frames, options.x, options.y, options.top, FLITS)
    print(picture(frames, axes, subtitle_of(given)), end="")
