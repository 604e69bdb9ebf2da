"""Runs and studies as frames of pandas, which is wanted here alone."""
from collections.abc import Callable
from io import BytesIO
from typing import TYPE_CHECKING, Any

from .errors import Refused
from .findings import VERDICTS, Selection
from .program import output

try:
    import pandas
except ImportError:
    raise Refused("a frame needs pandas, which the extra 'plots' of noc_tools brings") from None

if TYPE_CHECKING:
    from .runs import Run
    from .study import Study

# Whole numbers of which some are missing, and a few words that come again and again.
WHOLE, WORDS = "Int32", "category"
TRACE_TYPES = {
    "cycle": "uint32", "router": "uint16", "port": WORDS, "vc": "uint8",
    "verdict": pandas.CategoricalDtype(VERDICTS), "packet": WHOLE, "out": WORDS, "permitted": WORDS,
}


def read(
    report: bytes, types: dict[str, Any], index: str | list[str] | None = None
) -> pandas.DataFrame:
    """A report of noc, with a missing value for a dash. ('-0' is a port, and no number.)"""
    given = {"na_values": "-", "keep_default_na": False, "dtype": types, "index_col": index}
    return pandas.read_csv(BytesIO(report), **given)


def packets(run: "Run") -> pandas.DataFrame:
    """A row for each packet: its source, destination, class, length, due cycle and the cycle in
    which it was out; its latency; and the hops between its nodes."""
    whole = ["source", "destination", "class", "length", "due", "out", "latency"]
    frame = read(output("run", *run.files), dict.fromkeys(whole, WHOLE), "packet")
    hops = run.network.hop_table
    pairs = zip(frame.source, frame.destination)
    return frame.assign(hops=[hops[one][other] for one, other in pairs])


def stalls(run: "Run") -> pandas.DataFrame:
    """A row for each input channel by router, port and number: in how many cycles it said each
    verdict."""
    report = output("run", *run.files, "--report", "stalls")
    return read(report, {"port": WORDS}, ["router", "port", "vc"])


def trace(run: "Run", **chosen: Any) -> pandas.DataFrame:
    """A row for each line of a trace, of which some are chosen by the names of a selection."""
    return read(output("trace", *run.files, *Selection(**chosen).words()), TRACE_TYPES)


OF_RUN: dict[str, Callable[..., pandas.DataFrame]] = {
    "packets": packets, "stalls": stalls, "trace": trace,
}


def of_run(run: "Run", of: str, **chosen: Any) -> pandas.DataFrame:
    """A frame of a run."""
    if of not in OF_RUN:
        raise Refused(f"a frame is of {', '.join(OF_RUN)}, not of {of!r}")
    return OF_RUN[of](run, **chosen)


def of_study(study: "Study", of: str) -> pandas.DataFrame:
    """A frame of a study: its results, or its table."""
    rows = {"runs": study.rows, "table": study.table}
    if of not in rows:
        raise Refused(f"a frame is of {', '.join(rows)}, not of {of!r}")
    return pandas.DataFrame(rows[of]()).apply(with_numbers)


def with_numbers(column: pandas.Series) -> pandas.Series:
    """A column as numbers, where it has no words."""
    return column if column.map(type).eq(str).any() else pandas.to_numeric(column)
