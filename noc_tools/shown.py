"""How a notebook shows a run and a study: in a line of words, and as a table of HTML."""
from collections.abc import Sequence
from typing import TYPE_CHECKING

from .page import paragraph, tabled
from .program import STUCK
from .statistics import Spread, spread
from .words import counted

if TYPE_CHECKING:
    from .runs import Run
    from .study import Study

NOTHING = "-"


def latency_of(run: "Run") -> Spread:
    """How the latency is spread over the packets of a run."""
    return spread(run.latencies, len(run.packets))


def number(figure: float | None) -> str:
    """A figure in a table."""
    if figure is None:
        return NOTHING
    return f"{figure:g}" if isinstance(figure, int) else f"{figure:.4g}"


def run_in_words(run: "Run") -> str:
    """A run in a line. noc is not called for that: a run that was not made yet is shown as such."""
    network = f"Run of a {run.network.shape}, {run.network.rule}"
    if not run.is_made:
        return f"{network}: {counted(len(run.rows), 'packet')}, not made yet"
    mean = f", mean latency {number(latency_of(run).mean)}" if run.latencies else ""
    end = ", stuck" if run.status == STUCK else ""
    return f"{network}: {counted(len(run.packets), 'packet')}, {len(run.latencies)} out{mean}{end}"


def run_as_table(run: "Run") -> str:
    """A run as a table of its figures."""
    if not run.is_made:
        return paragraph(run_in_words(run)).html
    latency, network = latency_of(run), run.network
    words = f"{network.channels} x {network.buffer} flits, {counted(network.cycles, 'cycle')}"
    header = ["network", "packets", "out", *(f"{name} latency" for name in latency._fields), "end"]
    row = [
        f"{network.shape}, {network.rule}, {words}", str(len(run.packets)), str(len(run.latencies)),
        *map(number, latency), "stuck" if run.status == STUCK else "done",
    ]
    return tabled(header, [row]).html


def study_in_words(study: "Study") -> str:
    """A study in a line."""
    there = len(study.cases) - len(study.open_cases())
    return f"Study of {counted(len(study.cases), 'run')}, {there} with results in {study.folder}"


def study_as_table(study: "Study") -> str:
    """The table of a study: what each combination of its settings bears, as far as there are
    results."""
    rows = study.table()
    if not rows:
        return paragraph(study_in_words(study)).html
    return tabled(list(rows[0]), [words_in(list(row.values())) for row in rows]).html


def words_in(values: Sequence[str | float | None]) -> list[str]:
    """The values of a row as words."""
    return [value if isinstance(value, str) else number(value) for value in values]
