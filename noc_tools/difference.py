"""The first difference between a design and the model, in words."""
from collections.abc import Iterator, Sequence
from contextlib import suppress

from .comparison import Difference
from .findings import (
    EMPTY, GRANTED, LOST_CHANNEL, MOVED, NO_IDLE_CHANNEL, REASONS, ROUTED, WINNING, Finding, winner_of,
)
from .network import LOCAL
from .signals import OF_VERDICTS, OUT, VERDICT
from .vcd import number_in
from .words import counted

# What a design does where its signal of a verdict is 1; what else has such a signal is a stall.
ACTS = {EMPTY: "holds nothing", ROUTED: "routes a head", GRANTED: "grants an output channel", MOVED: "moves a flit"}
# So many of the further channels are named.
NAMED = 3


def winner(finding: Finding, around: Sequence[Finding]) -> str:
    """The channel that won what this one lost, in brackets."""
    if finding.verdict in WINNING:
        with suppress(StopIteration):
            return f" ({winner_of(finding, around).channel})"
    return ""


def reason(finding: Finding, around: Sequence[Finding]) -> str:
    """Why a channel of the model has its verdict, as the first line that holds of the table in docs/MODEL.md."""
    out, verdict, packet = finding.out, finding.verdict, f"packet {finding.packet}"
    if verdict == EMPTY:
        return "no head is routed there, and its buffer is empty"
    if verdict == ROUTED:
        return f"the head of {packet} is first in its buffer"
    if verdict == GRANTED:
        return f"{packet} asks there for {out}, which is idle, and comes first in turn"
    if verdict == MOVED:
        return f"{packet} has {out} there, a flit{'' if out.startswith(LOCAL) else ', a credit'}, and wins the switch"
    before = "waits" if verdict == NO_IDLE_CHANNEL else f"{'asks for' if verdict == LOST_CHANNEL else 'has'} {out}"
    return f"{packet} {before} there, but {REASONS[verdict]}{winner(finding, around)}"


def sides(found: Difference, verdicts: Sequence[str]) -> str:
    """What the model does there, and what the design does."""
    verdict, number = found.finding.verdict, number_in(found.value)
    if found.kind in OF_VERDICTS and number is not None:
        wanted = OF_VERDICTS[found.kind]
        act = ACTS.get(wanted, f"stalls by {wanted}")
        if number == 0:
            name = f" ({verdict})" if wanted in ACTS else ""
            return f"the model {act}{name}, and the design does not"
        return f"the design {act}, and the model does not ({verdict})"
    said = found.value if number is None else str(number)
    if found.kind == VERDICT and number is not None and number < len(verdicts):
        return f"the model says {verdict}, and the design {verdicts[number] or said}"
    expected = f"{found.expected}, which is {found.finding.out}" if found.kind == OUT else str(found.expected)
    return f"the model has {found.kind} {expected} ({verdict}), and the design {said}"


def lines_of(found: Difference, verdicts: Sequence[str]) -> Iterator[str]:
    """The difference in words; `verdicts` are those of the design's codes."""
    finding = found.finding
    yield f"cycle {finding.cycle}, router {finding.router}, {finding.channel}: {sides(found, verdicts)}."
    yield f"In the model {reason(finding, found.around)}."
    yield f"In the design {found.signal.name} is {found.value} before the edge at {found.time}."
    if found.others:
        names = [f"router {router}, {channel}" for router, channel in found.others[:NAMED]]
        more = ["and more"] * (NAMED < len(found.others))
        verb = "differs" if len(found.others) == 1 else "differ"
        yield f"{counted(len(found.others), 'further channel')} {verb} in this cycle: {'; '.join(names + more)}."
