"""Texts cut after each number of bytes, and how each call on them has to end: by a small reader of the formats of
docs/FORMATS.md, for texts without quotes, empty lines and carriage returns, or by ranges worked out by hand."""
import tomllib
from collections.abc import Sequence
from pathlib import Path
from typing import TYPE_CHECKING

from fault_lines import HEADERS, TOP

from noc_tools.network import Network, network_of
from noc_tools.relation import Channels, of_network

if TYPE_CHECKING:
    from run_process import Calls

EXAMPLES = TOP / "examples"
KEYS = ["kind", "radix", "channels", "buffer", "classes", "rule", "cycles"]
PORT_COLUMNS = {"traffic": (), "table": (2, 5), "ranks": (1,)}
GREATEST_NUMBER = 4294967295
REPORT_HEADER = HEADERS["latency"]
# The fewest and the most bytes that are left of examples/two_routers.noc, and the answer. The dividing line ends with
# byte 90, the header with byte 125 and its line feed; with 134 bytes the row has all its commas, and with 135 a
# number behind the last one.
TWO_ROUTERS = [
    (0, 89, "fault joined 13 NoSplit\n"), (90, 124, "fault traffic 9 BadHeader\n"), (125, 126, REPORT_HEADER),
    (127, 133, "fault traffic 10 BadCount row 0\n"), (134, 134, "fault traffic 11 BadNumber row 0 column 4\n"),
    (135, 136, REPORT_HEADER + "0,0,1,0,1,0,5,5\n"),
]
# The first step that does not rise under the example's ranks: the packet to node 1 comes from router 3 and crosses
# router 0; the packet to node 2 comes from router 1 and turns at router 3.
RING_FALLS = "fault rank 2 NotRising class 0 router 0 port -0 vc 0 dst 1 out +0 vc 0 ranks 4 1\n"
TURNS_FALL = "fault rank 2 NotRising class 0 router 3 port -1 vc 0 dst 2 out -0 vc 0 ranks 4 1\n"


def config_fault(text: str) -> str | None:
    """The fault of a configuration whose keys are all known and in order, None where it has all of them."""
    try:
        document = tomllib.loads(text)
    except tomllib.TOMLDecodeError:
        return "fault config 4 BadToml\n"
    return next((f"fault config 6 MissingKey key {key}\n" for key in KEYS if key not in document), None)


def read_rows(kind: str, text: str, ports: Sequence[str] = ()) -> tuple[str | None, list[list[str]]]:
    """The fault of a CSV text, or None, and its rows."""
    header, *lines = text.splitlines() or [""]
    if header + "\n" != HEADERS[kind]:
        return f"fault {kind} 9 BadHeader\n", []
    rows = [line.split(",") for line in lines]
    for number, row in enumerate(rows):
        if len(row) != header.count(",") + 1:
            return f"fault {kind} 10 BadCount row {number}\n", []
        for column, field in enumerate(row):
            at = f"row {number} column {column}\n"
            if column in PORT_COLUMNS[kind]:
                if field not in ports:
                    return f"fault {kind} 12 BadPort {at}", []
            elif not (field.isdecimal() and len(field) <= 10 and int(field) <= GREATEST_NUMBER):
                return f"fault {kind} 11 BadNumber {at}", []
    return None, rows


def traffic_answer(text: str) -> str:
    """The report of a run of one cycle, in which no packet comes out, and something happens if a packet is due."""
    fault, rows = read_rows("traffic", text)
    return fault or REPORT_HEADER + "".join(f"{number},{','.join(row)},-,-\n" for number, row in enumerate(rows))


def ranks_answer(text: str, network: Network, whole: str) -> str:
    """The first link channel without a row, or the answer for the whole text."""
    fault, rows = read_rows("ranks", text, network.ports)
    if fault:
        return fault
    named, channels = {(int(router), port) for router, port, *_ in rows}, Channels(network)
    missing = [link for link in map(channels.parts, channels.links()) if link[:2] not in named]
    return f"fault rank 7 MissingChannel router {missing[0][0]} port {missing[0][1]} vc 0\n" if missing else whole


def table_answer(text: str, network: Network, path: Path) -> str:
    """The first entry without a way, by router, port and destination, or that the table has no ranks by formula."""
    fault, rows = read_rows("table", text, network.ports)
    if fault:
        return fault
    channels, ports = Channels(network), network.ports
    relation = of_network(channels, path)
    entries = ((*channels.entered(at)[:2], goal) for goal in range(network.nodes) for at in relation.steps(0, goal))
    reached = {(router, ports.index(port), goal) for router, port, goal in entries}
    for router, port, goal in sorted(reached - {(int(row[1]), ports.index(row[2]), int(row[4])) for row in rows}):
        return f"fault relation 6 NoWay class 0 router {router} port {ports[port]} vc 0 dst {goal}\n"
    return "fault rank 1 NoGenerated\n"


def cuts(text: str) -> list[str]:
    return [text[:length] for length in range(len(text) + 1)]


def cut_joined(calls: "Calls") -> None:
    """The joined text of two routers, and the same bytes as two files."""
    whole = (EXAMPLES / "two_routers.noc").read_bytes()
    config, traffic = whole.split(b"---\n")
    calls.put(whole=config)
    for first, last, answer in TWO_ROUTERS:
        for length in range(first, last + 1):
            calls.answers(f"two routers cut after {length} bytes", [], answer.encode(), given=whole[:length])
            if length >= len(whole) - len(traffic):
                calls.put(cut=whole[len(config) + 4:length])
                calls.answers(f"two files cut after {length} bytes", ["run", "whole", "cut"], answer.encode())


def cut_configs(calls: "Calls") -> None:
    """Configurations beside a traffic file that is missing; a table file is missing too where the rule wants one."""
    for name in ("ring", "ring_dateline", "turns"):
        for text in cuts((EXAMPLES / f"{name}.toml").read_text()):
            calls.put(cut=text.encode())
            last = "fault option 4 NoTable\n" if name == "turns" else "fault traffic 1 ReadFailed\n"
            answer = config_fault(text) or last
            calls.answers(f"{name}.toml cut after {len(text)} bytes", ["run", "cut", "missing"], answer.encode())


def cut_traffic(calls: "Calls") -> None:
    for name in ("ring", "torus"):
        config = (EXAMPLES / f"{name}.toml").read_text()
        calls.put(whole=config.replace(f"cycles = {tomllib.loads(config)['cycles']}", "cycles = 1").encode())
        for text in cuts((EXAMPLES / f"{name}.csv").read_text()):
            calls.put(cut=text.encode())
            calls.answers(f"{name}.csv cut after {len(text)} bytes", ["run", "whole", "cut"],
                          traffic_answer(text).encode())


def cut_tables_and_ranks(calls: "Calls") -> None:
    turns, ring = ((EXAMPLES / f"{name}.toml").read_text() for name in ("turns", "ring"))
    calls.put(turns=turns.encode(), ring=ring.encode(), routes=(EXAMPLES / "turns_table.csv").read_bytes())
    for text in cuts((EXAMPLES / "turns_table.csv").read_text()):
        calls.put(cut=text.encode())
        answer = table_answer(text, network_of(tomllib.loads(turns)), calls.folder / "cut").encode()
        calls.answers(f"turns_table.csv cut after {len(text)} bytes", ["ranks", "turns", "--table", "cut"], answer)
    for name, config, more, whole in (("ring", ring, (), RING_FALLS),
                                      ("turns", turns, ("--table", "routes"), TURNS_FALL)):
        for text in cuts((EXAMPLES / f"{name}_ranks.csv").read_text()):
            calls.put(cut=text.encode())
            answer = ranks_answer(text, network_of(tomllib.loads(config)), whole).encode()
            calls.answers(f"{name}_ranks.csv cut after {len(text)} bytes", ["check", name, "--ranks", "cut", *more],
                          answer)


def cut_texts(calls: "Calls") -> None:
    """All texts cut after each number of bytes."""
    for group in (cut_joined, cut_configs, cut_traffic, cut_tables_and_ranks):
        group(calls)
