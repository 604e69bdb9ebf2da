"""What routing rules permit, which ranks they have, and to where links lead, as traces and rank files tell it: worked
out by hand from the rules of docs/MODEL.md."""
from itertools import product
from typing import TYPE_CHECKING

from fault_lines import HEADERS

from noc_tools.network import Network

if TYPE_CHECKING:
    from run_process import Calls

TRAFFIC_HEADER, TABLE_HEADER, RANKS_HEADER = (HEADERS[kind] for kind in ("traffic", "table", "ranks"))
TRACE_HEADER = "cycle,router,port,vc,verdict,packet,out,permitted\n"
RING, SQUARE = ("torus", (4,)), ("mesh", (3, 3))
# A lone packet, the last cycle that is looked at, and where it is granted which of its permitted channels: the one with
# the least index. It is granted one in the second of each three cycles.
GRANTS = [
    (Network("mesh", (2,), 1, 2, 1, "dor", 8), "0,1,0,1,0", 7,
     "1,0,local,0,Granted,0,+0.0,+0.0\n4,1,-0,0,Granted,0,local.0,local.0\n"),
    (Network(*RING, 2, 2, 1, "dateline", 8), "3,1,0,1,0", 6,
     "1,3,local,0,Granted,0,+0.0,+0.0\n4,0,-0,0,Granted,0,+0.1,+0.1\n"),
    (Network(*SQUARE, 1, 2, 1, "west-first", 8), "4,8,0,1,0", 2, "1,4,local,0,Granted,0,+0.0,+0.0 +1.0\n"),
    (Network(*SQUARE, 1, 2, 1, "west-first", 8), "4,6,0,1,0", 2, "1,4,local,0,Granted,0,-0.0,-0.0\n"),
    (Network(*SQUARE, 2, 2, 1, "adaptive", 20), "0,8,0,1,0", 19,
     "1,0,local,0,Granted,0,+0.0,+0.0 +0.1 +1.1\n4,1,-0,0,Granted,0,+0.0,+0.0 +0.1 +1.1\n"
     "7,2,-0,0,Granted,0,+1.0,+1.0 +1.1\n10,5,-1,0,Granted,0,+1.0,+1.0 +1.1\n"
     "13,8,-1,0,Granted,0,local.0,local.0 local.1\n"),
    (Network(*RING, 3, 2, 1, "adaptive", 8), "3,1,0,1,0", 6,
     "1,3,local,0,Granted,0,+0.0,+0.0 +0.2\n4,0,-0,0,Granted,0,+0.1,+0.1 +0.2\n"),
    (Network(*RING, 3, 2, 1, "adaptive", 8), "0,2,0,1,0", 2, "1,0,local,0,Granted,0,+0.1,+0.1 +0.2\n"),
    (Network(*RING, 3, 2, 1, "adaptive", 8), "0,3,0,1,0", 2, "1,0,local,0,Granted,0,-0.0,-0.0 -0.2\n"),
    (Network("mesh", (16, 16), 4, 2, 4, "dor", 8), "0,255,3,1,0", 2, "1,0,local,0,Granted,0,+0.3,+0.3\n"),
]
# Two routers with two channels on each link. The first row comes again at the end, and no packet comes by channel 1 of
# a link, so that needs no rows.
TWO_NODES = Network("mesh", (2,), 2, 2, 1, "table", 8)
ROWS = ["0,0,local,0,1,+0,0", "0,0,local,1,1,+0,0", "0,1,local,0,0,-0,0", "0,1,local,1,0,-0,0", "0,1,-0,0,1,local,0",
        "0,0,+0,0,0,local,0", "0,0,local,0,1,+0,0"]
TABLES = [
    (ROWS, "rank 1 NoGenerated"),
    # Packets come by channel 1, from where no row leads on.
    ([ROWS[0], "0,0,local,1,1,+0,1", *ROWS[2:]], "relation 6 NoWay class 0 router 1 port -0 vc 1 dst 1"),
]
# Numbers, shapes and rules that do not go together.
NO_RELATIONS = [
    ("mesh", (3,), 4, 2, 3, "dor"), ("mesh", (3,), 1, 2, 1, "west-first"), ("mesh", (3,), 2, 2, 1, "dateline"),
    ("torus", (3,), 3, 2, 1, "dateline"), ("mesh", (3,), 1, 2, 1, "adaptive"), ("mesh", (3,), 2, 2, 2, "adaptive"),
    (*RING, 2, 2, 1, "adaptive"),
]
# A torus of two by three routers whose table leads by one port of the first dimension, and then by the other dimension.
# From router 5, in the corner, each port leads to another port or router, where a packet leaves.
CORNER = Network("torus", (2, 3), 1, 2, 1, "table", 8)
FROM_CORNER = [("+0", "-0", 4, "5,local,0,Moved,0,+0.0", "4,-0,0,Moved,0,local.0"),
               ("-0", "+0", 4, "5,local,0,Moved,0,-0.0", "4,+0,0,Moved,0,local.0"),
               ("+0", "-0", 1, "5,local,0,Moved,0,+1.0", "1,-1,0,Moved,0,local.0")]
# Moves from the first to the last router of a mesh of four by three: a head moves in each third cycle.
WIDE = Network("mesh", (4, 3), 1, 2, 1, "dor", 20)
ACROSS = ["0,local,0,Moved,0,+0.0", "1,-0,0,Moved,0,+0.0", "2,-0,0,Moved,0,+0.0", "3,-0,0,Moved,0,+1.0",
          "7,-1,0,Moved,0,+1.0", "11,-1,0,Moved,0,local.0"]
# The channels by which flits come to its router 3, which has a border on two sides.
AT_A_BORDER = ["3,-0,0", "3,+1,0", "3,local,0"]
# Ranks by formula of west first on nine routers: of a link to the west, of one to the north and of one to the east.
WEST_FIRST_RANKS = ["2,-0,0,1", "3,+1,0,5", "0,+0,0,7"]
# Ranks of a line of three routers, of which channel 1 of each link is adaptive, that rise behind each other, and others
# of which two do not.
RISING = ["0,+0,0,2", "0,+0,1,adaptive", "1,+0,0,3", "1,+0,1,adaptive", "1,-0,0,2", "1,-0,1,adaptive", "2,-0,0,1",
          "2,-0,1,adaptive"]
LEVEL = ["0,+0,0,7", RISING[1], "1,+0,0,7", *RISING[3:]]
NOT_RISING = b"fault rank 2 NotRising router 0 port +0 vc 0 to router 1 port +0 vc 0 ranks 7 7\n"


def ask(calls: "Calls", network: Network, **texts: list[str]) -> None:
    """Puts a configuration, and other files below their headers."""
    headers = {"traffic": TRAFFIC_HEADER, "table": TABLE_HEADER, "ranks": RANKS_HEADER}
    bodies = {f"given_{kind}": (headers[kind] + "".join(f"{row}\n" for row in rows)).encode()
              for kind, rows in texts.items()}
    calls.put(given=network.text().encode(), **bodies)


def permitted_channels(calls: "Calls") -> None:
    for network, packet, last, lines in GRANTS:
        ask(calls, network, traffic=[packet])
        calls.answers(f"grants to {packet} in {network}",
                      ["trace", "given", "given_traffic", "--to", str(last), "--verdict", "Granted"],
                      (TRACE_HEADER + lines).encode())


def relations(calls: "Calls") -> None:
    """Tables, and what makes no relation."""
    for rows, fault in TABLES:
        ask(calls, TWO_NODES, table=rows)
        calls.answers(f"table {rows}", ["ranks", "given", "--table", "given_table"], f"fault {fault}\n".encode())
    for network in NO_RELATIONS:
        ask(calls, Network(*network, 8))
        calls.answers(f"no relation {network}", ["ranks", "given"], b"fault relation 1 WrongShape\n")


def led_round(across: str, back: str) -> list[str]:
    """The table of CORNER: packets go by this port of the first dimension, and come to the port of the other way."""
    rows: list[str] = []
    for router, dst in product(range(CORNER.nodes), repeat=2):
        is_over, onward = (router - dst) % 2 == 0, ("local", "+1", "-1")[(dst // 2 - router // 2) % 3]
        ports = [(back, onward)] if is_over else []
        ports += [("-1", onward), ("+1", onward)] if router == dst else [("local", onward if is_over else across)]
        rows += [f"0,{router},{port},0,{dst},{out},0" for port, out in ports]
    return rows


def moves(lines: list[str]) -> bytes:
    """A trace of a packet that moves in each third cycle."""
    return (TRACE_HEADER + "".join(f"{2 + 3 * hop},{line},-\n" for hop, line in enumerate(lines))).encode()


def links(calls: "Calls") -> None:
    """To where links lead, also round a torus, and how far it is."""
    words = ["trace", "given", "given_traffic", "--verdict", "Moved"]
    for across, back, dst, *lines in FROM_CORNER:
        ask(calls, CORNER, traffic=[f"5,{dst},0,1,0"], table=led_round(across, back))
        calls.answers(f"from the corner to {dst} by {across}", [*words, "--table", "given_table"], moves(lines))
    ask(calls, WIDE, traffic=["0,11,0,1,0"])
    calls.answers("across a mesh", words, moves(ACROSS))
    ran = calls.run(["run", "given", "given_traffic", "--report", "stalls"])
    found = [row[:len(row) - 10] for row in (line.split(",") for line in ran.stdout.decode().splitlines())]
    at_a_border = [",".join(row) for row in found if row[0] == "3"]
    calls.count("links at a border", at_a_border == AT_A_BORDER and len(found) == 1 + 12 + 2 * (9 + 8), ran)
    ask(calls, Network("torus", (2, 3), 2, 2, 1, "dateline", 20), traffic=["0,5,0,1,0"])
    calls.answers("round a torus", ["run", "given", "given_traffic"],
                  f"{HEADERS['latency']}0,0,5,0,1,0,8,8\n".encode())


def ranks(calls: "Calls") -> None:
    """Ranks by formula, those of the largest mesh, and ranks beside adaptive channels."""
    ask(calls, Network(*SQUARE, 1, 2, 1, "west-first", 8))
    ran = calls.run(["ranks", "given"])
    calls.count("ranks of west first", set(WEST_FIRST_RANKS) < set(ran.stdout.decode().splitlines()), ran)
    ask(calls, Network("mesh", (16, 16), 4, 2, 4, "dor", 8))
    calls.put(made=calls.run(["ranks", "given"]).stdout)
    calls.answers("ranks of the largest mesh", ["check", "given", "--ranks", "made"], b"accepted\n")
    ask(calls, Network("mesh", (3,), 2, 2, 1, "dor", 8), ranks=LEVEL)
    ran = calls.run(["check", "given", "--ranks", "given_ranks"])
    calls.count("ranks that do not rise", (ran.returncode, ran.stdout, ran.stderr) == (4, b"", NOT_RISING), ran)
    ask(calls, Network("mesh", (3,), 2, 2, 1, "dor", 8), ranks=RISING)
    calls.answers("ranks beside adaptive channels", ["check", "given", "--ranks", "given_ranks"], b"accepted\n")


def worked_routes(calls: "Calls") -> None:
    for group in (permitted_channels, relations, links, ranks):
        group(calls)
