"""Configurations, joined texts, traffic, tables and rank files of every written form, and the first fault of those that
are refused. What each call on them says is worked out by hand from the rules of docs/FORMATS.md."""
from typing import TYPE_CHECKING, Any

from fault_lines import HEADERS

from noc_tools.network import Network

if TYPE_CHECKING:
    from run_process import Calls

MARK = b"\xef\xbb\xbf"
TRAFFIC_HEADER, TABLE_HEADER, RANKS_HEADER, REPORT_HEADER = (
    HEADERS[kind].encode() for kind in ("traffic", "table", "ranks", "latency"))
# The first lines of a configuration, of which it ends behind so many, and its last line.
LINES = [b'kind = "mesh"\n', b"radix = [2]\n", b"channels = 1\n", b"buffer = 1\n", b"classes = 1\n", b'rule = "dor"\n']
BAD_CONFIGS = [
    (0, b"", "6 MissingKey key kind"), (0, MARK, "6 MissingKey key kind"), (0, b"kind = 1\nkinds = 2", "5 UnknownKey"),
    (0, b'Kind = "mesh"', "5 UnknownKey"), (0, b"cycles = 0", "6 MissingKey key kind"),
    (1, b"cycles = 0", "6 MissingKey key radix"), (2, b"buffer = 0", "6 MissingKey key channels"),
    (5, b'rule = "dor"', "6 MissingKey key cycles"), (0, b"kind = 1", "7 WrongType key kind"),
    (0, b"kind.x = 1", "7 WrongType key kind"), (0, b"[kind]", "7 WrongType key kind"),
    (1, b"radix = 2", "7 WrongType key radix"), (1, b"radix = [2000, 1.5]", "7 WrongType key radix"),
    (1, b"radix = [[2]]", "7 WrongType key radix"), (2, b"channels = 1.0", "7 WrongType key channels"),
    (2, b'channels = "1"', "7 WrongType key channels"), (0, b'kind = "Mesh"', "8 BadValue key kind"),
    (0, b'kind = ""', "8 BadValue key kind"), (1, b"radix = [2000, -1]", "8 BadValue key radix"),
    (1, b"radix = [2, 1001]", "8 BadValue key radix"), (2, b"channels = 9", "8 BadValue key channels"),
    (2, b"channels = 0", "8 BadValue key channels"), (2, b"channels = -1", "8 BadValue key channels"),
    (3, b"buffer = 17", "8 BadValue key buffer"), (4, b"classes = 5", "8 BadValue key classes"),
    (5, b'rule = "odd-even"', "8 BadValue key rule"), (6, b"cycles = 2000001", "8 BadValue key cycles"),
    # What is no TOML document.
    (0, b"kind = 1\nkind = 2", "4 BadToml"), (0, b"other = 1\nother = 2", "4 BadToml"), (0, b"# \xff\n", "4 BadToml"),
    (0, b"kind", "4 BadToml"), (0, b'kind = "mesh"\n---\n', "4 BadToml"), (0, b"cycles = 08", "4 BadToml"),
    (0, b"cycles = 99999999999999999999", "4 BadToml"),
]
# Configurations of every written form with their cycles, and the next fault behind that of a cycle.
GOOD_CONFIGS = [
    (b'kind = "torus"\nradix = [2, 0, 1000]\nchannels = 4\nbuffer = 16\nclasses = 3\nrule = "west-first"\n'
     b"cycles = 2000000\n", 2_000_000, "shape 2 BadRadix"),
    (b'cycles = 16\nrule = "dor"\nclasses = 1\nbuffer = 2\nchannels = 1\nradix = [2]\nkind = "mesh"\n', 16,
     "traffic 1 ReadFailed"),
    (MARK + b'kind = "mesh"\r\nradix = []\r\nchannels = 1\r\nbuffer = 2\r\nclasses = 1\r\nrule = "table"\r\n'
     b"cycles = 0x10\r\n", 16, "shape 1 BadDimensions"),
    (b"# a comment\n\"kind\" = 'mesh'\nradix = [\n  2,\n  3,\n]\nchannels = +1\nbuffer = 2\nclasses = 1\n\n"
     b'rule = "dateline"\ncycles = 1_6', 16, "relation 1 WrongShape"),
]
LINE = Network("mesh", (2,), 1, 2, 1, "dor", 8)
PLANE = Network("mesh", (2, 2), 3, 2, 1, "dor", 8)
# A mesh of 256 nodes and three classes, in one cycle of which no packet comes out.
LARGEST = Network("mesh", (16, 16), 3, 2, 3, "dor", 1)
TORUS = Network("torus", (3, 3), 1, 2, 1, "table", 8)
CONFIG = LINE.text().encode()
# Joined texts. The first line of three dashes divides, also where that is within a string.
JOINED = [
    *((text, "joined 13 NoSplit")
      for text in (b"", b"a\n---", b"a---\nb", b" ---\nb", b"--- \nb", b"---\rb", b"a\r---\r\nb")),
    (CONFIG + b"---\n" + TRAFFIC_HEADER + b"---\n", "traffic 10 BadCount row 0"),
    (b"---\r\n" + TRAFFIC_HEADER, "config 6 MissingKey key kind"),
    (b'kind = """\n----\n"""\n---\n', "config 8 BadValue key kind"), (b'kind = """\n---\n"""\n', "config 4 BadToml"),
    (CONFIG + b"---\r\n" + TRAFFIC_HEADER, ""), (CONFIG + b"----\n---\n" + TRAFFIC_HEADER, "config 4 BadToml"),
]
PACKET, ONE_OUT = b"0,1,0,1,0", b"0,0,1,0,1,0,5,5\n"
# Traffic on a line of two nodes: its fault, or the lines of its report.
HEADERS_OF_NONE = [
    TRAFFIC_HEADER, TRAFFIC_HEADER[:-1], MARK + TRAFFIC_HEADER[:-1] + b"\r\n", b"\n\r\n" + TRAFFIC_HEADER + b"\n",
    b'"source",destination,class,length,"due"\n',
]
WRONG_HEADERS = [
    b"", b"\n\n", MARK, b"Source,destination,class,length,due\n", b"source,destination,class,length\n",
    b"source,destination,class,length,due,\n", b"source, destination,class,length,due\n",
    b"destination,source,class,length,due\n", PACKET + b"\n",
]
ROWS_OF_ONE = [
    PACKET + b"\n", PACKET, b"\n\n" + PACKET + b"\n\n", b'0,"1",0,"1",0\n', b'0,1,0,1,"0', b"0000000000,01,00,1,0000\n",
]
BAD_ROWS = [
    (PACKET + b"\n0,1,0\n", "10 BadCount row 1"), (b"0,1,0,1\n", "10 BadCount row 0"),
    (PACKET + b",\n", "10 BadCount row 0"), (b"x\n" + PACKET + b"\n", "10 BadCount row 0"),
    (PACKET + b"\n0,1,x,1,y\n", "11 BadNumber row 1 column 2"), (b"0,1,0,1,+1\n", "11 BadNumber row 0 column 4"),
    (b"-1,1,0,1,1\n", "11 BadNumber row 0 column 0"), (b"0,1,0,1, 1\n", "11 BadNumber row 0 column 4"),
    (b"0,4294967296,0,1,\n", "11 BadNumber row 0 column 1"), (b"0,9999999999,0,1,\n", "11 BadNumber row 0 column 1"),
    (b"0,1,0,1,18446744073709551616\n", "11 BadNumber row 0 column 4"), (b"0,1,,1,0\n", "11 BadNumber row 0 column 2"),
    (b"00000000000,1,0,1,0\n", "11 BadNumber row 0 column 0"), (b'0,"1\n",0,1,0\n', "11 BadNumber row 0 column 1"),
    (b"\n" + PACKET + b"\n\n0,1,0,1_0,0\n", "11 BadNumber row 1 column 3"),
]
# Node 10, which is quoted in part, and the greatest number: neither is on the line.
NO_NODES = [b'0,"1"0,0,1,0\n', b"0000000000,4294967295,0,1,0\n"]
# Rows of a table, and what is said of it.
BAD_TABLES = [
    (b"", "table 9 BadHeader"), (TABLE_HEADER.replace(b",out_vc", b""), "table 9 BadHeader"),
    (TRAFFIC_HEADER, "table 9 BadHeader"), (TABLE_HEADER + b"0,0,local,0,1,+0\n", "table 10 BadCount row 0"),
    (TABLE_HEADER + b"0,0,local,0,1,+1,0\n0,0,+2,x,1,+0,0\n", "table 12 BadPort row 1 column 2"),
    (TABLE_HEADER + b"0,x,+2,0,1,+0,0\n", "table 11 BadNumber row 0 column 1"),
    (TABLE_HEADER + b"0,0,+1,0,1,Local,0\n", "table 12 BadPort row 0 column 5"),
    (TABLE_HEADER + b"0,0,+1 ,0,1,local,0\n", "table 12 BadPort row 0 column 2"),
    (TABLE_HEADER + b"0,0,,0,1,local,0\n", "table 12 BadPort row 0 column 2"),
    (TABLE_HEADER + b"0,0,4,0,1,local,0\n", "table 12 BadPort row 0 column 2"),
    (TABLE_HEADER + b"0,0,-1,0,1,local,4294967296\n", "table 11 BadNumber row 0 column 6"),
    (TABLE_HEADER + b"0,0,-1,0,18446744073709551617,local,0\n", "table 11 BadNumber row 0 column 4"),
    # Whole rows that are no routes, so that the fault says them again.
    (TABLE_HEADER[:-1] + b'\r\n\r\n0,0,"-1",0,1,local,0',
     "relation 4 EarlyEject class 0 router 0 port -1 vc 0 dst 1 out local vc 0"),
    (MARK + b'"class"' + TABLE_HEADER[5:] + b"0,0,-1,0000000000,1,local,0\n",
     "relation 4 EarlyEject class 0 router 0 port -1 vc 0 dst 1 out local vc 0"),
    (TABLE_HEADER + b"4,5,+1,6,7,-0,4294967295\n",
     "relation 2 NoLink class 4 router 5 port +1 vc 6 dst 7 out -0 vc 4294967295"),
]
# Rank files of a line of two nodes, and what is said of them. The first link channel is that of router 0.
NO_RANK, ONE_RANK = "rank 7 MissingChannel router 0 port +0 vc 0", "rank 7 MissingChannel router 1 port -0 vc 0"
BAD_RANKS = [
    *((text, "ranks 9 BadHeader")
      for text in (b"", b"\r\n", b"0,+0,0,1\n", b"router,port,vc\n", RANKS_HEADER[:-1] + b",\n",
                   b"router,vc,port,rank\n")),
    (RANKS_HEADER + b"0,+0,0\n", "ranks 10 BadCount row 0"),
    (RANKS_HEADER + b"0,+0,0,1\n0,+0,0,1,\n", "ranks 10 BadCount row 1"),
    (RANKS_HEADER + b"x,+1,0,1\n", "ranks 11 BadNumber row 0 column 0"),
    (RANKS_HEADER + b"0,+1,x,1\n", "ranks 12 BadPort row 0 column 1"),
    (RANKS_HEADER + b"0,0,0,1\n", "ranks 12 BadPort row 0 column 1"),
    (RANKS_HEADER + b"0,+0,0,1\n0,+0,,1\n", "ranks 11 BadNumber row 1 column 2"),
    (RANKS_HEADER + b"0,+0,adaptive,1\n", "ranks 11 BadNumber row 0 column 2"),
    *((RANKS_HEADER + b"0,+0,0," + rank + b"\n", "ranks 11 BadNumber row 0 column 3")
      for rank in (b"+1", b"00000000001", b"4294967296", b"99999999999999999999", b"Adaptive")),
    (RANKS_HEADER[:-1], NO_RANK), (MARK + RANKS_HEADER[:-1] + b"\r\n\r\n0,+0,0,1\r\n", ONE_RANK),
    (b'\n"router",port,vc,"rank"\n\n"0","+0",0,1\n\n', ONE_RANK),
    (RANKS_HEADER[:-1] + b"\r0,+0,0,0000000001\r0,local,0,2", "rank 5 UnknownChannel row 1"),
    (RANKS_HEADER + b"0,+0,0,1000001\n", "rank 8 BadRank row 0"),
]


def refused(calls: "Calls", what: str, words: list[str], text: bytes, fault: str, **how: Any) -> None:
    """A call on a text, as the file `given`, ends with a fault."""
    calls.put(given=text)
    calls.answers(f"{what} {text[-60:]!r}", words, f"fault {fault}\n".encode(), **how)


def configurations(calls: "Calls") -> None:
    for count, last, fault in BAD_CONFIGS:
        refused(calls, "configuration", ["ranks", "given"], b"".join(LINES[:count]) + last, f"config {fault}")
    for text, cycles, fault in GOOD_CONFIGS:
        table = ["--table", "table"] if b"table" in text else []
        for cycle, said in ((cycles - 1, fault), (cycles, "option 1 BadCycle")):
            words = ["explain", "given", "missing", "--cycle", str(cycle), "--router", "0", *table]
            refused(calls, f"cycle {cycle} of", words, text, said)


def joined_texts(calls: "Calls") -> None:
    """Texts that are divided or not, and standard input that never ends."""
    for text, fault in JOINED:
        calls.answers(f"joined {text[-40:]!r}", [], f"fault {fault}\n".encode() if fault else REPORT_HEADER, given=text)
    with open("/dev/zero", "rb") as endless:
        calls.answers("an endless text", [], b"fault joined 2 TooLong\n", stdin=endless)


def traffic(calls: "Calls") -> None:
    """Packets that are read, and two whose fields are all others."""
    calls.put(line=CONFIG, largest=LARGEST.text().encode())
    words = ["run", "line", "given"]
    wanted = [(text, REPORT_HEADER) for text in HEADERS_OF_NONE]
    wanted += [(TRAFFIC_HEADER + rows, REPORT_HEADER + ONE_OUT) for rows in ROWS_OF_ONE]
    wanted += [((TRAFFIC_HEADER + PACKET + b"\n").replace(b"\n", end), REPORT_HEADER + ONE_OUT)
               for end in (b"\r\n", b"\r")]
    for text, report in wanted:
        calls.put(given=text)
        calls.answers(f"traffic {text!r}", words, report)
    for text in WRONG_HEADERS:
        refused(calls, "traffic", words, text, "traffic 9 BadHeader")
    for rows, fault in BAD_ROWS:
        refused(calls, "traffic", words, TRAFFIC_HEADER + rows, f"traffic {fault}")
    for rows in NO_NODES:
        refused(calls, "traffic", words, TRAFFIC_HEADER + rows, "network 2 BadNode row 0")
    calls.put(given=TRAFFIC_HEADER + b"0,1,2,3,4\n255,007,0,0000000064,1000000\n")
    calls.answers("two packets", ["run", "largest", "given"],
                  REPORT_HEADER + b"0,0,1,2,3,4,-,-\n1,255,7,0,64,1000000,-,-\n")


def tables(calls: "Calls") -> None:
    calls.put(torus=TORUS.text().encode())
    for text, fault in BAD_TABLES:
        refused(calls, "table", ["ranks", "torus", "--table", "given"], text, fault)


def rank_files(calls: "Calls") -> None:
    """Rank files of a line, and of a square whose last row has the greatest rank in other written forms."""
    calls.put(line=CONFIG, plane=PLANE.text().encode())
    for text, fault in BAD_RANKS:
        refused(calls, "ranks", ["check", "line", "--ranks", "given"], text, fault)
    links = (b"0,+0", b"0,+1", b"1,-0", b"1,+1", b"2,+0", b"2,-1", b"3,-0", b"3,-1")
    rows = [b"%s,%d,%d\n" % (link, vc, 1_000_000 if link[3:] == b"1" else 1) for link in links for vc in range(3)]
    last = b"00000003,-1,0000000002,0001000000\n"
    words = ["check", "plane", "--ranks", "given"]
    calls.put(given=RANKS_HEADER + b"".join(rows[:-1]) + last)
    calls.answers("ranks of a square", words, b"accepted\n")
    refused(calls, "ranks", words, RANKS_HEADER + b"".join(rows) + b"4294967295,local,007,0\n",
            "rank 5 UnknownChannel row 24")


def worked_inputs(calls: "Calls") -> None:
    """All of these texts."""
    for group in (configurations, joined_texts, traffic, tables, rank_files):
        group(calls)
