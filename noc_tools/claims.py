"""What a certificate of deadlock freedom says, and what the page says that stands in its place where there is a jam.

The statements are those of docs/MODEL.md and docs/PROVED.md.
"""
from collections.abc import Iterator, Sequence

from .dependencies import Graph, circle_picture
from .jam import Jam, size_of
from .network import Network
from .page import Block, heading, linked, listed, paragraph, pictured, tabled, verbatim
from .ranks import lowest
from .relation import Channels
from .traffic import COLUMNS, LATEST_DUE, LONGEST, MOST_PACKETS
from .words import counted

CERTIFIED, STUCK = "Certificate of deadlock freedom", "No certificate, but a jam"
GRAPH, REPLAY, TRAFFIC = "graph.svg", "replay.html", "traffic.csv"
# So many packets of a jam are shown.
SHOWN = 40

PROVED = [
    paragraph(
        "Whatever the traffic, this network is never stuck: in every cycle in which a packet that is due waits, "
        "something happens. A flit is injected, lands or moves, a credit arrives, or a packet is routed or granted a "
        "virtual channel."
    ),
    paragraph(
        "So all packets come out, and there is a bound. Over d hops a flit takes 3·d + 2 of these events and a packet "
        "2·(d + 1) more, and each event leaves one less to come. All packets are out as many cycles after the last due "
        "one as the traffic takes events."
    ),
    paragraph(
        f"The traffic is any that noc takes: up to {MOST_PACKETS} packets of 1 to {LONGEST} flits, of all classes, "
        f"from any node to any other one, due in any cycles up to {LATEST_DUE}. The length of a run (`cycles`) does "
        "not matter."
    ),
]
CONTRACTS = [
    "`read_config`, `read_table` and `read_ranks` of `noc_files`: each text is read as what it says, or refused.",
    "`Relation::build` of `noc_route`: the routing relation is that of its rule, or its table, on the entries that "
    "packets reach.",
    "`check` of `noc_rank`: ranks are accepted exactly where the relation is ranked by them. It said `accepted`.",
    "`a_ranked_network_is_never_stuck`, `each_event_is_one_less_to_come` and `all_packets_arrive_within_the_budget` of "
    "`noc_theory`: what follows from this for every traffic.",
    "`accepted_ranks_leave_no_pending_cycle_without_an_event` of `noc_theory_headline`: that it is never stuck, in one "
    "statement.",
]
PREMISES = [
    "The network is that of `docs/MODEL.md`: wormhole flow control with credits, round-robin arbiters, and a virtual "
    "channel of a link that goes to the next packet only when all its credits are back.",
    "Every node takes each flit that comes to it: a packet at its destination needs no credit to leave. A node that "
    "holds packets up until it has sent others, such as replies to requests, is another network.",
    "When a packet is due is given by the traffic, and does not depend on what came out.",
    "Routers and links do not fail, and nothing is lost.",
]
NOT_SAID = [
    "How long a single packet waits while others move, and whether all nodes get an equal share.",
    "Anything about another shape, rule or table, or another number of channels or classes: that is another "
    "certificate.",
    "That a chip behaves as the model does. This has to be shown of the chip.",
    "That this page and its picture are right. They are made by noc-tools, which is tested and not proved. So is the "
    "search for ranks, but where ranks come from does not matter to the answer `accepted`.",
]


def title_of(kind: str, network: Network) -> str:
    """The title of a page."""
    return f"{kind}: {network.shape}, {network.rule}"


def shape_rows(network: Network, table: str | None) -> list[list[str]]:
    """The rows of the table that says which network it is."""
    routes = f"the rows of `{table}`" if table else f"the rule `{network.rule}`"
    return [
        ["shape", f"{network.shape}, {counted(network.nodes, 'router')}"],
        ["routes", routes],
        ["virtual channels of each link", str(network.channels)],
        ["buffer of each channel", counted(network.buffer, "flit")],
        ["message classes", str(network.classes)],
    ]


def condition(graph: Graph) -> str:
    """By which condition the network is ranked, in words."""
    all_of, ranked = len(graph.channels.links()), len(graph.ranks)
    if ranked == all_of:
        return (
            f"Each of the {all_of} link channels has a rank, and every step from one to the next that the relation "
            "permits leads to a greater rank. So the channel dependency graph has no cycle (Dally and Seitz)."
        )
    return (
        f"Of the {all_of} link channels {ranked} have a rank and are escape channels; the others are adaptive. A "
        "packet that is not at its destination may always go on by an escape channel. Ranks rise from one escape "
        "channel to the next that packets come to, directly or through adaptive channels (Duato)."
    )


def network_blocks(network: Network, table: str | None) -> list[Block]:
    """Which network the page is about."""
    return [heading("Of which network"), tabled(["", ""], shape_rows(network, table))]


def certificate(graph: Graph, table: str | None) -> list[Block]:
    """What a certificate says, but for digests."""
    picture = pictured("The channel dependency graph in the order of the ranks", GRAPH, graph.picture())
    return [
        heading("What is proved"), *PROVED, *network_blocks(graph.channels.network, table),
        heading("Why it is so"), paragraph(condition(graph)), picture,
        heading("By which contracts"), listed(CONTRACTS),
        heading("Under which premises"), listed(PREMISES),
        heading("What is not said"), listed(NOT_SAID),
    ]


def packet_rows(jam: Jam) -> Iterator[list[str]]:
    """The first packets of a jam, by their numbers."""
    for number, row in enumerate(jam.rows[:SHOWN]):
        yield list(map(str, (number, *row)))


def counterexample(channels: Channels, jam: Jam, waiting: Sequence[str], table: str | None) -> list[Block]:
    """What the page says of a network that gets stuck, but for digests."""
    lines = [dependency.line(channels) for dependency in jam.circle]
    picture = pictured("The circle of dependencies", GRAPH, circle_picture(channels, jam.circle))
    network = channels.network
    escape = " Nor were ranks found with the lowest channels of each class as escape channels."
    more = [paragraph(f"All {len(jam.rows)} packets are in `{TRAFFIC}`.")] if SHOWN < len(jam.rows) else []
    return [
        heading("What was found"),
        paragraph(
            f"The channel dependency graph has a circle of {len(jam.circle)} dependencies, so no ranks rise along all "
            f"of them.{escape if lowest(network) else ''}"
        ),
        paragraph(
            f"The network does get stuck: `noc run` of the {counted(len(jam.rows), 'packet')} in `{TRAFFIC}` ends with "
            f"status 5 within its {counted(network.cycles, 'cycle')}. Packets that are due wait, and nothing "
            "happens any more."
        ),
        *network_blocks(network, table),
        heading("The circle, hop by hop"),
        paragraph("A packet of this class and destination that holds the one channel may ask for the other:"),
        verbatim(lines), picture,
        heading("The smallest traffic that was found"),
        paragraph(
            f"It has {size_of(jam.rows)}. Without any one of its packets, or with any packet a flit shorter, the run "
            "no longer gets stuck. Another traffic may be smaller still."
        ),
        tabled(["packet", *COLUMNS], list(packet_rows(jam))), *more,
        heading("Who waits for whom at the end"), verbatim(waiting), linked("The page that plays this run", REPLAY),
        heading("What is proved of this"),
        listed([
            "Status 5 is proved of the run: the network is stuck, and stays so until another packet is due "
            "(`answer` of `noc_answers`, `Network::stuck` of `noc_net`, `a_stuck_network_stays_stuck` of "
            "`noc_theory`).",
            "The circle, and that nothing can be left out, was worked out by noc-tools, which is tested, not proved.",
        ]),
    ]


def trusted(version: dict[str, str]) -> list[Block]:
    """What is trusted."""
    return [heading("What is trusted"), listed([
        f"The Rattle kit that built the program (`{version['built']}`, for sources proved with `{version['kit']}`): "
        "its prover and compilers, what it states of C functions, and the contracts of its crates (`docs/PROVED.md`).",
        "The C library, and the operating system for what files hold.",
        "That the program with the digest below was built from the proved sources. Who has the kit builds it again, "
        "which proves it.",
    ])]


def repeated(by_hand: Sequence[str]) -> list[Block]:
    """How to repeat it."""
    return [
        heading("How to repeat it"),
        paragraph("In the folder of this page; noc-tools makes all files again and compares them byte by byte:"),
        verbatim([*by_hand, "$ sha256sum --check --quiet SHA256SUMS", "$ noc-tools certify --verify ."]),
    ]


def digest_block(digests: Sequence[tuple[str, str]]) -> list[Block]:
    """The digests."""
    return [
        heading("Digests"), paragraph("SHA-256 of the program, and of the files beside this page:"),
        tabled(["", ""], [[f"`{name}`", f"`{digest}`"] for name, digest in digests]),
    ]
