"""Writes the rules of a router as assertions in SystemVerilog.

They are a checker for a design in RTL. The file has the module noc_router_checker, which is bound to each router of
the design: its inputs are the state of the router and what it decides. Each assertion has a name, which is the
beginning of its message, and says which law of noc it stands for: grants, moves, buffers, credits, owners and the
pointers of arbiters. They are immediate assertions in a clocked block, so simulators that have no concurrent ones run
them too. docs/RTL.md has a table of them.

With --bind a second file has the line that binds the checker to a router, as a template: each input stands in it with
its width and what it is, and with a word FILL_.. in the place of which a signal of the design goes.

For example:

    noc-tools assertions config.toml --out checker.sv
"""
import re
import sys
from argparse import ArgumentParser, Namespace
from collections.abc import Iterator
from pathlib import Path

from ..arguments import add, add_config
from ..files import check_output, put
from ..network import LOCAL, Network, read_bounded_network

TEMPLATE = Path(__file__).resolve().parent.parent / "assertions.sv"


def add_arguments(parser: ArgumentParser) -> None:
    add_config(parser)
    add(parser, "--out FILE", "the file to write; standard output where not given")
    add(parser, "--bind FILE", "a template of the line that binds it, as a further file")


def links(network: Network) -> int:
    """The ports with a link and the local ones, as bits, the ports of router 0 the lowest."""
    ports = [(router, port) for router in range(network.nodes) for port in network.ports]
    is_there = [port == LOCAL or network.neighbour(router, port) is not None for router, port in ports]
    return sum(bit << place for place, bit in enumerate(is_there))


def checker(network: Network) -> str:
    """The checker of a network's routers."""
    text = TEMPLATE.read_text()
    values = {
        "SHAPE": f"a {network.kind} of {' by '.join(map(str, network.radix))}", "CHANNELS": network.channels,
        "BUFFER": network.buffer, "PORTS": len(network.ports), "LINK_BITS": network.nodes * len(network.ports),
        "LINKS": format(links(network), "x"),
    }
    for name, value in values.items():
        text = text.replace(f"@{name}@", str(value))
    return text


INPUT = re.compile(r" *input logic +(\[.*?\])? *([\w, ]+?),? *(?://(.*))?")


def inputs_in(text: str) -> Iterator[tuple[str, str, str]]:
    """The inputs of a checker: name, width, and what it is; a comment on a line of its own has an empty name."""
    ports = text.partition("PORT = $clog2(PORTS)")[2].partition(");")[0]
    for line in ports.splitlines()[2:]:
        if line.strip().startswith("//"):
            yield "", "", line.strip()[2:].strip()
        elif found := INPUT.fullmatch(line):
            for name in found[2].split(","):
                yield name.strip(), found[1] or "", (found[3] or "").strip()


def template(text: str) -> str:
    """The line that binds a checker, with a place to fill in for each input."""
    lines = [
        "// Put a signal of your router in the place of each FILL_.., and the names of its module and parameters.",
        "// An input VC has the index port * CHANNELS + number, and so has an output VC. The last port is local.",
        "bind FILL_module noc_router_checker #(", "    .ROUTER(FILL_router),    // the number of the router",
        "    .COUNT(FILL_count)       // the bits of a count of flits or credits", ") rules (",
    ]
    given = list(inputs_in(text))
    last = max(place for place, (name, _, _) in enumerate(given) if name)
    for place, (name, width, told) in enumerate(given):
        port = f"    .{name}(FILL_{name}){'' if place == last else ','}".ljust(52) if name else "    "
        comment = " ".join(filter(None, [width, told]))
        lines.append((port + (f"// {comment}" if comment else "")).rstrip())
    return "\n".join([*lines, ");", ""])


def main(options: Namespace) -> None:
    text = checker(read_bounded_network(options.config))
    if options.out is None:
        sys.stdout.write(text)
    else:
        check_output(options.out, text[:text.index(" a ")], [options.config])
        put(options.out, text)
    if options.bind is not None:
        # (one that was filled in stays)
        check_output(options.bind, template(text), [options.config, options.out])
        put(options.bind, template(text))
