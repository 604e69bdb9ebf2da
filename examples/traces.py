"""Converts two public formats of programs that wait for one another into traces for noc-tools.

    python3 examples/traces.py goal FILE
    python3 examples/traces.py stg FILE NODES BYTES

GOAL is the format of LogGOPSim: for each rank its operations calc, send and recv, and which
requires which. A rank is a node. STG is that of the Standard Task Graph set: a line for each task
has its number, its time, how many tasks come before it, and these. Task t runs on node t mod NODES,
and sends BYTES to the node of each task behind it.

The trace goes to standard output, for 'noc-tools packets'. A message waits for the messages that
its operation needs, and for the time that is spent on computing between. That a node computes one
thing at a time is not modelled.
"""
import re
import sys
from collections import defaultdict, deque
from collections.abc import Iterable, Iterator, Mapping
from graphlib import TopologicalSorter

# By message the time that passes from when it is out; under None, the time from the beginning.
Needs = dict[str | None, int]
# Name, source, destination, bytes, and what it needs.
Message = tuple[str, int, int, int, Needs]
# A rank and a label.
Place = tuple[int, str]
Operations = dict[Place, re.Match[str]]
OPERATION = re.compile(r"(\w+): (?:calc (\d+)|(send|recv) (\d+)b (?:to|from) (\d+)(?: tag (\d+))?)")
REQUIRES = re.compile(r"(\w+) i?requires (\w+)")


def joined(parts: Iterable[Needs], time: int = 0) -> Needs:
    """What is needed where all of these are, and some time passes behind them."""
    found: Needs = {None: time}
    for part in parts:
        for message, delay in part.items():
            found[message] = max(found.get(message, 0), delay + time)
    return found


def lines_of(messages: Iterable[Message]) -> Iterator[str]:
    """The trace."""
    yield "id,time,source,destination,bytes,after"
    for name, source, destination, size, needs in messages:
        afters = [f"{message}+{delay}" for message, delay in needs.items() if message is not None]
        yield f"{name},{needs[None]},{source},{destination},{size},{' '.join(afters) or '-'}"


# ---- GOAL


def operations_in(text: str) -> tuple[Operations, dict[Place, list[Place]]]:
    """The operations of all ranks, and those that each requires."""
    found: Operations = {}
    requires: dict[Place, list[Place]] = {}
    rank = 0
    for line in map(str.strip, text.splitlines()):
        if line.startswith("rank "):
            rank = int(line.split()[1])
        elif operation := OPERATION.match(line):
            found[rank, operation[1]] = operation
            requires.setdefault((rank, operation[1]), [])
        elif needed := REQUIRES.match(line):
            requires.setdefault((rank, needed[1]), []).append((rank, needed[2]))
        elif line not in ("", "}") and not line.startswith(("num_ranks", "//")):
            sys.exit(f"traces.py: '{line}' is no line of GOAL that this script knows")
    return found, requires


def partners(operations: Mapping[Place, re.Match[str]]) -> dict[Place, str]:
    """The message that each recv takes: of the same ranks and tag, in the order of the file."""
    sent: dict[tuple[int, int, str], deque[str]] = defaultdict(deque)
    found = {}
    for (rank, label), operation in operations.items():
        if operation[3] == "send":
            sent[rank, int(operation[5]), operation[6]].append(f"r{rank}.{label}")
    for (rank, label), operation in operations.items():
        if operation[3] == "recv":
            found[rank, label] = sent[int(operation[5]), rank, operation[6]].popleft()
    return found


def messages_of_goal(text: str) -> Iterator[Message]:
    """The messages of a program."""
    operations, requires = operations_in(text)
    received = partners(operations)
    # What is needed for an operation to be over; a send is over where it begins.
    ends: dict[Place, Needs] = {}
    for place in TopologicalSorter(requires).static_order():
        needs = [ends[other] for other in requires[place]]
        if place in received:
            needs.append({received[place]: 0})
        ends[place] = joined(needs, int(operations[place][2] or 0))
    for (rank, label), operation in operations.items():
        if operation[3] == "send":
            to, size = int(operation[5]), int(operation[4])
            yield f"r{rank}.{label}", rank, to, size, ends[rank, label]


# ---- STG


def messages_of_stg(text: str, nodes: int, size: int) -> Iterator[Message]:
    """The messages of a task graph, in which tasks come behind those that they need."""
    ends: dict[int, Needs] = {}
    for line in text.splitlines()[1:]:
        if not line.strip() or line.startswith("#"):
            continue
        task, time, _, *before = map(int, line.split())
        needs: list[Needs] = []
        for other in before:
            if other % nodes == task % nodes:
                needs.append(ends[other])
                continue
            yield f"t{other}.{task}", other % nodes, task % nodes, size, ends[other]
            needs.append({f"t{other}.{task}": 0})
        ends[task] = joined(needs, time)


def main() -> None:
    match sys.argv[1:]:
        case ["goal", path]:
            messages = messages_of_goal(open(path).read())
        case ["stg", path, nodes, size]:
            messages = messages_of_stg(open(path).read(), int(nodes), int(size))
        case _:
            sys.exit(__doc__)
    print(*lines_of(messages), sep="\n")


if __name__ == "__main__":
    main()
