"""The fault lines that docs/FORMATS.md names, each with its exit status, and the headers of its files."""
import re
import sys
from pathlib import Path

TOP = Path(__file__).resolve().parents[2]
# The tests of the program write configurations by the package.
sys.path.append(str(TOP))
# The first line of each kind of file and report of packets.
HEADERS = {
    "traffic": "source,destination,class,length,due\n", "table": "class,router,in_port,in_vc,dst,out_port,out_vc\n",
    "ranks": "router,port,vc,rank\n", "latency": "packet,source,destination,class,length,due,out,latency\n",
}
LETTERS = {"HOP": "class c router r port p vc v dst t out q vc w", "ENTRY": "class c router r port p vc v dst t"}
NUMBER, PORT = "(0|[1-9][0-9]*)", r"([+-][0-2]|local)"
MEMORY = ["joined 3", "config 3", "table 3", "ranks 3", "traffic 3", "rank 3", "relation 7", "network 6", "run 1"]


def pattern(details: str) -> str:
    """What the details of a row of the table stand for."""
    for letters, words in LETTERS.items():
        details = details.replace(letters, words)
    forms = {"K": "[a-z]+", "p": PORT, "q": PORT}
    return "".join(" " + (forms.get(word, NUMBER) if len(word) == 1 else word) for word in details.split())


def table() -> list[tuple[re.Pattern[str], int]]:
    """A pattern and a status for each row of the page's table, and for memory that is refused."""
    found = [(re.compile(f"fault {start} Memory\n"), 6) for start in MEMORY]
    families: list[str] = []
    for line in (TOP / "docs/FORMATS.md").read_text().splitlines():
        cells = [cell.strip() for cell in line.split("|")]
        if len(cells) != 7 or not re.fullmatch(r"\d+ [A-Z]\w+", cells[2]):
            continue
        families = cells[1].split(", ") if cells[1] else families
        form = cells[2] + pattern(cells[3].replace("`", ""))
        found += [(re.compile(f"fault {family} {form}\n"), int(cells[5])) for family in families]
    return found


TABLE = table()


def status_of(line: bytes) -> int | None:
    """The status that comes with a fault line (bytes), None where the page names no such line."""
    text = line.decode("latin-1")
    return next((status for form, status in TABLE if form.fullmatch(text)), None)
