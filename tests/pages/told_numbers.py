"""Numbers that pages tell and that the tree can say, each worked out from what it is of.

A row of TOLD has a page, the words in which it tells numbers, and what these have to be. Words that
the page no longer has are a failure too, so that a row goes with its sentence.
"""
import re
from collections.abc import Iterator, Sequence
from pathlib import Path

TOP = Path(__file__).resolve().parents[2]
MOST_EDITS = 60
MOST_CRATES = 10
NAMES = ("no one two three four five six seven eight nine ten eleven twelve thirteen fourteen "
         "fifteen sixteen").split()


def text_of(name: str) -> str:
    return (TOP / name).read_text()


def number(text: str) -> float:
    """The number that a text tells, in digits or as a word."""
    plain = text.lower()
    return NAMES.index(plain) if plain in NAMES else float(plain.replace(",", ""))


def constant(name: str) -> int:
    """A constant of the limits of packets."""
    limits = text_of("crates/noc_packet/src/limits.rt")
    found = re.search(rf"const {name}: \w+ = ([\d_]+);", limits)
    return int(found[1]) if found else -1


def edits() -> list[Path]:
    """The edits that must fail."""
    return sorted(TOP.glob("crates/*/must-fail/*.edit"))


def crates_with_edits() -> list[str]:
    return sorted({edit.parents[1].name for edit in edits()})


def default_count(script: str) -> int:
    """How many inputs a fuzzer tries where nothing is said."""
    found = re.search(r"^COUNT = (\d+)$", text_of(script), re.MULTILINE)
    return int(found[1]) if found else -1


def lines_of_crates() -> dict[str, list[str]]:
    """By crate of crates.txt the libraries that it names."""
    lines = re.findall(r"^(\w+):(.*)$", text_of("crates.txt"), re.MULTILINE)
    return {crate: below.split() for crate, below in lines}


def below_the_program() -> set[str]:
    """The crates that the program stands on at any remove, and itself; the kit's are among them."""
    lines, found, todo = lines_of_crates(), set(), ["noc"]
    while todo:
        crate = todo.pop()
        if crate not in found:
            found.add(crate)
            todo += lines.get(crate, [])
    return found


def of_kit() -> int:
    """How many crates of the kit the program names; `core` is a part of its library."""
    return len(below_the_program() - set(lines_of_crates()) - {"core"})


def experiments() -> int:
    listed = re.search(r"^EXPERIMENTS = \[(.*?)\]", text_of("examples/experiments.py"),
                       re.MULTILINE | re.DOTALL)
    return len(re.findall(r"\w+", listed[1])) if listed else -1


def verdicts() -> int:
    listed = re.search(r"\bALL: [^=]*= \[(.*?)\]", text_of("crates/noc_view/src/verdict.rt"),
                       re.DOTALL)
    return len(re.findall(r"Verdict::\w+", listed[1])) if listed else -1


def names_listed(page: str, words: str) -> int:
    """How many names in backticks stand in the item of a list that begins with these words."""
    item = re.search(rf"^ *- {words}.*?(?=^ *- |^$)", text_of(page), re.MULTILINE | re.DOTALL)
    return len(re.findall(r"`\w+`", item[0])) if item else -1


def table_with(page: str, head: str) -> list[list[str]]:
    """The rows of the first table of a page that has a column of this head, its head first."""
    rows = [[cell.strip() for cell in line.strip("| \n").split("|")]
            for line in text_of(page).splitlines()]
    start = next((at for at, row in enumerate(rows) if head in row), len(rows))
    below = (at for at in range(start, len(rows)) if len(rows[at]) < 2)
    return [rows[start], *rows[start + 2:next(below, None)]] if start < len(rows) else []


def speeds() -> tuple[int, int]:
    """The least and the greatest speed that docs/PERFORMANCE.md measures, but for a network in
    which nearly nothing happens, in millions of router-cycles a second."""
    head, *rows = table_with("docs/PERFORMANCE.md", "M router-cycles/s")
    measured = ("M router-cycles/s", "Eight channels")
    columns = [at for at, cell in enumerate(head) if cell in measured]
    found = [number(row[at]) for row in rows for at in columns if "above" not in row[at]]
    return round(min(found)), round(max(found))


def seconds_of_run() -> float:
    """What docs/PERFORMANCE.md measures for a whole run of a saturated mesh of 16 by 16."""
    time = re.search(r"^\| `run`, mesh of 16 by 16.*saturated, 20,000 cycles \| ([\d.]+) s \|",
                     text_of("docs/PERFORMANCE.md"), re.MULTILINE)
    return number(time[1]) if time else -1


def told() -> Iterator[tuple[str, str, Sequence[float]]]:
    """Each page with the words in which it tells numbers, as a pattern, and what these are."""
    developing, proved, readme = "docs/DEVELOPING.md", "docs/PROVED.md", "README.md"
    c_library = names_listed(proved, r"\d+ of the C library")
    c_kit = names_listed(proved, r"\d+ of the kit's small library")
    yield (developing, r"at most (\d+) edits, and at most (\w+) crates have",
           (MOST_EDITS, MOST_CRATES))
    yield developing, r"the (\w+) crates below in which", (len(crates_with_edits()),)
    yield (developing, r"`tests/program/hostile.py`: (\d+) inputs",
           (default_count("tests/program/hostile.py"),))
    yield (developing, r"hostile_tools.py`: (\d+) calls",
           (default_count("tests/package/hostile_tools.py"),))
    yield proved, r"(\d+) damaged texts", (default_count("tests/program/hostile.py"),)
    yield proved, r"lists the (\d+) that the program", (c_library + c_kit,)
    yield proved, r"(\d+) of the C library", (c_library,)
    yield proved, r"(\d+) of the kit's small library", (c_kit,)
    yield proved, r"\*\*(\w+) crates of the kit\*\*", (of_kit(),)
    yield proved, r"each of the (\w+) verdicts", (verdicts(),)
    yield "docs/MODEL.md", r"gets one of (\w+) verdicts", (verdicts(),)
    yield "docs/RTL.md", r"which of the (\w+) verdicts", (verdicts(),)
    yield "docs/EXPERIMENTS.md", r"here are (\w+) experiments", (experiments(),)
    yield readme, r"\[(\w+) experiments\]", (experiments(),)
    yield readme, r"\[(\w+) of its crates\]", (of_kit(),)
    yield (readme, r"up to (\d+) routers, (\d+) virtual channels on each link, (\d+) flits in each "
           r"buffer and (\d+) message classes",
           [constant(f"MAX_{name}") for name in ("NODES", "CHANNELS", "BUFFER", "CLASSES")])
    yield (readme, r"up to ([\d,]+) packets of up to (\d+) flits",
           (constant("MAX_PACKETS"), constant("MAX_LENGTH")))
    yield readme, r"(\d+) to (\d+) million router-cycles", speeds()
    yield readme, r"saturated mesh of 16 by 16 take ([\d.]+) s", (seconds_of_run(),)


def told_in(page: str, words: str) -> re.Match[str] | None:
    """Where a page tells numbers in these words."""
    return re.search(words.replace(" ", r"\s+"), text_of(page), re.IGNORECASE)


def numbers() -> Iterator[tuple[str, str, bool]]:
    """What pages tell, and whether it is so."""
    for page, words, right in told():
        found = told_in(page, words)
        is_right = found is not None and [number(it) for it in found.groups()] == list(right)
        yield page, f"{', '.join(map(str, right))}, told by '{words}',", is_right


def builder() -> Iterator[tuple[str, str, bool]]:
    """Whether the builder's table of seconds has the crates of the program, and no others."""
    table = re.search(r"^SECONDS = \{(.*?)^\}", text_of("builder/build.py"), re.MULTILINE | re.DOTALL)
    listed = set(re.findall(r'"(\w+)": \d+', table[1])) if table else set()
    crates = below_the_program() & set(lines_of_crates())
    for crate in sorted(listed | crates):
        yield "builder/build.py", f"seconds of {crate}", crate in listed and crate in crates
