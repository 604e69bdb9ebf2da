#!/usr/bin/env python3
"""Looks whether what the pages name is there.

    run_names.py PAGE..

Each link of a page to a file of the repository must lead to one, and to a heading of it where it names one. Each path
'crates/..', 'docs/..', 'tests/..', 'bench/..' and so on in the text must be there. A path 'noc_x/src/..' must be in
that crate, and a path 'src/..', 'specs/..' or 'proofs/..' in some crate. Below a heading that is the name of a crate,
each item of a list must end with names in brackets. The crate must hand out these, and the functions that stand in
brackets before. The pages docs/DEFINITIONS.md and docs/INTERFACE.md must be what definitions.py and interface.py print,
which stand beside this file. crates/noc_net/src/lib.rt must quote the use of the libraries as it stands, and
bench/figures.svg be the picture of bench/figures.csv.

In a table whose head names modules, each must be a file of the crate or package that the table is of, and each file of
it must be named in such a table of the page. `Type::name` must be a member of a type or trait of that name, and
`crate::name` an item of that crate. Any other name in backticks must stand in the code, outside of comments. Numbers
that the tree can say are compared with it (told_numbers.py).

No sentence has more than 35 words (bench/prose.py).

Each crate of crates.txt has one row in crates/README.md, which comes after the rows of all crates that it stands on.

The edits that must fail are counted, and so are the crates that have some, which docs/DEVELOPING.md must name. Each
text that an edit replaces must stand in its file once, and it must be of crates on which its own stands.

Each name that leads nowhere is shown, and the last line is 'N passed, M failed'. The exit status is 0 where there are
names and all are there, else 1.
"""
import re
import subprocess
import sys
from collections.abc import Iterator
from pathlib import Path

import definitions
import interface
import told_names
import told_numbers
from definitions import TOP, handed_out
from told_numbers import MOST_CRATES, MOST_EDITS

sys.path.append(str(TOP / "bench"))
import prose  # noqa: E402

LINK = re.compile(r"\]\((?!https?:)([^)#]*)(?:#([^)]*))?\)")
HEADING = re.compile(r"^#+ (.*)$", re.MULTILINE)
FENCED = re.compile(r"^```.*?^```", re.MULTILINE | re.DOTALL)
PATH = re.compile(r"`((?:crates|docs|tests|bench|builder|release|examples|noc_tools)/[\w./*-]+)`")
# A file of a crate that is named by its folder there alone, or by the crate without `crates/`.
CRATE_PATH = re.compile(r"`(?:(noc_\w+)/)?((?:src|specs|proofs|must-fail)/[\w./*-]+)`")
# A step of such a path that stands for any name.
ANY_STEP = re.compile(r"\b[A-Z]+\b")
STATEMENT = re.compile(r"^- .*(?:\n  .*)*", re.MULTILINE)
CARRIED = re.compile(r"\((`[^`]+`(?:,\s+`[^`]+`)*)\)\.$")
# Names in brackets within such an item. A type, a definition or a file there carries nothing.
CARRIERS = re.compile(r"\((`[^`]+`(?:,\s+`[^`]+`)*)\)")
NO_CARRIER = re.compile(r"[A-Z]\w*|.*/.*")
CODE = re.compile(r"`([^`]+)`")
# A row of crates/README.md, and a line of crates.txt.
CRATE_ROW = re.compile(r"^\| `(\w+)` \|", re.MULTILINE)
CRATE_LINE = re.compile(r"^(\w+):(.*)$", re.MULTILINE)
OF_CRATE = re.compile(r"\b(noc_\w+)(?=::|\.)")
EDITS_SECTION = re.compile(r"^## Edits that must fail\n(.*?)(?=^## |\Z)", re.MULTILINE | re.DOTALL)


def anchors(page: Path) -> set[str]:
    """The names by which links lead to the headings of a page."""
    headings = HEADING.findall(FENCED.sub("", page.read_text()))
    return {re.sub(r"[^\w -]", "", heading.lower()).replace(" ", "-") for heading in headings}


def links(page: Path) -> Iterator[tuple[str, bool]]:
    """What the links and the paths of a page lead to, and whether it is there."""
    text = page.read_text()
    for file, heading in LINK.findall(text):
        target = page.parent / file if file else page
        yield f"link {file}#{heading}", target.exists() and (not heading or heading in anchors(target))
    for path in PATH.findall(text):
        yield f"path {path}", any(TOP.glob(path.rstrip("/")))
    for crate, path in CRATE_PATH.findall(text):
        where = f"crates/{crate or '*'}/{ANY_STEP.sub('*', path.rstrip('/'))}"
        yield f"path {where}", any(TOP.glob(where))


def has_public(crate: str, name: str) -> bool:
    """Whether a crate hands out a function or type of this name; a method is named as Type::method."""
    owner, _, last = name.rpartition("::")
    if (owner or last) not in handed_out(crate):
        return False
    texts = [source.read_text() for source in (TOP / "crates" / crate / "src").rglob("*.rt")]
    if owner:
        block = re.compile(rf"^impl(?:<[^>]*>)? {owner}\b.*?^}}", re.MULTILINE | re.DOTALL)
        texts = [found for text in texts for found in block.findall(text)]
    return any(re.search(rf"^ *pub (fn|struct|enum|trait) {last}\b", text, re.MULTILINE) for text in texts)


def contracts(page: Path) -> Iterator[tuple[str, bool]]:
    """The functions that carry what is said of a crate below its name, and whether the crate hands them out."""
    for heading, text in re.findall(r"^### `(\w+)`\n(.*?)(?=^#|\Z)", page.read_text(), re.MULTILINE | re.DOTALL):
        for statement in STATEMENT.findall(text):
            carried = CARRIED.search(statement)
            if carried is None:
                yield f"what carries '{statement[2:60]}..'", False
                continue
            inside = [name for names in CARRIERS.findall(statement[:carried.start()]) for name in CODE.findall(names)
                      if not NO_CARRIER.fullmatch(name)]
            for name in [*inside, *CODE.findall(carried[1])]:
                yield f"{heading}'s {name}", has_public(heading, name)


def print_is_kept(page: Path) -> Iterator[tuple[str, bool]]:
    """Whether a page that is printed from the sources is as they have it now."""
    for script in (definitions, interface):
        if page.resolve() == TOP / f"docs/{script.__name__.upper()}.md":
            yield f"what 'python3 tests/pages/{script.__name__}.py' prints", page.read_text() == script.page()


def picture_is_kept() -> Iterator[tuple[Path, str, bool]]:
    """Whether the picture of the figures of speed is of these as they stand."""
    ran = subprocess.run([sys.executable, TOP / "bench/plot_figures.py"], capture_output=True, text=True)
    picture = TOP / "bench/figures.svg"
    yield picture.relative_to(TOP), "what bench/plot_figures.py draws", picture.read_text() == ran.stdout


def long_sentences(page: Path) -> Iterator[tuple[str, bool]]:
    """Whether no sentence of a page is longer than it may be."""
    longest = max((len(words) for words in prose.sentences(page.read_text())), default=0)
    yield f"a full stop in a sentence of {longest} words, where {prose.LONG} are the most,", longest <= prose.LONG


def quote_is_kept() -> Iterator[tuple[str, bool]]:
    """Whether the use of the libraries is quoted at the head of noc_net as it stands."""
    head, example = (TOP / f"crates/{crate}/src/lib.rt" for crate in ("noc_net", "noc_library_example"))
    quoted = re.search(r"^//! ```rust\n((?://!.*\n)+?)//! ```$", head.read_text(), re.MULTILINE)
    text = re.sub(r"^//! ?", "", quoted[1], flags=re.MULTILINE) if quoted else None
    yield f"the quote of {example.relative_to(TOP)}", bool(text) and text in example.read_text()


def floors(page: str, lines: str) -> Iterator[tuple[str, bool]]:
    """Whether the page of the crates has each crate once, behind all crates that it stands on."""
    rows = CRATE_ROW.findall(page)
    stands_on = {crate: below.split() for crate, below in CRATE_LINE.findall(lines)}
    for crate in sorted(set(rows) | set(stands_on)):
        is_one = crate in stands_on and rows.count(crate) == 1
        yield f"one row for the crate {crate}", is_one
        if is_one:
            for below in stands_on[crate]:
                if below in stands_on:
                    yield f"{below} before {crate}, which stands on it,", below in rows[:rows.index(crate)]


def replaces_what_is_there(edit: Path) -> bool:
    """Whether each text that an edit replaces stands once in its file, as the pairs before have left it."""
    texts: dict[Path, str] = {}
    file, old = None, ""
    for line in edit.read_text().splitlines():
        word, _, text = line.partition(":")
        text = text.removeprefix(" ")
        if word == "file":
            file = edit.parents[1] / text
            texts.setdefault(file, file.read_text() if file.exists() else "")
        elif word == "old":
            old = text
            if texts[file].count(old) != 1:
                return False
        elif word == "new":
            texts[file] = texts[file].replace(old, text)
    return True


def is_of_crates_below(edit: Path, crates: dict[str, list[str]]) -> bool:
    """Whether all crates of which an edit has something are its own and those on which that one stands."""
    own = edit.parents[1].name
    return set(OF_CRATE.findall(edit.read_text())) <= {own, *crates.get(own, [])}


def edits() -> Iterator[tuple[str | Path, str, bool]]:
    """Whether the edits that must fail are few, in few crates that a page names, and each of what is there."""
    all_edits, crates = told_numbers.edits(), told_numbers.crates_with_edits()
    stands_on = told_numbers.lines_of_crates()
    for what, count, most in (("edits", len(all_edits), MOST_EDITS), ("crates with edits", len(crates), MOST_CRATES)):
        yield "crates", f"room for {count} {what}, of {most} at most,", 0 < count <= most
    section = EDITS_SECTION.search((TOP / "docs/DEVELOPING.md").read_text())
    named = CODE.findall(section[1]) if section else []
    for crate in crates:
        yield "docs/DEVELOPING.md", f"{crate} as a crate with edits", crate in named
    for edit in all_edits:
        yield edit.relative_to(TOP), "one place for each text that it replaces", replaces_what_is_there(edit)
        yield edit.relative_to(TOP), "crates that its own stands on", is_of_crates_below(edit, stands_on)


def main() -> int:
    passed = failed = 0
    found: list[tuple[str | Path, str, bool]] = [("crates/noc_net/src/lib.rt", *it) for it in quote_is_kept()]
    crates = TOP / "crates/README.md"
    found += [(crates.relative_to(TOP), *it) for it in floors(crates.read_text(), (TOP / "crates.txt").read_text())]
    found += [*picture_is_kept(), *edits(), *told_numbers.numbers(), *told_numbers.builder()]
    for page in map(Path, sys.argv[1:]):
        found += [(page, *it) for it in (
            *links(page), *contracts(page), *print_is_kept(page), *told_names.modules(page), *told_names.items(page),
            *told_names.names(page), *long_sentences(page))]
    for place, name, is_there in found:
        passed += is_there
        failed += not is_there
        if not is_there:
            print(f"{place}: {name} is not there")
    print(f"{passed} passed, {failed} failed")
    return 0 if passed and not failed else 1


if __name__ == "__main__":
    sys.exit(main())
