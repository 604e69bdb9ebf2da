#!/usr/bin/env python3
"""Prints docs/DEFINITIONS.md: what the files of specs/ define, from the sources.

    python3 tests/pages/definitions.py > docs/DEFINITIONS.md

A crate has a table with a row for each of its files: the names by which contracts of public functions speak of it, the
first comment of the file, and which statement rests on it. Crates stand in the order of crates.txt.
"""
import re
from collections import defaultdict
from collections.abc import Iterable, Iterator
from pathlib import Path

TOP = Path(__file__).resolve().parents[2]
HEAD = """# Where each definition stands

What contracts mean is defined in the folders `specs/` of the crates, and [MODEL.md](MODEL.md) tells it in prose. Each
file is listed with its first comment, and with its definitions that contracts of public functions name. A file without
such names serves other definitions or inner functions. Crates stand in the order of `crates.txt`
([what each one is](../crates/README.md)), and `tests/pages/definitions.py` prints this page.

Who judges what is proved has to read what the statement says, and no proof. The last column tells of which statement a
file is a part, at any remove:

{parts}

All {count} files have {lines} lines, which are counted without comments and imports. The definitions of the kit and its
crates are not among them.
"""
# The statements by which the repository is judged: a word for each, what it is, and the sources whose contracts say it.
STATEMENTS = {
    "headline": ("the laws of `noc_theory_headline`", ["noc_theory_headline/src"]),
    "answer": ("`answer` of noc_answers", ["noc_answers/src/answers.rt"]),
    "program": ("words, answer, exit status and fault line", [
        "noc_answers/src/answers.rt", "noc_cli/src", "noc_asked/src", "noc_program/src", "noc_faults/src/line.rt"]),
}
COLUMNS = """| File | What it is | Definitions that contracts name | Part of |
|---|---|---|---|"""
# The files of specs/ by crate and name.
Files = dict[tuple[str, str], Path]
IMPORT = re.compile(r"ghost use Rattle\.(\w+)\.specs\.(\w+)\.\{([^}]*)\}")
# What a file of specs/ passes on.
PASSED = re.compile(r"^(?:unfoldable )?pub use Rattle\.(\w+)\.specs\.(\w+)\.\{([^}]*)\}", re.MULTILINE)
# An item at the left margin, to the brace that closes it.
BLOCK = re.compile(r"^(?:impl(?:<[^>]*>)? (?:(Model) for )?(\w+)|pub fn (\w+)).*?^{?}", re.MULTILINE | re.DOTALL)
SIGNATURE = re.compile(r"^( *)pub fn .*?^\1{", re.MULTILINE | re.DOTALL)
CITED = re.compile(r"\bRattle\.(\w+)\.specs\.(\w+)\b(?:\.\{([^}]*)\})?")
DECLARED = re.compile(r"^ *(?:(?:abbrev|unfoldable|pub|record|data) +)+([^\s:(]+)", re.MULTILINE)


def handed_out(crate: str) -> set[str]:
    """The names that a library gives to other crates: those of the `pub use` items of its root. A program has none."""
    root = TOP / "crates" / crate / "src" / "lib.rt"
    lists = re.findall(r"^pub use [\w:]+?::(?:\{([^}]*)\}|(\w+));", root.read_text() if root.exists() else "", re.M)
    return {name for several, one in lists for name in re.findall(r"\w+", several or one)}


def contracts(crate: str, source: str) -> Iterator[str]:
    """The contracts of a source that other crates can see, and what they see of its types."""
    out = handed_out(crate)
    for block in BLOCK.finditer(source):
        model, owner, function = block.groups()
        if (owner or function) in out:
            yield block[0] if model else "\n".join(part[0] for part in SIGNATURE.finditer(block[0]))


def names_of(listed: str) -> Iterator[tuple[str, str]]:
    """The names of an import, each as its home has it, and as it is called here."""
    for name in listed.split(","):
        own, *given = name.strip().split(" as ")
        yield own, (given or [own])[0]


def home(files: Files, owner: str, file: str, name: str) -> tuple[str, str, str]:
    """The crate and the file of specs/ that define a name, which other files may pass on."""
    for crate, passed, names in PASSED.findall(files.get((owner, file), Path("/dev/null")).read_text()):
        for own, given in names_of(names):
            if given == name:
                return home(files, crate, passed, own)
    return owner, file, name


def cited(crates: Iterable[str], files: Files) -> dict[tuple[str, str], set[str]]:
    """By crate and file of specs/, the names in it by which contracts speak."""
    found: dict[tuple[str, str], set[str]] = defaultdict(set)
    for crate in crates:
        for path in (TOP / "crates" / crate / "src").rglob("*.rt"):
            source = path.read_text()
            words = set(re.findall(r"[^\s(){}\[\].,;]+", "\n".join(contracts(crate, source))))
            for owner, file, names in IMPORT.findall(source):
                for own, given in names_of(names):
                    if given in words:
                        crate_of_it, file_of_it, name = home(files, owner, file, own)
                        found[crate_of_it, file_of_it].add(name)
    return found


def specs_of(crate: str) -> list[Path]:
    """The files of a crate's specs/, by name."""
    return [path for path in sorted((TOP / "crates" / crate / "specs").glob("*.antt")) if path.stem != "Lib"]


def cites(files: Files, path: Path) -> Iterator[tuple[str, str]]:
    """The files of specs/ that a source cites, which are those that define the names where it lists some."""
    for owner, file, names in CITED.findall(path.read_text()):
        for own, _ in names_of(names):
            yield home(files, owner, file, own)[:2]


def parts_of(files: Files, sources: Iterable[Path]) -> set[tuple[str, str]]:
    """The files of specs/ that the sources cite, and those that these cite, at any remove."""
    todo = [it for path in sources for it in cites(files, path)]
    found = set()
    while todo:
        it = todo.pop()
        if it in files and it not in found:
            found.add(it)
            todo += cites(files, files[it])
    return found


def statements(files: Files) -> dict[str, set[tuple[str, str]]]:
    """By statement, the files of specs/ that are a part of it."""
    found = {}
    for word, (_, places) in STATEMENTS.items():
        roots = [TOP / "crates" / place for place in places]
        sources = [path for root in roots for path in ([root] if root.is_file() else root.rglob("*.rt"))]
        found[word] = parts_of(files, sources)
    return found


def length(path: Path) -> int:
    """How many lines of a file are neither empty, comments nor imports."""
    lines = (line.strip() for line in path.read_text().splitlines())
    return sum(bool(line) and not re.match(r"--|(pub )?(use|mod) ", line) for line in lines)


def head(files: Files, parts: dict[str, set[tuple[str, str]]]) -> str:
    """What stands above the tables."""
    told = "\n".join(
        f"- *{word}* ({what}): {len(parts[word])} files with {sum(length(files[it]) for it in parts[word]):,} lines"
        for word, (what, _) in STATEMENTS.items())
    return HEAD.format(parts=told, count=len(files), lines=f"{sum(map(length, files.values())):,}")


def about(path: Path) -> str:
    """The first comment of a file, on one line."""
    lines = []
    for line in path.read_text().splitlines():
        if not line.startswith("--"):
            break
        lines.append(line.lstrip("- "))
    return " ".join(lines)


def page() -> str:
    crates = re.findall(r"^(\w+):", (TOP / "crates.txt").read_text(), re.MULTILINE)
    files = {(crate, path.stem): path for crate in crates for path in specs_of(crate)}
    found, parts = cited(crates, files), statements(files)
    lines = [head(files, parts)]
    for crate in crates:
        if rows := [it for it in files if it[0] == crate]:
            lines.append(f"## `{crate}`\n\n{COLUMNS}")
            for it in rows:
                names = dict.fromkeys(DECLARED.findall(files[it].read_text()))
                named = ", ".join(f"`{name}`" for name in names if name in found[it])
                part_of = ", ".join(word for word in STATEMENTS if it in parts[word])
                lines.append(f"| `{it[1]}` | {about(files[it])} | {named} | {part_of} |")
            lines.append("")
    return "\n".join(lines)


if __name__ == "__main__":
    print(page(), end="")
