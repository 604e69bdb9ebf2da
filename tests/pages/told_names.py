"""Names in backticks on pages, by what they are of, and whether the tree has them.

A module stands in a table of modules, an item behind its crate or its type, and any other name alone.
"""
import re
from collections import defaultdict
from collections.abc import Iterator
from functools import cache
from pathlib import Path

from definitions import DECLARED, handed_out

TOP = Path(__file__).resolve().parents[2]
CODE = re.compile(r"`([^`]+)`")
FENCED = re.compile(r"^```.*?^```", re.MULTILINE | re.DOTALL)
# The tables whose heads name modules: those of one crate, and those that begin a row with the crate.
MODULES = re.compile(r"^\| (?:Module of `(\w+)`|Crate \| Module) \|.*\n\|[-|]*\n((?:\|.*\n)+)", re.MULTILINE)
NAME = re.compile(r"[A-Za-z_]\w*(?:::\w+)*")
# A block of code at the left margin: what it is, its head, and what is in it.
BLOCK = re.compile(r"^(?:pub(?:\(crate\))? )?(impl|enum|trait|struct)\b([^\n{;]*)(.*?)^\S*\}", re.M | re.S)
ITEM = re.compile(r"\b(?:fn|const|type|struct|enum|trait|mod|static) (\w+)")
MEMBER = re.compile(r"^    (?:pub(?:\(crate\))? |ghost )*(\w+)\s*(?:[:,({=]|$)", re.MULTILINE)
# Pages and sections that name what is of others, or was there once; and a few such names elsewhere.
OF_OTHERS = ("CHANGELOG.md", "COMING_FROM.md")
TRUSTED = re.compile(r"^## What is trusted\n.*?(?=^## )", re.MULTILINE | re.DOTALL)
NAMES_OF_OTHERS = {"awk", "SameBlock", "__libc_start_main", "__x86_get_cpuid_feature_leaf"}
# Folders that hold what was made of the code, or what a program keeps, but for two.
MADE, OURS = {"out", "dist", "__pycache__"}, {".ci", ".github"}
NO_CODE = {".md", ".svg", ".png", ".pyc"}
COMMENT = {".rt": re.compile("//.*"), ".antt": re.compile("--.*")}


def files_of(owner: str) -> set[str]:
    """The modules of a crate or of the package, by their names in a table."""
    if owner == "noc_tools":
        paths = [path for path in (TOP / owner).iterdir() if not path.name.startswith("__")]
        return {f"{path.name}/" if path.is_dir() else path.name.removesuffix(".py") for path in paths
                if path.suffix != ".typed"}
    return {path.stem for path in (TOP / "crates" / owner / "src").rglob("*.rt")} - {"lib", "main"}


def modules(page: Path) -> Iterator[tuple[str, bool]]:
    """The modules that the tables of a page name, and whether these are all that there are."""
    named: dict[str, set[str]] = defaultdict(set)
    last = ""
    for owner, rows in MODULES.findall(page.read_text()):
        for row in rows.splitlines():
            cells = row.split("|")[1:]
            of_row = CODE.search(cells[0])
            last = of_row[1] if not owner and of_row else last
            named[owner or last].update(CODE.findall(cells[0] if owner else cells[1]))
    for owner, names in named.items():
        there = files_of(owner)
        for name in sorted(names | there):
            yield f"the module {name} of {owner}", name in there
            yield f"the module {name} of {owner}, in a table,", name in names


def owner_of(kind: str, head: str) -> str:
    """Of which type or trait a block is, by its first line."""
    plain = re.sub(r"<[^<>]*(?:<[^<>]*>[^<>]*)*>", "", head)
    found = re.search(r"\bfor (\w+)" if kind == "impl" and " for " in plain else r"(\w+)", plain)
    return found[1] if found else ""


@cache
def crate_items(crate: str) -> set[str]:
    """What a crate declares: items, modules, definitions, and what it hands on of other crates."""
    folder = TOP / "crates" / crate
    found = handed_out(crate) | files_of(crate)
    for path in (folder / "src").rglob("*.rt"):
        found.update(ITEM.findall(COMMENT[".rt"].sub("", path.read_text())))
    for path in (folder / "specs").rglob("*.antt"):
        found.update(DECLARED.findall(path.read_text()))
    return found


@cache
def members() -> dict[str, set[str]]:
    """By type or trait of all crates, the methods, constants, variants and fields of that name."""
    found: dict[str, set[str]] = defaultdict(set)
    for path in TOP.glob("crates/*/src/**/*.rt"):
        for kind, head, inside in BLOCK.findall(COMMENT[".rt"].sub("", path.read_text())):
            found[owner_of(kind, head)].update(ITEM.findall(inside))
            if kind in ("enum", "struct"):
                found[owner_of(kind, head)].update(MEMBER.findall(inside))
    return found


def has_item(owner: str, name: str) -> bool:
    """Whether a crate declares an item of this name, or a type or a trait has such a member."""
    return name in (crate_items(owner) if (TOP / "crates" / owner).is_dir() else members()[owner])


def items(page: Path) -> Iterator[tuple[str, bool]]:
    """The items that a page names with what they belong to, and whether they are there."""
    for name in sorted(set(CODE.findall(FENCED.sub("", page.read_text())))):
        parts = re.match(NAME, name)
        steps = parts[0].split("::") if parts else []
        for owner, item in zip(steps, steps[1:]):
            if re.match("[A-Z]|noc_", owner) and owner != "Self":
                yield f"{owner}::{item}", has_item(owner, item)


@cache
def words() -> set[str]:
    """All words of the code, without comments, and of the names of files."""
    found = set()
    for path in TOP.rglob("*"):
        folders = path.relative_to(TOP).parts[:-1]
        is_ours = path.is_file() and not any(it in MADE or it[0] == "." and it not in OURS for it in folders)
        if is_ours and path.suffix not in NO_CODE and path != Path(__file__).resolve():
            text = path.read_bytes().decode(errors="replace")
            plain = COMMENT[path.suffix].sub("", text) if path.suffix in COMMENT else text
            found.update(re.findall(r"\w+", f"{path.name} {plain}"))
    return found


def names(page: Path) -> Iterator[tuple[str, bool]]:
    """The names that stand in backticks on a page, and whether the code has them somewhere."""
    if page.name not in OF_OTHERS:
        text = TRUSTED.sub("", FENCED.sub("", page.read_text()))
        for name in sorted(set(CODE.findall(text)) - NAMES_OF_OTHERS):
            if NAME.fullmatch(name):
                yield f"the name {name}", set(name.split("::")) <= words()
