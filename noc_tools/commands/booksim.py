"""Translates a configuration of BookSim 2 into one for noc.

FILE is what BookSim is called with, and words KEY=VALUE behind CONFIG set keys as they do behind
its name. A mesh or torus of the same shape, channels, buffers and routing goes to CONFIG, a new
file. Standard output then has

    - the lines that measure it: 'noc-tools load' at the file's own load, and a curve of ten loads
      with its picture
    - what is set otherwise, because noc has no such choice, or a limit: these keys change figures
    - what is left out, because it says nothing of a network or its packets
    - what is taken over, as the key, option or word that it becomes

Each key of the file stands in one of the lists, a line for each. A key that the file lacks stands
there where BookSim's own value is taken for it. Loads are in flits per node and cycle, so a rate of
packets is multiplied by their length. docs/COMING_FROM.md says how the routers of both differ.

For example:

    noc-tools booksim mesh88_lat config.toml injection_rate=0.1
"""
import shlex
from argparse import ArgumentParser, Namespace
from collections.abc import Iterator
from pathlib import Path

from ..arguments import add
from ..booksim import Translation, listed, settings_in, translated, words_of
from ..errors import Refused, refusing
from ..files import read_text
from ..study.combinations import capacity

# How many loads a curve has.
POINTS = 10


def add_arguments(parser: ArgumentParser) -> None:
    add(parser, "file FILE", "a configuration of BookSim 2")
    add(parser, "config CONFIG", "the configuration to write; a file that is there stays as it is")
    add(parser, "words KEY=VALUE", "keys that are set beside those of FILE", nargs="*")


def setting(word: str) -> tuple[str, str]:
    """The key and the value of a word KEY=VALUE."""
    key, equals, value = word.partition("=")
    if not equals:
        raise Refused(f"'{word}' is no KEY=VALUE")
    return key.strip(), value.strip()


def write_new(path: Path, text: str) -> None:
    """Writes a file that is not there; one with the same text stays."""
    with refusing(OSError, f"{path}: "):
        if path.exists():
            if path.read_bytes() != text.encode():
                raise Refused(f"{path} is there already, with something else in it")
            return
        path.write_text(text, encoding="utf-8")


def lines_to_call(found: Translation, config: str) -> Iterator[str]:
    """The commands that measure it."""
    stem = config.removesuffix(".toml")
    names = config, f"{stem}_table.csv", f"{stem}.csv", f"{stem}.svg"
    config, table, curve, picture = map(shlex.quote, names)
    demand = found.demand
    words = words_of(demand) + (["--table", table] if found.made_rule else [])
    length = "+".join(map(str, demand.lengths))
    step = capacity(found.network.kind, found.network.radix) / POINTS
    loads = f"{step:.2g}:{POINTS * float(f'{step:.2g}'):.3g}:{step:.2g}"
    if found.made_rule:
        yield f"noc-tools table {config} {found.made_rule} > {table}"
    yield " ".join(["noc-tools load", config, length, f"{demand.load:g}", *words])
    yield " ".join(["noc-tools load", config, length, loads, *words, ">", curve])
    yield f"noc-tools curves {shlex.quote(Path(stem).name)}={curve} > {picture}"


def main(options: Namespace) -> None:
    given = settings_in(read_text(options.file, "configuration of BookSim"), options.file)
    found = translated(given | dict(map(setting, options.words)))
    write_new(Path(options.config), found.network.text())
    print(*lines_to_call(found, options.config), *listed(found.notes), sep="\n")
