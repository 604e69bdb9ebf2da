#!/usr/bin/env python3
"""Measures the prose of pages.

    bench/prose.py [PAGE..] [--show]

For each page, or for all pages of the repository where none is named: how many sentences it has, how many words a
sentence has on average, the share of sentences of six words or fewer, and the words of the longest one. Blocks of code,
tables, headings, names in brackets and items of lists that are no sentences are left out, and a span of code counts
as one word. With --show, each sentence of six words or fewer and each of more than 35 follows. The aim is an average
of 14 to 18 words, a share of short ones under 10 percent, and none above 35. The last is tested (./test names).
"""
import argparse
import re
from pathlib import Path

TOP = Path(__file__).resolve().parent.parent
PAGES = ("README.md", "CHANGELOG.md", "CONTRIBUTING.md", "crates/README.md", "docs/*.md", "examples/README.md",
         "bench/*.md")
SHORT, LONG = 6, 35
FENCED = re.compile(r"^( *```+).*?^\1 *$", re.MULTILINE | re.DOTALL)
ITEM = re.compile(r"^ *(?:[-*]|\d+\.) +")
# Table rows, headings, indented blocks, comments, and lines of links alone.
NO_PROSE = re.compile(r"^(?:\||#|<!--| {4,}[^ -])")
CODE = re.compile(r"`[^`]*`")
LINK = re.compile(r"!?\[([^\]]*)\]\([^)]*\)")
# The names that carry a statement, and the heading of a paragraph.
NAMES = re.compile(r" \(`[^`]*`(?:, `[^`]*`)*\)")
RUN_IN = re.compile(r"^\*\*[^*]*[.?!]\*\* ?")
END = re.compile(r"(?<=[.!?])[*_\")]* +(?=[\"(*_]*[A-Z0-9W])")


def paragraphs(text: str) -> list[str]:
    """The paragraphs of a page, and the items of its lists, each on one line."""
    found, is_open = [], False
    for line in FENCED.sub("", text).splitlines():
        if not line.strip() or NO_PROSE.match(line):
            is_open = False
            continue
        if ITEM.match(line) or not is_open:
            found.append((bool(ITEM.match(line)), ""))
        found[-1] = found[-1][0], f"{found[-1][1]} {ITEM.sub('', line).strip()}".strip()
        is_open = True
    return [words for is_item, words in found if not is_item or words.rstrip("*_)").endswith((".", ":", "?", "!"))]


def sentences(text: str) -> list[list[str]]:
    """The sentences of a page as lists of words."""
    found = []
    for paragraph in paragraphs(text):
        words = CODE.sub("Word", RUN_IN.sub("", NAMES.sub("", paragraph)))
        plain = LINK.sub(lambda link: link[1][:1].upper() + link[1][1:], words)
        found += [[word for word in part.split() if re.search(r"\w", word)] for part in END.split(plain)]
    return [words for words in found if words]


def main() -> None:
    parser = argparse.ArgumentParser(description="Measures the prose of pages.")
    parser.add_argument("pages", nargs="*", type=Path)
    parser.add_argument("--show", action="store_true", help="show the sentences that are too short or too long")
    options = parser.parse_args()
    print(f"{'page':<24}{'sentences':>10}{'mean':>7}{'short':>8}{'longest':>9}")
    for page in options.pages or sorted(page for name in PAGES for page in TOP.glob(name)):
        found = sentences(page.read_text())
        lengths = [len(words) for words in found]
        short = sum(length <= SHORT for length in lengths) / max(1, len(lengths))
        mean = sum(lengths) / max(1, len(lengths))
        name = page.resolve().relative_to(TOP) if page.resolve().is_relative_to(TOP) else page
        print(f"{name!s:<24}{len(found):>10}{mean:>7.1f}{short:>7.1%}{max(lengths, default=0):>9}")
        for words in found:
            if options.show and not SHORT < len(words) <= LONG:
                print(f"    {len(words)}: {' '.join(words)}")


if __name__ == "__main__":
    main()
