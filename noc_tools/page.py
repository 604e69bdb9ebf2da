"""Pages that are written twice: as HTML that stands alone, and as Markdown. Words between backticks are code."""
import re
from collections.abc import Iterable, Sequence
from html import escape
from typing import NamedTuple

STYLE = """
  body { font: 15px/1.5 "DejaVu Sans", Arial, sans-serif; margin: 24px auto; padding: 0 16px; max-width: 1160px; }
  h1 { font-size: 24px; } h2 { font-size: 18px; margin-top: 28px; }
  table { border-collapse: collapse; } td, th { text-align: left; padding: 2px 14px 2px 0; vertical-align: top; }
  code, pre { font-family: "DejaVu Sans Mono", monospace; font-size: 13px; } td code { word-break: break-all; }
  pre { background: #f4f4f4; padding: 8px 12px; overflow: auto; }
  .picture { overflow: auto; border: 1px solid #cccccc; }
  .dependency:hover path { stroke-width: 4; stroke-opacity: 1; }
  @media print { .picture svg { max-width: 100%; height: auto; } }
"""


def in_html(words: str) -> str:
    """A line as HTML."""
    return re.sub(r"`([^`]*)`", r"<code>\1</code>", escape(words))


class Block(NamedTuple):
    """A part of a page, in both forms."""

    html: str
    markdown: str


def heading(words: str) -> Block:
    """A heading."""
    return Block(f"<h2>{in_html(words)}</h2>", f"## {words}")


def paragraph(words: str) -> Block:
    """A paragraph."""
    return Block(f"<p>{in_html(words)}</p>", words)


def listed(items: Sequence[str]) -> Block:
    """A list."""
    lines = [f"<li>{in_html(item)}</li>" for item in items]
    return Block("\n".join(["<ul>", *lines, "</ul>"]), "\n".join(f"- {item}" for item in items))


def tabled(header: Sequence[str], rows: Sequence[Sequence[str]]) -> Block:
    """A table below a header."""
    def row(cells: Sequence[str], tag: str) -> str:
        return "<tr>" + "".join(f"<{tag}>{in_html(cell)}</{tag}>" for cell in cells) + "</tr>"

    lines = [row(header, "th"), *(row(cells, "td") for cells in rows)]
    plain = [f"| {' | '.join(cells)} |" for cells in [header, ["---"] * len(header), *rows]]
    return Block("\n".join(["<table>", *lines, "</table>"]), "\n".join(plain))


def verbatim(lines: Sequence[str]) -> Block:
    """Lines of files and commands, as they are."""
    return Block(f"<pre>{escape(chr(10).join(lines))}</pre>", "\n".join(["```", *lines, "```"]))


def pictured(words: str, file: str, svg: str) -> Block:
    """A picture, which the Markdown takes from a file."""
    return Block(f'<div class="picture">\n{svg}</div>', f"![{words}]({file})")


def linked(words: str, file: str) -> Block:
    """A link to a file beside the page."""
    return Block(f'<p><a href="{escape(file)}">{in_html(words)}</a></p>', f"[{words}]({file})")


def html(title: str, blocks: Iterable[Block]) -> str:
    """A page as HTML."""
    head = f'<!DOCTYPE html>\n<html lang="en">\n<head>\n<meta charset="utf-8">\n<title>{escape(title)}</title>'
    body = "\n".join(block.html for block in blocks)
    return f"{head}\n<style>{STYLE}</style>\n</head>\n<body>\n<h1>{escape(title)}</h1>\n{body}\n</body>\n</html>\n"


def markdown(title: str, blocks: Iterable[Block]) -> str:
    """A page as Markdown."""
    return "\n\n".join([f"# {title}", *(block.markdown for block in blocks)]) + "\n"
