#!/usr/bin/env python3
"""Prints docs/INTERFACE.md: what a script or a notebook finds in noc_tools, from the docstrings of
the package.

    python3 tests/pages/interface.py > docs/INTERFACE.md

Each public name has its signature and its docstring. A class has its fields, and each public method
and property that it defines itself.
"""
import inspect
import re
import sys
import textwrap
from collections.abc import Iterator
from pathlib import Path
from typing import Any

TOP = Path(__file__).resolve().parents[2]
sys.path.insert(0, str(TOP))
import noc_tools  # noqa: E402
from noc_tools import runs  # noqa: E402

HEAD = """# The Python interface

What `import noc_tools` gives a script or a notebook, as its docstrings say it. [A
section](../examples/README.md#in-a-notebook) of the examples shows it at work. `mypy` sees the same
types. A `Config` is a `Network` or the path of a configuration, and a `Traffic` is packets, a
`Demand` or the path of a traffic file.
`tests/pages/interface.py` prints this page.
"""
# What stands before the name of a type, and before that of a parameter which is a member's own
# object.
MODULES = re.compile(r"\b(?:noc_tools(?:\.\w+)+|pathlib(?:\._local)?|collections\.abc|typing)\.(?=\w)")
OWN = re.compile(r"^\((?:self|cls)(?:, )?")
# Types that are given as text, and a default that has no name.
TEXTS = re.compile(r"(?<=: )'([^']*)'|(?<=-> )'([^']*)'")
# What stands between two parameters.
PARAMETER = re.compile(r", (?=\*{0,2}\w+:)")
COLUMNS = 120
NAMELESS = re.compile(r"<function .*?0x\w+>")
ALIASES = {str(alias): name for name, alias in (("Config", runs.Config), ("Traffic", runs.Traffic))}


def plain(text: str) -> str:
    """Types by the names that a user knows."""
    for alias, name in ALIASES.items():
        text = text.replace(alias, name)
    return MODULES.sub("", NAMELESS.sub("..", TEXTS.sub(r"\1\2", text)))


def signature_of(function: Any) -> str:
    """The parameters of a function and what it returns, in a line."""
    return OWN.sub("(", plain(str(inspect.signature(function))))


def call_of(name: str, function: Any) -> str:
    """How a function is called, with a line for each parameter where it is too long for one
    line."""
    call = name + signature_of(function)
    if len(call) <= COLUMNS:
        return call
    parameters, _, result = call.removeprefix(f"{name}(").rpartition(") ->")
    lines = (f"    {each},\n" for each in PARAMETER.split(parameters))
    return f"{name}(\n{''.join(lines)}) ->{result}"


def item(text: str) -> str:
    """An item of a list, within the columns of a page."""
    lines = textwrap.wrap(f"- {text}", COLUMNS, subsequent_indent="  ", break_long_words=False,
                          break_on_hyphens=False)
    return "".join(f"{line}\n" for line in lines)


def docstring_of(thing: Any) -> str:
    """The docstring of something, whose words in quotes are code."""
    text = inspect.getdoc(thing) or ""
    assert text, f"{thing} has no docstring"
    return re.sub(r"'([^'\n]+)'", r"`\1`", text)


def fields_of(owner: Any) -> Iterator[str]:
    """The fields of a record, with their types and defaults."""
    types = inspect.get_annotations(owner)
    defaults = {name: getattr(owner, name) for name in types if hasattr(owner, name)}
    defaults = getattr(owner, "_field_defaults", defaults)
    for name in getattr(owner, "_fields", None) or getattr(owner, "__dataclass_fields__", {}):
        kind = types[name]
        kind = kind if isinstance(kind, str) else inspect.formatannotation(kind)
        default = f" = {defaults[name]!r}" if name in defaults else ""
        if not name.startswith("_"):
            yield item(f"`{name}: {plain(kind)}{default}`")


def members_of(owner: type) -> Iterator[str]:
    """The public methods and properties that a class defines itself."""
    for name, member in vars(owner).items():
        if name.startswith("_") or not (inspect.isroutine(member) or hasattr(member, "__get__")):
            continue
        held = (getattr(member, name, None) for name in ("fget", "func", "__func__"))
        function = next(filter(None, held), member)
        if not inspect.isfunction(function):
            continue
        is_called = function is member or isinstance(member, (classmethod, staticmethod))
        signature = signature_of(function)
        head = name + (signature if is_called else signature.replace("() ->", ":"))
        yield item(f"`{head}`: {' '.join(docstring_of(function).split())}")


def entry(name: str) -> str:
    """What the page says of a public name."""
    thing = getattr(noc_tools, name)
    if not inspect.isclass(thing):
        return f"### {name}\n\n```python\n{call_of(name, thing)}\n```\n\n{docstring_of(thing)}\n"
    parts = [f"### {name}\n\n{docstring_of(thing)}\n"]
    for part in (fields_of(thing), members_of(thing)):
        parts.append("".join(part))
    return "\n".join(filter(None, parts))


def page() -> str:
    """The whole page: functions, and then classes."""
    names = sorted(noc_tools.__all__, key=str.lower)
    classes = [name for name in names if inspect.isclass(getattr(noc_tools, name))]
    functions = [name for name in names if name not in classes]
    parts = [HEAD, "## Functions\n", *map(entry, functions), "## Classes\n", *map(entry, classes)]
    return "\n".join(parts)


if __name__ == "__main__":
    print(page(), end="")
