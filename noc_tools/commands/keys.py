"""Prints a configuration with some of its keys set.

A value is written as in TOML, as in channels=4 or 'radix=[8, 8]'; a word needs no quotes, as in rule=dateline. A key
that no configuration has is refused, and so is a value of another type; of a key that is given twice the last value
counts. All seven keys are printed, a line for each, without the comments of CONFIG. A key that CONFIG lacks has to be
set. Where CONFIG is a joined text (docs/FORMATS.md), its dividing line and its traffic follow as they are.

For example:

    noc-tools keys config.toml channels=4 rule=dateline > other.toml
"""
import re
import tomllib
from argparse import ArgumentParser, Namespace
from typing import Any

from ..arguments import add, add_config
from ..errors import Refused, refusing
from ..files import read_text
from ..network import network_of, settings_of

DIVIDING_LINE = re.compile(r"^---\r?\n", re.MULTILINE)
WORD = re.compile(r"[a-z]+(-[a-z]+)*")


def add_arguments(parser: ArgumentParser) -> None:
    add_config(parser)
    add(parser, "words KEY=VALUE", "a value as in TOML; a word needs no quotes", nargs="*")


def setting(word: str) -> tuple[str, Any]:
    """The key and the value of a word KEY=VALUE."""
    key, equals, text = word.partition("=")
    key, text = key.strip(), text.strip()
    if not equals:
        raise Refused(f"'{word}' is no KEY=VALUE")
    try:
        read = tomllib.loads(f"value = {text}")
    except ValueError:
        read = {"value": text} if WORD.fullmatch(text) else {}
    if list(read) != ["value"]:
        raise Refused(f"{text!r} is no value of TOML")
    return key, read["value"]


def main(options: Namespace) -> None:
    words = dict(map(setting, options.words))
    text = read_text(options.config, "configuration")
    divided = DIVIDING_LINE.search(text)
    with refusing(ValueError, f"{options.config}: "):
        network = network_of(settings_of(text[:divided.start()] if divided else text) | words)
    print(network.text() + (text[divided.start():] if divided else ""), end="")
