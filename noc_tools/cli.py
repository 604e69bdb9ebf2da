"""The command line: runs a command of this package, and says in one line why it cannot go on."""
import csv
import os
import sys
from argparse import ArgumentParser, Namespace, RawDescriptionHelpFormatter
from collections.abc import Callable, Iterable, Sequence
from importlib import import_module
from io import BufferedWriter, FileIO, TextIOWrapper
from signal import SIG_DFL, SIGHUP, SIGINT, SIGPIPE, SIGTERM, default_int_handler, getsignal, signal
from textwrap import fill
from typing import Any

from . import __version__
from .errors import Refused

NAME = "noc-tools"
# What commands are for, and their names, in the order of the help.
GROUPS = {
    "Ask what a run did, and why": ["why", "timeline", "replay", "stalls", "energy", "latency"],
    "Study networks under load": [
        "load", "sweep", "draw", "curves", "traffic", "packets", "replies", "settle", "booksim", "keys", "limit",
    ],
    "Prove, and check a design": ["ranks", "table", "certify", "shrink", "compare", "assertions", "memories", "waves"],
}
COMMANDS = [name for names in GROUPS.values() for name in names]
USAGE = f"""usage: {NAME} COMMAND WORD..
  or:  {NAME} help [COMMAND]
  or:  {NAME} --version

Commands over the simulator noc. '{NAME} COMMAND --help' tells all of one.
CONFIG and TRAFFIC are the files of 'noc run' in all of them: a network, and its
packets (docs/FORMATS.md).
"""
WRONG_WORDS = 2
# A shell says of a program that a signal ends this status and the signal's number.
OF_SIGNALS = 128


class Output(FileIO):
    """Standard output, whose errors name it."""

    def write(self, data: Any) -> Any:
        """Writes as a file does."""
        try:
            return super().write(data)
        except OSError as error:
            error.filename = "standard output"
            raise


def open_output() -> None:
    """Makes standard output UTF-8 in every locale; names of files go out as they came in."""
    if sys.stdout is None:
        raise Refused("standard output is closed")
    raw = Output(sys.stdout.fileno(), "wb", closefd=False)
    is_line = raw.isatty()
    sys.stdout = TextIOWrapper(BufferedWriter(raw), "utf-8", "surrogateescape", line_buffering=is_line)


def open_errors() -> None:
    """Where standard error is closed, what is said there goes nowhere; Python would say it on standard output."""
    if sys.stderr is None:
        sys.stderr = open(os.devnull, "w")


def drop_output() -> None:
    """Lets what is not yet written go nowhere, so that the end does not fail again."""
    os.dup2(os.open(os.devnull, os.O_WRONLY), sys.stdout.fileno())


def reason_of(error: Exception) -> str:
    """Why a command cannot go on, in words."""
    match error:
        case OSError():
            return f"{error.filename}: {error.strerror}" if error.filename else str(error.strerror or error)
        case MemoryError():
            return "there is not enough memory"
        case RecursionError():
            return "what was read is nested too deep"
        case UnicodeDecodeError():
            return "what was read is not UTF-8"
        case csv.Error():
            return f"what was read is no CSV: {error}"
    return str(error)


def told(reason: Refused, name: str) -> str:
    """What is said of a refusal: the line of noc as it is, and what this package says in the name of the command."""
    line, _, more = str(reason).partition("\n")
    if reason.status <= 1:
        return f"{name}: {reason}"
    return f"{line}\n{name}: {more}" if more else line


def end_by(number: int, _: object) -> None:
    """Ends this process after a signal, in order, so that no file of its own is left."""
    raise SystemExit(OF_SIGNALS + number)


def heed_signals() -> None:
    """Has signals end this process in order, but for those that whoever called it has it ignore."""
    for number, handler in ((SIGINT, default_int_handler), (SIGTERM, end_by), (SIGHUP, end_by)):
        if getsignal(number) is SIG_DFL:
            signal(number, handler)


def guarded(name: str, run: Callable[[], int]) -> int:
    """The status of what runs, without a traceback where output or input is at fault: a sentence says why.

    A reader that went away, or an interrupt, ends it without a word, with the status of a program that the signal
    ends. What noc refuses has the line and the status of noc.
    """
    try:
        open_output()
        try:
            return run()
        finally:
            sys.stdout.flush()
    except BrokenPipeError:
        drop_output()
        return OF_SIGNALS + SIGPIPE
    except KeyboardInterrupt:
        drop_output()
        return OF_SIGNALS + SIGINT
    except Refused as reason:
        print(told(reason, name), file=sys.stderr)
        return reason.status
    except (OSError, MemoryError, RecursionError, UnicodeDecodeError, csv.Error) as error:
        drop_output()
        print(f"{name}: {reason_of(error)}", file=sys.stderr)
        return 1


def module_of(command: str) -> Any:
    """The module of a command."""
    return import_module(f"{__package__}.commands.{command}")


def list_of_commands() -> str:
    """All commands by what they are for, each with the first line of its help."""
    lines = [USAGE]
    for what_for, names in GROUPS.items():
        lines.append(f"\n{what_for}:\n")
        lines += [f"  {name:11} {module_of(name).__doc__.splitlines()[0]}\n" for name in names]
    return "".join(lines)


def say(text: str) -> int:
    """Prints something that was asked for."""
    sys.stdout.write(text)
    return 0


def nearest(word: str, words: Iterable[str]) -> str:
    """A question for the word that may have been meant, where one is near."""
    from difflib import get_close_matches
    near = get_close_matches(word, words, n=1)
    return f"; did you mean '{near[0]}'?" if near else ""


class Help(RawDescriptionHelpFormatter):
    """Paragraphs as wide as the terminal, and lines that are indented as they stand."""

    def _fill_text(self, text: str, width: int, indent: str) -> str:
        paragraphs = text.strip().split("\n\n")
        return "\n\n".join(each if each.startswith(" ") else fill(each, width, break_on_hyphens=False)
                           for each in paragraphs)


def parser_of(command: str) -> ArgumentParser:
    """The words that a command takes; its help is the text of its module. An option may not be shortened, so that a
    new one changes nothing for who wrote an old one."""
    module = module_of(command)
    parser = ArgumentParser(f"{NAME} {command}", description=module.__doc__, allow_abbrev=False, formatter_class=Help)
    module.add_arguments(parser)
    parser.set_defaults(name=parser.prog)
    return parser


def options_of(parser: ArgumentParser, words: Sequence[str]) -> Namespace:
    """What the words ask for; of an option that is not there the nearest is named."""
    options, unknown = parser.parse_known_args(words)
    if unknown:
        name = next((word for word in unknown if word.startswith("--")), "").partition("=")[0]
        known = (option for action in parser._actions for option in action.option_strings)
        parser.error(f"unrecognized arguments: {' '.join(unknown)}{nearest(name, known)}")
    return options


def run_command(command: str, words: Sequence[str]) -> int:
    """Runs one command by its words."""
    return module_of(command).main(options_of(parser_of(command), words)) or 0


def refuse_command(command: str) -> int:
    """Says on standard error that there is no such command, and which may have been meant."""
    hint = nearest(command, COMMANDS) or f"; '{NAME} help' lists all"
    print(f"{NAME}: there is no command '{command}'{hint}", file=sys.stderr)
    return WRONG_WORDS


def main(words: Sequence[str] | None = None) -> int:
    """Runs the command of the words, by default those of the process, and returns its status."""
    open_errors()
    heed_signals()
    given = list(sys.argv[1:] if words is None else words)
    match given:
        case []:
            print(list_of_commands(), end="", file=sys.stderr)
            return WRONG_WORDS
        case ["-V" | "--version", *_]:
            return guarded(NAME, lambda: say(f"{NAME} {__version__}\n"))
        case ["-h" | "--help", *_] | ["help"]:
            return guarded(NAME, lambda: say(list_of_commands()))
        case ["help", command, *_]:
            given = [command, "--help"]
    command, *rest = given
    if command not in COMMANDS:
        return refuse_command(command)
    return guarded(f"{NAME} {command}", lambda: run_command(command, rest))
