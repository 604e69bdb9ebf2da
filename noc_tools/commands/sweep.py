"""Makes a study: runs all combinations of settings, and draws them.

    sweep STUDY.toml                    makes the runs that have no result yet, and draws
    sweep STUDY.toml --list             prints a command for each run that has no result yet
    sweep STUDY.toml --part K/N         makes the K-th of N parts of these runs, and prints their lines
    sweep STUDY.toml --collect FILE..   takes the lines that these commands printed, and draws
    sweep STUDY.toml --verify N         makes N of the runs again, and compares each line byte for byte
    sweep --one SETTING=VALUE..         makes one run and prints its line, as the commands of --list do

STUDY.toml gives each setting a value, or a list of values that are combined with those of all others. The settings are

    network    kind, radix, rule, table, channels, buffer, classes, cycles
    traffic    pattern, length, load, seed, spots, share, burst, packet_classes, replies; or files: traffic
    measures   window, measured_classes, parts, tolerance; loads in bytes: flit_bytes, packet_bytes, unit
    study      cases, search, at, frames, colour, dash, along

and docs/STUDIES.md says what each of them is. FOLDER is STUDY without '.toml' where it is not given. Into it go
results.csv, with a line for each run as it comes, and when all are there latency.svg, p95.svg, p99.svg, accepted.svg
and saturation.csv, with a line for each combination. That table is printed too:

    mean, p95, p99   the latency at the lowest load, or at that of `at`; *_margin: how well it is known
    keeps_up_to      what is accepted at the greatest load up to which the network keeps up
    steady_to        the same of the loads up to which most runs are steady
    saturation       the greatest accepted load
    bound, capacity  what links and ports allow of the pattern, and of uniform traffic
    deadlock_free    whether no traffic brings the network to a deadlock
    stuck            how many runs stood still

A head that has a choice, as by the rule adaptive, asks for the idle channel of least index. So latencies may get worse
with more channels, which is a rule of the model.

docs/FIGURES.md says what these words mean, and docs/STUDIES.md has all columns. A sweep that was interrupted or killed
goes on where it was when it is called again. The runs are made side by side, N or as many as processors that may be
used. Where the study is to run on many machines, each makes a part (--part), and all lines go to --collect.
"""
import shlex
import shutil
import signal
import sys
import time
from argparse import ArgumentParser, ArgumentTypeError, Namespace
from pathlib import Path
from tempfile import TemporaryDirectory

from ..arguments import add, add_jobs, add_top, check_top, warn
from ..errors import Refused
from ..files import csv_line
from ..study.plan import case_of
from ..study.results import RESULTS, command_of, line_of
from ..study import Study, folder_of
from ..pool import check_jobs

# The status of what a signal ends, and that of an interrupt.
OF_SIGNALS, INTERRUPTED = 128, 130


def part(words: str) -> tuple[int, int]:
    """Which one of how many parts."""
    number, slash, count = words.partition("/")
    if not (number.isdecimal() and slash and count.isdecimal() and 1 <= int(number) <= int(count)):
        raise ArgumentTypeError(f"'{words}' is no K/N with K from 1 to N, as 3/8")
    return int(number), int(count)


def add_arguments(parser: ArgumentParser) -> None:
    add(parser, "study STUDY.toml", "the settings", nargs="?")
    add(parser, "--out FOLDER", "where results and pictures go; by default STUDY")
    add_jobs(parser)
    add_top(parser, "--top LATENCY", "where the pictures of latency end")
    add(parser, "--list", "print a command for each run that has no result yet")
    add(parser, "--part K/N", "make the K-th of N parts of these runs, and print their lines", type=part)
    add(parser, "--collect FILE", "take the lines that these commands printed", nargs="+")
    add(parser, "--verify N", "make N runs again, spread over all, and compare their lines byte for byte", type=int)
    add(parser, "--one SETTING=VALUE", "make one run and print its line", nargs="+")
    add(parser, "--files FOLDER", "with --one: keep the configuration and the traffic there")


class Progress:
    """A line on the terminal that says how far a sweep is."""

    def __init__(self) -> None:
        self.done, self.start = 0, time.monotonic()
        self.is_shown = sys.stderr.isatty()

    def step(self, left: int) -> None:
        """One run more is there, and so many are left."""
        self.done += 1
        passed = time.monotonic() - self.start
        rest = passed / self.done * left
        self.say(f"\r{self.done} of {self.done + left} runs, {passed:.0f} s, about {rest:.0f} s to go \033[K")

    def __enter__(self) -> "Progress":
        return self

    def __exit__(self, *details: object) -> None:
        self.say("\n" if self.done else "")

    def say(self, words: str) -> None:
        """Says something where a person sees it."""
        if self.is_shown:
            print(words, end="", file=sys.stderr, flush=True)


def sweep(study: Study, options: Namespace) -> int:
    """Makes what is to be made, and shows it."""
    if options.collect:
        study.collect(options.collect)
    try:
        with Progress() as progress:
            if options.verify is not None:
                print(study.verify(options.verify, options.jobs, progress.step))
                return 0
            study.make(options.jobs, progress.step)
    except KeyboardInterrupt:
        warn(options, ["interrupted; the same command goes on"])
        return INTERRUPTED
    warn(options, [
        study.told_of_program(), study.told_of_deadlock(), study.told_of_short_runs(), study.told_of_warm_up(),
        study.told_of_silence(), study.told_of_room(),
    ])
    study.draw(options.top)
    sys.stdout.write(study.table_text())
    return 0


def print_line(fields: list[str]) -> None:
    """Prints the line of a run as soon as it is there."""
    sys.stdout.write(csv_line(fields))
    sys.stdout.flush()


def make_part(options: Namespace) -> int:
    """Makes a part of the runs that have no result yet, and prints their lines.

    The study has a folder of its own with a copy of the results that are there. So it neither waits for the folder nor
    writes into it, and parts are made side by side. A job that a cluster ends takes this folder with it.
    """
    signal.signal(signal.SIGTERM, lambda number, _: sys.exit(OF_SIGNALS + number))
    number, count = options.part
    there = folder_of(options.study, options.out) / RESULTS
    with TemporaryDirectory(prefix="noc-sweep-") as folder:
        if there.exists():
            shutil.copy(there, folder)
        try:
            with Study(options.study, folder) as study, Progress() as progress:
                study.make_part(number, count, options.jobs, print_line, progress.step)
        except KeyboardInterrupt:
            warn(options, ["interrupted; --collect takes the lines that are printed"])
            return INTERRUPTED
    return 0


def check(options: Namespace) -> None:
    """Refuses words that do not go together."""
    if (options.study is None) == (options.one is None):
        raise Refused("either STUDY.toml or --one is needed")
    check_jobs(options.jobs)
    check_top(options.top)
    others = [options.top, options.collect, options.list or None, options.verify]
    if options.one and [options.out, options.part, *others] != [None] * (2 + len(others)):
        raise Refused("--one takes --files and nothing else")
    if options.list and (options.collect or options.verify is not None):
        raise Refused("--list only prints commands: --collect and --verify are for another call")
    if options.part and others != [None] * len(others):
        raise Refused("--part takes --out and --jobs, and nothing else")
    if options.files and not options.one:
        raise Refused("--files is for --one")


def main(options: Namespace) -> int:
    check(options)
    if options.one:
        sys.stdout.write(csv_line(line_of(case_of(options.one), Path(options.files) if options.files else None)))
        return 0
    if options.part:
        return make_part(options)
    with Study(options.study, options.out) as study:
        if not options.list:
            return sweep(study, options)
        for case in study.open_cases():
            print(shlex.join(command_of(case)))
    return 0
