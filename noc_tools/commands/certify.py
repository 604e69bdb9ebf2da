"""Makes a certificate of deadlock freedom, or checks one again.

A certificate is a folder with a page, and with all that is needed to repeat what the page says:

    certify CONFIG --out FOLDER              by the ranks of the rule's formula (dor on a mesh, dateline, west-first,
                                             adaptive)
    certify CONFIG --out FOLDER --ranks F    by the ranks in a file
    certify CONFIG --out FOLDER --find       by ranks that are found, as by 'noc-tools ranks': of all channels, or else
                                             of the lowest channels of each class as escape channels
    certify --verify FOLDER                  makes all files again, compares them byte by byte, and names each that
                                             differs or is missing, with status 1

With the rule 'table' --table names the table. 'noc check' has to accept the ranks, and what it refuses is refused
here, with its line and status. FOLDER is empty or not there. It gets the configuration, the table, the ranks, the
answer of 'noc check', program.txt (version and digest of the program, and the kit that built it), SHA256SUMS with the
digests of all files, and the page: certificate.html, which stands alone, and certificate.md with graph.svg. The page is
a function of the other files and of the program.

Where --find finds a circle in place of ranks, the status is 1, and FOLDER shows why: the circle hop by hop, the
smallest traffic that gets stuck on it, as 'noc-tools shrink' finds it, and replay.html, the page that plays it.

CONFIG and the F are read once, at the beginning: what is certified is what was checked, whatever is saved meanwhile.
To verify a jam takes up to two runs for each of its packets, and no search.
"""
from argparse import ArgumentParser, Namespace

from ..arguments import add, add_table, warn
from ..certificate import CERTIFICATE, COUNTEREXAMPLE, copied, made_with_ranks, read_given, room, stuck, write_all
from ..errors import Refused
from ..jam import jam_of_circle
from ..ranks import NoRanks
from ..verification import verify


def add_arguments(parser: ArgumentParser) -> None:
    add(parser, "config CONFIG", "the configuration", nargs="?")
    add(parser, "--out FOLDER", "where the certificate goes")
    add_table(parser)
    ranks = parser.add_mutually_exclusive_group()
    add(ranks, "--ranks F", "a rank file; without one the ranks of the rule's formula")
    add(ranks, "--find", "find ranks, or a circle")
    add(parser, "--verify FOLDER", "make the files of a folder again, and compare")


def verified(options: Namespace) -> int:
    """Says whether a folder is what it was."""
    if options.config or options.out or options.table or options.ranks or options.find:
        raise Refused("--verify takes a folder and nothing else")
    is_right = True
    for line in verify(options.verify):
        print(line)
        is_right = False
    if is_right:
        print("each file is as it was made")
    return 0 if is_right else 1


def main(options: Namespace) -> int:
    if options.verify:
        return verified(options)
    if not (options.config and options.out):
        raise Refused("CONFIG and --out FOLDER are needed, or --verify FOLDER")
    with (
        room(options.out) as folder,
        copied(read_given(options.config, options.table, options.ranks)) as inputs,
    ):
        try:
            write_all(made_with_ranks(inputs, options.find), folder)
        except NoRanks as reason:
            jam = jam_of_circle(inputs.config, inputs.table)
            write_all(stuck(inputs, jam), folder)
            warn(options, [str(reason), f"{jam.told()}, shown in {options.out}/{COUNTEREXAMPLE}.html"])
            return 1
    print(f"accepted, and certified in {options.out}/{CERTIFICATE}.html")
    return 0
