#!/usr/bin/env python3
"""Measures the command shrink on meshes of 8 by 8 routers on which packets may go any minimal way on all channels.

    jams.py [CHANNELS..]

A line for each number of channels (1, 2, 4 and 8 where none is given): the rows of the table, the seconds of the clock
and of processors, and what the command says. The program is the one that runs here.
"""
import resource
import subprocess
import sys
import time
from pathlib import Path
from tempfile import TemporaryDirectory

TOP = Path(__file__).resolve().parent.parent
sys.path += [str(TOP), str(TOP / "tests/package")]
from noc_tools.network import Network  # noqa: E402
from test_shrink import minimal_adaptive  # noqa: E402

TOOLS = TOP / "noc-tools"


def measure(channels: int, folder: Path) -> None:
    """Measures it on one network."""
    network = Network("mesh", (8, 8), channels, 2, 1, "table", 500)
    config, table, jam = (folder / name for name in ("c.toml", "table.csv", "jam.csv"))
    config.write_text(network.text())
    text = minimal_adaptive(network)
    table.write_text(text)
    begin, before = time.perf_counter(), resource.getrusage(resource.RUSAGE_CHILDREN)
    said = subprocess.run([TOOLS, "shrink", config, "--table", table, "--out", jam], stdout=subprocess.PIPE, check=True)
    end, after = time.perf_counter(), resource.getrusage(resource.RUSAGE_CHILDREN)
    took = after.ru_utime - before.ru_utime + after.ru_stime - before.ru_stime
    rows = text.count("\n") - 1
    print(f"{channels} channels, {rows} rows: {end - begin:.1f} s, of processors {took:.1f} s:", said.stdout.decode(),
          end="", flush=True)


def main() -> None:
    with TemporaryDirectory() as folder:
        for channels in map(int, sys.argv[1:] or ["1", "2", "4", "8"]):
            measure(channels, Path(folder))


if __name__ == "__main__":
    main()
