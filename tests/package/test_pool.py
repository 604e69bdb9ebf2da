"""Processes of a pool, whatever way Python begins a process by itself, and the Python that they
want."""
import ast
import sys

from support import TOP, FolderTest

# Python begins processes by a server from 3.14 on. A file is locked that has each of these numbers
# in turn, or the next free one, as one has that a script opens behind many others.
NUMBERS = range(3, 21)
BY_A_SERVER = f"""
import fcntl
import multiprocessing
import os
from noc_tools.pool import Pool

def twice(folder, item):
    return 2 * item

if __name__ == "__main__":
    multiprocessing.set_start_method("forkserver")
    for number in {NUMBERS!r}:
        file = os.open("locked", os.O_RDWR | os.O_CREAT)
        locked = fcntl.fcntl(file, fcntl.F_DUPFD, number)
        os.close(file)
        with Pool(twice, 2, [locked]) as pool:
            print(*sorted(pool.made([1, 2, 3]), key=str))
        os.close(locked)
"""
# Studies in a script that has one file open, then two, and so on.
STUDY_BY_A_SERVER = """
import multiprocessing
import noc_tools

if __name__ == "__main__":
    multiprocessing.set_start_method("forkserver")
    settings = {"kind": "mesh", "radix": [3], "rule": "dor", "channels": 1, "buffer": 2, "length": 1, "cycles": 60}
    opened = []
    for _ in range(9):
        opened.append(open("c"))
        with noc_tools.Study({**settings, "load": [0.1, 0.2]}) as study:
            print(len(study.make(2).rows()))
"""
OLDER = """
import runpy
import sys
sys.version_info, sys.version = (3, 10, 12), "3.10.12 (main)"
runpy.run_path("noc-tools", run_name="__main__")
"""


class Begun(FolderTest):
    def test_a_locked_file_is_let_go_of_whatever_its_number(self) -> None:
        """Three numbers are doubled, though a process that the server begins has other files by
        these numbers."""
        self.put(**{"twice.py": BY_A_SERVER})
        said = self.called([sys.executable, "twice.py"]).stdout.splitlines()
        self.assertEqual(said, ["(0, 2) (1, 4) (2, 6)"] * len(NUMBERS))

    def test_a_study_is_made_whatever_files_are_open(self) -> None:
        self.put(**{"study.py": STUDY_BY_A_SERVER})
        ran = self.called([sys.executable, "study.py"])
        self.assertEqual((ran.stdout, ran.stderr), (9 * "2\n", ""))


class Older(FolderTest):
    def test_an_older_python_is_told_which_is_needed(self) -> None:
        """In one sentence, which the Python of ten years ago can read."""
        ran = self.called([sys.executable, "-c", OLDER])
        told = "noc-tools: Python 3.11 or a later one is needed, and this is 3.10.12\n"
        self.assertEqual((ran.returncode, ran.stdout, ran.stderr), (1, "", told))
        ast.parse((TOP / "noc-tools").read_text(), feature_version=(3, 4))
