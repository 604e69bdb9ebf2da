"""A study on many machines: its parts by GNU parallel and by Slurm, and its cases by joblib and by
dask.

Each is left out where it is not installed. Slurm has one node here, which is this machine.
"""
import os
import shutil
import socket
import subprocess
import sys
import time
import unittest
from importlib.util import find_spec
from pathlib import Path

from support import PROGRAM, FolderTest

SMALL = """\
kind = "mesh"
radix = [4, 4]
rule = ["dor", "west-first"]
channels = 2
buffer = 2
length = 2
load = [0.1, 0.6]
seed = [1, 2]
cycles = 200
"""
# The daemons need no other program here, and let each one in who can call them.
SLURM = """\
ClusterName=here
SlurmctldHost={host}(127.0.0.1)
SlurmctldPort={ports[0]}
SlurmdPort={ports[1]}
AuthType=auth/none
CredType=cred/none
SlurmUser={user}
SlurmdUser={user}
StateSaveLocation={folder}/state
SlurmdSpoolDir={folder}/spool
SlurmctldPidFile={folder}/slurmctld.pid
SlurmdPidFile={folder}/slurmd.pid
ProctrackType=proctrack/pgid
TaskPlugin=task/none
JobAcctGatherType=jobacct_gather/none
SelectType=select/cons_tres
SelectTypeParameters=CR_CPU
MpiDefault=none
NodeName={host} NodeAddr=127.0.0.1 CPUs=2
PartitionName=all Nodes={host} Default=YES
"""
BY_JOBLIB = """
from joblib import Parallel, delayed
from noc_tools import Study
from noc_tools.study import line_of
with Study("study.toml", "joblib.out") as study:
    study.take(Parallel(n_jobs=2)(delayed(line_of)(case) for case in study.open_cases()))
"""
BY_DASK = """
from distributed import Client
from noc_tools import Study
from noc_tools.results import line_of
if __name__ == "__main__":
    with Client(n_workers=2, threads_per_worker=1, dashboard_address=None) as client:
        with Study("study.toml", "dask.out") as study:
            study.take(client.gather(client.map(line_of, study.open_cases())))
"""


def free_ports(count: int) -> list[int]:
    """So many ports on which nobody listens."""
    sockets = [socket.socket() for _ in range(count)]
    for each in sockets:
        each.bind(("127.0.0.1", 0))
    found = [each.getsockname()[1] for each in sockets]
    for each in sockets:
        each.close()
    return found


class ClusterTest(FolderTest):
    """A study of eight runs, and the lines that a sweep makes of it."""

    FILES = {"study.toml": SMALL}
    lines: list[bytes]

    @classmethod
    def setUpClass(cls) -> None:
        super().setUpClass()
        (cls.folder / "study.toml").write_text(SMALL)
        words = [sys.executable, "noc-tools", "sweep", "study.toml", "--jobs", "2"]
        subprocess.run(words, check=True, cwd=cls.folder, env=cls.environment, stdout=subprocess.DEVNULL)
        cls.lines = cls.lines_in("study")

    @classmethod
    def lines_in(cls, name: str) -> list[bytes]:
        """The lines of a folder's results, but for the header."""
        return sorted((cls.folder / name / "results.csv").read_bytes().splitlines()[1:])

    def assertCollected(self, name: str, files: list[str]) -> None:
        """Takes what was printed into a folder: the same lines byte for byte."""
        ran = self.tool("sweep", "study.toml", "--out", name, "--collect", *files)
        self.assertEqual((ran.returncode, self.lines_in(name)), (0, self.lines), ran.stderr)


@unittest.skipUnless(shutil.which("parallel"), "there is no GNU parallel here")
class ByParallel(ClusterTest):
    def test_parts_are_made(self) -> None:
        """Three parts, two at a time."""
        words = [sys.executable, "noc-tools", "sweep", "study.toml", "--out", "by.out", "--jobs", "1", "--part", "{}/3"]
        ran = self.called(["parallel", "--will-cite", "--jobs", "2", *words, ":::", "1", "2", "3"])
        self.put(lines=ran.stdout)
        self.assertEqual(ran.returncode, 0, ran.stderr)
        self.assertCollected("by.out", ["lines"])

    def test_commands_are_called(self) -> None:
        """Those of --list; each has a line in the log, by which parallel goes on after a stop."""
        commands = self.said("sweep", "study.toml", "--out", "each.out", "--list")
        words = ["parallel", "--will-cite", "--jobs", "2", "--joblog", "log", "--resume"]
        self.put(lines=self.called(words, input=commands).stdout)
        again = self.called(words, input=commands).stdout
        self.assertEqual(((self.folder / "log").read_text().count("\n"), again), (9, ""))
        self.assertCollected("each.out", ["lines"])


@unittest.skipUnless(shutil.which("sbatch") and shutil.which("slurmctld"), "there is no Slurm here")
class BySlurm(ClusterTest):
    def setUp(self) -> None:
        super().setUp()
        host = socket.gethostname().split(".")[0]
        home = self.folder / "slurm"
        for name in ("state", "spool"):
            (home / name).mkdir(parents=True)
        user = os.environ.get("USER", "root") if os.getuid() else "root"
        (home / "slurm.conf").write_text(SLURM.format(host=host, folder=home, ports=free_ports(2), user=user))
        self.slurm = {**self.environment, "SLURM_CONF": str(home / "slurm.conf")}
        for words in (["slurmctld", "-D", "-i"], ["slurmd", "-D"]):
            log = self.enterContext(open(home / f"{words[0]}.log", "w"))
            daemon = subprocess.Popen(words, env=self.slurm, stdout=log, stderr=log, stdin=subprocess.DEVNULL)
            self.addCleanup(daemon.wait)
            self.addCleanup(daemon.terminate)
        self.wait_for_the_node(home)

    def wait_for_the_node(self, home: Path) -> None:
        """Waits until the node is idle; where it does not come up, the logs say why."""
        late = time.monotonic() + 60
        while "idle" not in self.called(["sinfo", "--noheader", "--format", "%T"], env=self.slurm).stdout:
            if late < time.monotonic():
                self.skipTest("\n".join(path.read_text()[-300:] for path in home.glob("*.log")))
            time.sleep(0.2)

    def test_a_job_array_makes_the_parts(self) -> None:
        """A task for each of three parts, as examples/README.md calls it."""
        part = './noc-tools sweep study.toml --out array.out --jobs 1 --part "$SLURM_ARRAY_TASK_ID/3"'
        words = ["sbatch", "--array=1-3", "--wait", "--output=lines_%a", "--error=errors_%a", f"--wrap={part}"]
        ran = self.called(words, env=self.slurm)
        errors = [(self.folder / f"errors_{number}").read_text() for number in (1, 2, 3)]
        self.assertEqual((ran.returncode, errors), (0, [""] * 3), ran.stderr)
        self.assertCollected("array.out", ["lines_1", "lines_2", "lines_3"])


class ByAnEngine(ClusterTest):
    def by(self, script: str, folder: str) -> None:
        """What a script leaves in a folder."""
        self.put(**{"script.py": script})
        ran = self.called([sys.executable, "script.py"], env={**self.environment, "NOC": str(PROGRAM)})
        self.assertEqual(ran.returncode, 0, ran.stderr)
        self.assertEqual(self.lines_in(folder), self.lines)

    @unittest.skipUnless(find_spec("joblib"), "there is no joblib here")
    def test_joblib_makes_the_lines(self) -> None:
        self.by(BY_JOBLIB, "joblib.out")

    @unittest.skipUnless(find_spec("distributed"), "there is no dask here")
    def test_dask_makes_the_lines(self) -> None:
        self.by(BY_DASK, "dask.out")
