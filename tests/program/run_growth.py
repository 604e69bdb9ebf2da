#!/usr/bin/env python3
"""Refuses the growths of memory of tests one by one, counts them, and refuses threads.

    run_growth.py

The tests are those of noc_tests, as the gate has built them. Each test in REFUSED makes one call that takes memory,
beside those that make what it is given. With any one of its growths refused it says that memory, or a thread, was
refused, or all is as with ample memory. The tests in TAKES_NONE begin as the test MADE does, and go on with calls that
are to take no memory. So they ask for as many growths as that one. The tests in NO_THREAD run where no thread may
start: those by several workers say that a worker was refused, and the one by one worker passes. Calls that the program
makes are refused their growths by refused_growth.py. Each failure is shown, and the last line is 'N passed, M failed'.
The exit status is 0 where all passed, else 1.
"""
import re
import shutil
import subprocess
import sys
import tempfile
from pathlib import Path

from run_process import no_thread_more

TOP = Path(__file__).resolve().parents[2]
MOST_GROWTHS = 1000
BY_ONE = "growth::a_line_runs_by_one_worker"
BY_MANY = ["growth::a_line_runs_by_two_workers", "growth::a_line_runs_by_three_workers"]
MADE = "growth::a_line_is_made"
REFUSED = [
    "buffers::banks_go_to_a_thread_and_come_back_with_their_flits", "inputs::bytes_one_by_one_up_to_the_limit",
    "growth::a_router_and_a_plan_are_made", MADE, *BY_MANY,
]
TAKES_NONE = [
    "growth::a_line_runs_twice_and_is_read", "growth::a_core_of_a_line_is_read", "events::parts_make_the_network_again",
    "events::cycles_from_the_last_router_to_the_first", BY_ONE,
]
NO_THREAD = [BY_ONE, *BY_MANY]
NO_WORKER = re.compile(r"Error: (\w+\()*NoWorker\)*$", re.MULTILINE)
WANT = re.compile(r"Error: (\w+\()*(Memory|NoWorker|AllocError)\)*$", re.MULTILINE)


class Tests:
    """The tests, run one by one with one of their growths, or all threads, refused."""

    def __init__(self, room: Path) -> None:
        self.room = room
        self.program = TOP / "crates/noc_tests/out/noc_tests_tests"
        self.library, self.count = room / "refused_growth.so", room / "growths"

    def refusing(self, number: int, name: str) -> tuple[bool, str, int]:
        """Whether the test passed with this growth refused (none where it is 0), what was said, and how many growths
        it asked for."""
        self.count.unlink(missing_ok=True)
        env = {"LD_PRELOAD": str(self.library), "GROWTH_COUNT": str(self.count), "REFUSED_GROWTH": str(number)}
        ran = subprocess.run([self.program, name], capture_output=True, text=True, env=env)
        return *outcome(ran), int.from_bytes(self.count.read_bytes(), sys.byteorder)

    def without_threads(self, name: str) -> tuple[bool, str]:
        """Whether the test passed where no thread may start, and what was said. Another user may run it."""
        copy = shutil.copy(self.program, self.room)
        return outcome(subprocess.run([copy, name], capture_output=True, text=True, preexec_fn=no_thread_more))


def outcome(ran: subprocess.CompletedProcess[str]) -> tuple[bool, str]:
    """Whether a test passed, and what was said."""
    return ran.returncode == 0 and ran.stdout.endswith("test result: ok\n"), ran.stdout + ran.stderr


def refused(tests: Tests, name: str) -> str:
    """What is wrong with a test whose growths are refused in turn: it neither passes nor says what was refused."""
    told = 0
    for number in range(1, MOST_GROWTHS):
        passed, said, asked = tests.refusing(number, name)
        if not passed and (asked < number or not WANT.search(said)):
            return f"with growth {number} of {asked} refused: {said[-500:]}"
        told += not passed
        if asked < number:
            return "" if told else "no refusal is told"
    return "it asks for more growths than are refused"


def takes_none(tests: Tests, name: str) -> str:
    """What is wrong with a test that is to ask for no growth but those of the line that it begins with."""
    made, line, wanted = tests.refusing(0, MADE)
    passed, said, asked = tests.refusing(0, name)
    if made and passed and asked == wanted > 0:
        return ""
    return f"{asked} growths, and {wanted} for the line: {line[-200:]} {said[-500:]}"


def no_thread(tests: Tests, name: str) -> str:
    """What is wrong with a test where no thread may start."""
    passed, said = tests.without_threads(name)
    is_right = passed if name == BY_ONE else not passed and NO_WORKER.search(said)
    return "" if is_right else f"without a thread: {said[-500:]}"


def main() -> int:
    if len(sys.argv) != 1:
        print(__doc__)
        return 2
    outcomes: dict[str, str] = {}
    with tempfile.TemporaryDirectory() as folder:
        room = Path(folder)
        room.chmod(0o755)
        compiler = shutil.which("cc") or "gcc"
        source = Path(__file__).with_name("refused_growth.c")
        subprocess.run([compiler, "-shared", "-fPIC", "-O1", "-o", room / "refused_growth.so", source], check=True)
        tests = Tests(room)
        for looked, names in ((refused, REFUSED), (takes_none, TAKES_NONE), (no_thread, NO_THREAD)):
            outcomes |= {f"{looked.__name__} {name}": looked(tests, name) for name in names}
    for name, wrong in outcomes.items():
        if wrong:
            print(f"run_growth: {name}: {wrong}")
    failed = sum(bool(wrong) for wrong in outcomes.values())
    print(f"{len(outcomes) - failed} passed, {failed} failed")
    return 1 if failed else 0


if __name__ == "__main__":
    sys.exit(main())
