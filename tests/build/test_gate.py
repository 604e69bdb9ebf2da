"""What bench/gate_costs.py makes of samples of a gate, and that it samples what a command begins."""
import importlib.util
import json
import sys
import tempfile
import unittest
from pathlib import Path

from support import TOP

SPEC = importlib.util.spec_from_file_location("gate_costs", TOP / "bench/gate_costs.py")
gate_costs = importlib.util.module_from_spec(SPEC)
sys.modules["gate_costs"] = gate_costs
SPEC.loader.exec_module(gate_costs)

RT, GUARD = "/usr/bin/python3 /kit/bin/rt ci --anew ", "python -ISc import os "


def rattle(command: str, crate: str, more: str = "src/lib.rt -o x") -> str:
    return f"/kit/bin/rattle {command} --crate-name {crate} {more} "


BUILD, CHECK = rattle("build", "noc_topo"), rattle("check", "noc_topo")
RUN = "/tmp/rt-run-7-x/bin/noc_tests_tests "
# A gate of four crates, worked out by hand. Each line has the time, and of each process its number, its parent, its own
# seconds, those of its children that have ended, and its command line where it is new.
SAMPLED = [
    [1764400000, [[9, 1, 1, 0, RT], [20, 9, 60, 0, BUILD], [21, 20, 30, 0, BUILD]]],
    [1764400060, [[9, 1, 1, 0, ""], [20, 9, 90, 30, ""], [30, 9, 120, 0, GUARD + CHECK]]],
    # The first two checks took twelve seconds more after their last samples. 20 is another process now.
    [1764400120, [[9, 1, 2, 252, ""], [20, 9, 12, 0, CHECK], [31, 9, 6, 0, CHECK]]],
    [1764400180, [[9, 1, 2, 270, ""], [32, 9, 60, 0, CHECK], [40, 9, 18, 0, rattle("check", "noc_view")]]],
    [1764400240, [[9, 1, 3, 348, ""], [50, 9, 90, 0, rattle("build", "noc_tests", "src/lib.rt --test -o x")],
                  [51, 9, 30, 0, rattle("check", "noc", "src/main.rt -o checked")]]],
    [1764400300, [[9, 1, 3, 471, ""], [60, 9, 0, 0, f"sh -c own {RUN}"], [61, 60, 6, 0, RUN],
                  [62, 9, 6, 0, "/kit/bin/rattle-link -o out/noc out/noc.o "]]],
]
TABLE = """The gate took 5 minutes by the clock and 8 of processor time (2025-11-29):

| Crate | Proof | Seed | Edits | how many | Tests | all |
|---|--:|--:|--:|--:|--:|--:|
| `noc_topo` | 2.1 | 3.1 | 0.3 | 2 | | 5.5 |
| `noc_view` | | | 0.3 | 1 | | 0.3 |
| `noc_tests` | | | | | 1.6 | 1.6 |
| `noc` | 0.5 | | | | 0.1 | 0.6 |
| all | 2.6 | 3.1 | 0.6 | 3 | 1.7 | 7.9 |
"""
CRATES = ["noc_topo", "noc_view", "noc_tests", "noc"]


class GateTest(unittest.TestCase):
    def setUp(self) -> None:
        self.samples = Path(self.enterContext(tempfile.TemporaryDirectory())) / "samples"

    def test_a_table(self) -> None:
        """Of four checks of noc_topo the first and the last are its seed; the one of noc_view is an edit."""
        self.samples.write_text("".join(f"{json.dumps(line)}\n" for line in SAMPLED))
        self.assertEqual(gate_costs.table(gate_costs.read(self.samples), CRATES), TABLE)

    def test_a_command_is_sampled(self) -> None:
        """It begins a check, which begins another process and works for a second by itself."""
        kit = self.samples.with_name("bin") / "rattle"
        kit.parent.mkdir()
        busy = "import time\nwhile time.process_time() < 1.2: pass\n"
        kit.write_text(f"import subprocess, sys\nsubprocess.run([sys.executable, '-c', {busy!r}])\n{busy}")
        words = [sys.executable, kit, "check", "--crate-name", "noc_view", "src/lib.rt"]
        script = f"import subprocess; subprocess.run({[*map(str, words)]!r})"
        self.assertEqual(gate_costs.run(self.samples, [sys.executable, "-c", script]), 0)
        samples = gate_costs.read(self.samples)
        seconds = gate_costs.charged(samples, gate_costs.kinds_of(samples))
        self.assertEqual([*seconds], [("noc_view", "edits")])
        self.assertGreater(seconds["noc_view", "edits"], 0.5)

    def test_the_page_has_a_place_for_it(self) -> None:
        page = (TOP / gate_costs.PAGE).read_text()
        self.assertEqual([it.count("| Crate |") for it in gate_costs.IN_PAGE.findall(page)], [1])
