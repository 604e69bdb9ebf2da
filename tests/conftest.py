"""Lets pytest run the tests as run_tests.py does: with the program of $NOC, or else
the one that ./noc would run, where it is built. Nothing is built here."""
import os
import subprocess
from pathlib import Path

import pytest

LAUNCHER = Path(__file__).resolve().parent.parent / "noc"


def pytest_configure() -> None:
    if not os.environ.get("NOC"):
        asked = subprocess.run([LAUNCHER, "--which"], capture_output=True, text=True)
        os.environ["NOC"] = asked.stdout.strip()
    program = os.environ["NOC"]
    if not os.access(program, os.X_OK):
        pytest.exit(f"there is no program {program}: call ./noc, which builds one, or set NOC", 1)
