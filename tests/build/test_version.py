"""The version, which stands in one place in the sources: each file that tells it, and the program, tell the same."""
import re
import subprocess
import tomllib
import unittest

import noc_tools

from support import PROGRAM, TOP

SOURCE = TOP / "crates/noc_cli/src/version.rt"
# The heading of a version in CHANGELOG.md: its number and its date.
RELEASED = r"^## (\d+\.\d+\.\d+) - \d{4}-\d\d-\d\d$"


def found_in(name: str, pattern: str) -> str | None:
    """What a pattern finds first in a file."""
    found = re.search(pattern, (TOP / name).read_text(), re.M)
    return found[1] if found else None


class Version(unittest.TestCase):
    def setUp(self) -> None:
        self.said = dict(re.findall(r'pub const (\w+): &str = "(.*)";', SOURCE.read_text()))

    def test_the_program_says_what_the_source_says(self) -> None:
        ran = subprocess.run([PROGRAM, "--version"], capture_output=True, text=True)
        text = "noc {VERSION}\nformats {FORMATS}\nkit {KIT}\n".format(**self.said)
        self.assertEqual((ran.returncode, ran.stdout, ran.stderr), (0, text, ""))

    def test_files_with_the_version_agree(self) -> None:
        self.assertEqual(found_in("CHANGELOG.md", RELEASED), self.said["VERSION"])
        self.assertEqual(found_in("CITATION.cff", r"^version: (\S+)$"), self.said["VERSION"])
        date = found_in("CHANGELOG.md", rf"^## {re.escape(self.said['VERSION'])} - (\S+)$")
        self.assertEqual(found_in("CITATION.cff", r"^date-released: (\S+)$"), date)
        self.assertEqual(noc_tools.__version__, self.said["VERSION"])
        project = tomllib.loads((TOP / "pyproject.toml").read_text())["project"]
        self.assertEqual(project["version"], self.said["VERSION"])

    def test_changes_have_the_dates_of_their_versions(self) -> None:
        """What no version has yet comes first, and then the versions, the newest first."""
        unreleased, *versions = re.findall(r"^## .*$", (TOP / "CHANGELOG.md").read_text(), re.M)
        self.assertEqual(unreleased, "## Unreleased")
        for heading in versions:
            self.assertRegex(heading, RELEASED)
        dates = [heading.split()[-1] for heading in versions]
        self.assertEqual(dates, sorted(dates, reverse=True))
        for version in (TOP / "CHANGELOG.md").read_text().split("\n## "):
            headings = re.findall(r"^### .*$", version, re.M)
            self.assertEqual(sorted(set(headings)), sorted(headings), "a heading stands twice, as after a merge")

    def test_the_builder_wants_the_same_kit(self) -> None:
        self.assertEqual(found_in("builder/build.py", r'^KIT = "(.*)"$'), self.said["KIT"])
