"""The pages that have the words of studies: each setting and each column stands in them, and helps name the pages."""
import re
import unittest

from support import TOP, FolderTest

from noc_tools.study.plan import OTHERS, SETTINGS
from noc_tools.study.combinations import BORNE

STUDIES, FIGURES = ((TOP / f"docs/{name}.md").read_text() for name in ("STUDIES", "FIGURES"))


def first_cells(page: str) -> set[str]:
    """The words in the first cells of the tables of a page."""
    cells = re.findall(r"^\| ([^|]+) \|", page, re.MULTILINE)
    return {word for cell in cells for word in re.findall(r"\w[\w.]*", cell)}


class Pages(unittest.TestCase):
    def test_each_setting_and_column_has_its_line(self) -> None:
        """And no other word of the settings' shape stands there."""
        settings, behind = STUDIES.split("## What comes out")
        named = {word for word in first_cells(settings) if word.islower()}
        self.assertEqual(named, {*SETTINGS, *OTHERS})
        self.assertLessEqual(set(BORNE), first_cells(behind))

    def test_ends_of_a_run_and_loads_have_one_table_each(self) -> None:
        words = {"load", "offered", "accepted", "keeps_up_to", "steady_to", "saturation", "cycles", "drain", "limit",
                 "window", "ran", "stuck"}
        self.assertLessEqual(words, first_cells(FIGURES))


class Helps(FolderTest):
    def test_they_name_the_pages(self) -> None:
        for command in ("load", "latency", "sweep"):
            self.assertIn("docs/FIGURES.md", self.said(command, "--help"), command)

    def test_a_rule_of_the_model_that_decides_figures_is_told(self) -> None:
        """By which channel a head asks for, and what follows of it: where studies are made, and where they are read."""
        pages = [(TOP / page).read_text() for page in ("docs/COMING_FROM.md", "docs/STUDIES.md", "examples/README.md")]
        for text in (self.said("sweep", "--help"), *pages):
            self.assertRegex(text, r"asks for the\s+idle\s+channel\s+(of|with\s+the)\s+\[?least\s+index")
            self.assertRegex(text, r"more\s+channels|[Ee]ach\s+channel\s+more|Each\s+further\s+channel")

    def test_the_longest_is_read_at_a_prompt(self) -> None:
        """Each setting stands in it, and it is as long as a high window."""
        self.environment = {**self.environment, "COLUMNS": "100"}
        said = self.said("sweep", "--help")
        self.assertLess(said.count("\n"), 60)
        self.assertEqual([word for word in (*SETTINGS, *OTHERS) if not re.search(rf"\b{word}\b", said)], [])
