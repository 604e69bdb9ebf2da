"""The looks at pages (run_names.py), each on a page that is wrong."""
import sys
import tempfile
import unittest
from collections.abc import Iterable
from pathlib import Path
from typing import Any
from unittest import mock

TOP = Path(__file__).resolve().parents[2]
sys.path.append(str(TOP / "tests/pages"))
import run_names  # noqa: E402
import told_names  # noqa: E402
import told_numbers  # noqa: E402

LINES = "# NAME: ..\nnoc_low:\nnoc_high: noc_low rtrb\n"
LONG = "word " * 36


def row(crate: str) -> str:
    """A row of the page of the crates."""
    return f"| `{crate}` | what it is | yes |\n"


def wrong(found: Iterable[tuple[Any, ...]]) -> list[str]:
    """What is not as it should be."""
    return [name for *_, name, is_right in found if not is_right]


class Names(unittest.TestCase):
    def page(self, text: str) -> Path:
        """A page that says this."""
        room = tempfile.TemporaryDirectory()
        self.addCleanup(room.cleanup)
        page = Path(room.name) / "page.md"
        page.write_text(text)
        return page

    def test_an_item_is_in_its_crate_and_a_member_in_its_type(self) -> None:
        right = "`Engine::run`, `noc_engine::Engine::run`, `Verdict::NoFlit` and `RankFault::NotRisingTo`"
        self.assertEqual(wrong(told_names.items(self.page(right))), [])
        # (the first two are words of the code, but not there)
        for name in ("noc_view::Engine", "Network::self", "Verdict::NoSuch", "noc_engine::run_backwards"):
            self.assertEqual(wrong(told_names.items(self.page(f"`{name}`"))), [name])

    def test_a_name_stands_somewhere_in_the_code(self) -> None:
        # (a name that stands in no file, so not in this one either)
        nowhere = "Verdict" + "Satz"
        page = self.page(f"`Verdict`, `take_beats`, `verdict_of` and `{nowhere}`")
        self.assertEqual(wrong(told_names.names(page)), [f"the name {nowhere}"])

    def test_a_path_leads_to_a_file_of_a_crate(self) -> None:
        right = "`src/network.rt`, `noc_net/src/network.rt`, `proofs/MODULE/FUNCTION/Answers.antt`, `must-fail/*.edit`"
        self.assertEqual(wrong(run_names.links(self.page(right))), [])
        for path, where in (("src/nowhere.rt", "*/src/nowhere.rt"), ("noc_vc/src/network.rt", "noc_vc/src/network.rt")):
            self.assertEqual(wrong(run_names.links(self.page(f"`{path}`"))), [f"path crates/{where}"])

    def test_what_carries_a_statement_is_handed_out(self) -> None:
        text = "### `noc_columns`\n\n- One thing is so ({}). And another, of words (`Words`), too (`route`).\n"
        self.assertEqual(wrong(run_names.contracts(self.page(text.format("`allocate`")))), [])
        # (the first is of the crate alone)
        for name in ("grant_all", "Words::nothing"):
            page = self.page(text.format(f"`route`, `{name}`"))
            self.assertEqual(wrong(run_names.contracts(page)), [f"noc_columns's {name}"])

    def test_a_table_names_all_modules_and_no_others(self) -> None:
        page = self.page("| Module of `noc_waiting` | What |\n|---|---|\n| `none` | it |\n")
        self.assertEqual(wrong(told_names.modules(page)), ["the module none of noc_waiting"])
        page = self.page("| Module of `noc_vc` | What |\n|---|---|\n| `input` | it |\n")
        self.assertIn("the module output of noc_vc, in a table,", wrong(told_names.modules(page)))

    def test_an_edit_is_of_crates_on_which_its_own_stands(self) -> None:
        room = tempfile.TemporaryDirectory()
        self.addCleanup(room.cleanup)
        edit = Path(room.name) / "noc_high/must-fail/wrong.edit"
        edit.parent.mkdir(parents=True)
        stands_on: dict[str, list[str]] = {
            "noc_low": [], "noc_other": [], "noc_high": ["noc_low", "rtrb"]}
        for text, is_right in (
            ("noc_low::Kind::One", True), ("noc_high::Kind::One", True), ("Kind::One", True),
            ("noc_other::Kind::One", False), ("Rattle.noc_other.specs.Kinds.{Kind}", False),
        ):
            edit.write_text(f"file: src/lib.rt\nold: Kind::Two\nnew: {text}\n")
            self.assertEqual(run_names.is_of_crates_below(edit, stands_on), is_right)

    def test_each_crate_stands_once_behind_those_below_it(self) -> None:
        right = row("noc_low") + row("noc_high")
        self.assertEqual(wrong(run_names.floors(right, LINES)), [])
        for page, told in (
            (row("noc_high") + row("noc_low"), "noc_low before noc_high, which stands on it,"),
            (right + row("noc_low"), "one row for the crate noc_low"),
            (right + row("noc_other"), "one row for the crate noc_other"),
            (row("noc_low"), "one row for the crate noc_high"),
        ):
            self.assertIn(told, wrong(run_names.floors(page, LINES)))

    def test_a_sentence_has_an_end(self) -> None:
        self.assertEqual(wrong(run_names.long_sentences(self.page(f"{LONG[5:]}.\n"))), [])
        self.assertEqual(len(wrong(run_names.long_sentences(self.page(f"{LONG}.\n")))), 1)

    def test_each_number_that_is_told_is_compared(self) -> None:
        read = told_numbers.text_of
        for page, words, right in list(told_numbers.told()):
            found = told_numbers.told_in(page, words)
            self.assertIsNotNone(found, words)
            for group, number in enumerate(right, 1):
                text = read(page)
                other = f"{text[:found.start(group)]}9999{text[found.end(group):]}"
                with mock.patch.object(
                        told_numbers, "text_of", lambda name: other if name == page else read(name)):
                    self.assertTrue(any(words in name for name in wrong(told_numbers.numbers())))

    def test_the_builder_knows_each_crate_of_the_program(self) -> None:
        read = told_numbers.text_of
        with mock.patch.object(
                told_numbers, "text_of", lambda name: read(name).replace('"noc_vc":', '"noc_vd":')):
            self.assertEqual(wrong(told_numbers.builder()), ["seconds of noc_vc", "seconds of noc_vd"])


if __name__ == "__main__":
    unittest.main()
