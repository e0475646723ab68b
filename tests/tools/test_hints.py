"""Tests that the words of hints are compared with the program's, and stand for their names in rows."""
import pathlib
import shutil
import sys
import tempfile
import unittest
from unittest import mock

sys.dont_write_bytecode = True
ROOT = pathlib.Path(__file__).resolve().parents[2]
sys.path[:0] = [str(ROOT / "tools" / "repeated"), str(ROOT / "tests" / "program")]

import hints  # noqa: E402
import reading  # noqa: E402
import rows  # noqa: E402

[TABLE] = (str(file.relative_to(ROOT)) for file in ROOT.glob("crates/*/src/**/hints/table.rt"))
[HALF_MILES] = (str(file.relative_to(ROOT)) for file in ROOT.glob("crates/*/src/**/half_mile_hints.rt"))
ROWS = "tests/program/rows/descriptions-messages.toml"


class Compared(unittest.TestCase):
    def setUp(self):
        """Copies the tables, the words, and the rows."""
        folder = tempfile.TemporaryDirectory()
        self.addCleanup(folder.cleanup)
        self.root = pathlib.Path(folder.name)
        copied = [file for name in hints.TABLES for file in ROOT.glob(f"crates/*/src/**/{name}")]
        tables = ROOT / hints.LOT_TABLES
        for file in (*copied, ROOT / hints.WORDS, *(ROOT / hints.ROWS).glob("*.toml"), tables):
            copy = self.root / file.relative_to(ROOT)
            copy.parent.mkdir(parents=True, exist_ok=True)
            shutil.copy(file, copy)
        for module in (hints, reading):
            root = mock.patch.object(module, "ROOT", self.root)
            root.start()
            self.addCleanup(root.stop)

    def found(self, place, old, new):
        """The differences while a file is changed."""
        text = (self.root / place).read_text()
        self.assertIn(old, text)
        (self.root / place).write_text(text.replace(old, new, 1))
        try:
            return hints.compare()[1]
        finally:
            (self.root / place).write_text(text)

    def test_nothing_changed(self):
        compared, found = hints.compare()
        self.assertEqual(found, [])
        self.assertGreater(compared, 70)

    def test_words_of_the_program(self):
        for place, old, new in (
            (TABLE, "replace it with a space", "put a space in its place"),
            (HALF_MILES, "if the two distances are swapped, write ", "if the two distances are exchanged, write "),
        ):
            with self.subTest(old=old):
                self.assertEqual(
                    [difference.split(":")[1] for difference in self.found(place, old, new)],
                    [" lacks the hint", " the program has no such hint"],
                )

    def test_table_that_is_not_found(self):
        self.assertIn("hints/table.rt: no hints are found", self.found(TABLE, "const HINTS", "const ROWS"))

    def test_hint_that_no_row_has(self):
        found = self.found(ROWS, "{hint:digits}", "other words")
        self.assertEqual(found, [f"{hints.ROWS}: no row shows the hint digits"])

    def test_hint_that_is_written_out(self):
        words = "each section's land follows its number: sec. 14, ..; sec. 15, .."
        [found] = self.found(ROWS, "{hint:land-after-number}", words)
        self.assertIn("write {hint:land-after-number} in place of its words", found)


class Rows(unittest.TestCase):
    HINTS = {"space": "replace it with a space", "lot": "write lot {next}"}

    def test_words_in_place_of_names(self):
        for text, words in (
            ("  {hint:space}; and so on", "  replace it with a space; and so on"),
            ("  {hint:lot next=2}", "  write lot 2"),
            ("  {next}", "  {next}"),
        ):
            self.assertEqual(rows.with_hints(text, self.HINTS), words)

    def test_names_and_words_that_are_not_there(self):
        for text in ("{hint:spaces}", "{hint:lot}", "{hint:space next=2}", "{hint:lot at=2}"):
            with self.subTest(text=text), self.assertRaises(rows.RowError):
                rows.with_hints(text, self.HINTS)


if __name__ == "__main__":
    unittest.main()
