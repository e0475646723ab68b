"""Tests what is said of wrong bodies that don't fit: `python3 tests/tools/test_edits.py`."""

import sys
import tempfile
import unittest
from pathlib import Path

sys.path.insert(0, str(Path(__file__).resolve().parents[2] / "tools"))
sys.dont_write_bytecode = True
from edits import COLUMNS, NAMED, lacking, misfit, misfits  # noqa: E402

SOURCE = "fn least() -> u8 {\n    1\n}\n\nfn most() -> u8 {\n    9\n}\n"


class Edits(unittest.TestCase):
    def setUp(self):
        folder = tempfile.TemporaryDirectory()
        self.addCleanup(folder.cleanup)
        self.root = Path(folder.name)
        self.write("crates/low/src/lib.rt", SOURCE)
        self.write("tests/rows.toml", "stdout = '1'\n")

    def write(self, name, text):
        path = self.root / name
        path.parent.mkdir(parents=True, exist_ok=True)
        path.write_text(text, encoding="utf-8")

    def why(self, text):
        return misfit(text, self.root / "crates/low")

    def named(self, *rows):
        """What is wrong with a list of named wrong bodies that has these rows."""
        self.write(NAMED, "".join("\t".join(it) + "\n" for it in [COLUMNS, *rows]))
        return list(lacking(self.root))

    def test_an_edit_that_fits(self):
        self.assertIsNone(self.why("file: src/lib.rt\nold: least() -> u8\nnew: least() -> u16\n"))
        # A second pair is looked for in what the first one makes.
        self.assertIsNone(self.why("file: src/lib.rt\nold:     1\nnew:     2\nold:     2\nnew:     3\n"))
        self.assertIsNone(self.why("file: src/lib.rt\nold: fn least\nnew:\n"))

    def test_an_edit_that_does_not_fit(self):
        for text, why in (
            ("file: src/lib.rt\nold: fn none\nnew: fn one\n", "has 0 times"),
            ("file: src/lib.rt\nold: -> u8\nnew: -> u16\n", "has 2 times"),
            ("file: src/main.rt\nold: fn least\nnew: fn most\n", "there is no file"),
            ("file: ../low/src/lib.rt\nold: fn least\nnew: fn most\n", "is not a file of"),
            ("file: out/lib.rt\nold: fn least\nnew: fn most\n", "is not a file of"),
            ("old: fn least\nnew: fn most\n", "comes before"),
            ("file: src/lib.rt\nnew: fn most\n", "comes before"),
            ("file: src/lib.rt\nold: fn least\nnew: fn least\n", "changes nothing"),
            ("file: src/lib.rt\nold: fn least\n", "changes nothing"),
            ("", "changes nothing"),
        ):
            self.assertIn(why, self.why(text) or "", text)

    def test_both_folders_are_looked_at(self):
        fits, gone = [f"file: src/lib.rt\nold: fn {it}\nnew: fn one\n" for it in ("least", "none")]
        self.write("crates/low/must-fail/lib_a.edit", fits)
        self.write("crates/low/must-fail-release/lib_b.edit", fits.replace("one", "two"))
        self.write("crates/low/must-fail-release/let-through", "lib_b: a reason\n")
        self.assertEqual(list(misfits(self.root)), [])
        for name in ("must-fail/lib_c.edit", "must-fail-release/lib_c.edit", "must-fail/c.edit.old", "must-fail/let-through"):
            self.write(f"crates/low/{name}", gone)
            self.assertEqual([it.partition(":")[0] for it in misfits(self.root)], [f"low/{name}"])
            (self.root / "crates/low" / name).unlink()

    def test_the_list_of_those_that_no_contract_refuses(self):
        self.write("crates/low/must-fail-release/lib_a.edit", "file: src/lib.rt\nold: fn least\nnew: fn one\n")
        for text, count in (("lib_a: a reason\n", 0), ("lib_a:  \n", 1), ("lib_a\n", 1), ("lib_b: a reason\n", 1)):
            self.write("crates/low/must-fail-release/let-through", text)
            self.assertEqual(len(list(misfits(self.root))), count, text)

    def test_no_edit_is_there_twice(self):
        fits = "file: src/lib.rt\nold: fn least\nnew: fn one\n"
        for name, text in (("lib_a", fits), ("lib_b", fits.replace("one", "two"))):
            self.write("crates/low/must-fail/lib_a.edit", fits)
            self.write(f"crates/low/must-fail-release/{name}.edit", text)
        self.assertEqual(len(list(misfits(self.root))), 1)
        (self.root / "crates/low/must-fail-release/lib_a.edit").unlink()
        self.assertEqual(list(misfits(self.root)), [])
        self.write("crates/low/must-fail-release/lib_b.edit", fits)
        self.assertEqual(len(list(misfits(self.root))), 1)

    def test_an_edit_is_named_after_its_module(self):
        self.write("crates/low/src/usual/part.rt", SOURCE)
        for name, count in (("part_a", 0), ("usual_part_a", 0), ("part", 1), ("partly_a", 1), ("usual_a", 1)):
            text = "file: src/usual/part.rt\nold: fn least\nnew: fn one\n"
            self.write(f"crates/low/must-fail/{name}.edit", text)
            self.assertEqual(len(list(misfits(self.root))), count, name)
            (self.root / f"crates/low/must-fail/{name}.edit").unlink()

    def test_the_list_of_named_wrong_bodies(self):
        self.write("crates/low/must-fail/a.edit", "")
        self.write("crates/low/must-fail-release/b.edit", "")
        good = [("It is wrong.", "low/a", ""), ("So is this.", "", "tests/rows.toml: stdout = '1'")]
        self.assertEqual(self.named(*good), [])
        for bad in (
            ("It is for releases.", "low/b", ""),
            ("It is gone.", "low/a low/c", ""),
            ("Its test is gone.", "", "tests/none.toml: stdout"),
            ("Its row is gone.", "", "tests/rows.toml: stdout = '2'"),
            ("It has no words of its row.", "", "tests/rows.toml"),
            ("Nothing refuses it.", "", ""),
            ("It is wrong.", "low/a", ""),
        ):
            self.assertEqual(len(self.named(*good, bad)), 1, bad)
        self.assertEqual(len(self.named()), 1)


if __name__ == "__main__":
    unittest.main()
