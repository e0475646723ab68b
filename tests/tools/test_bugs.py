#!/usr/bin/env python3
"""Tests when tools/bugs.py takes what an edit came to in an earlier run, and what it says at its end."""
import pathlib
import sys
import tempfile
import types
import unittest
from unittest import mock

sys.dont_write_bytecode = True
sys.path.insert(0, str(pathlib.Path(__file__).resolve().parent.parent.parent / "tools"))

import bugs  # noqa: E402

REFUSED = "must-fail twp_land/one.edit: refused, as it must be: note: src/lib.rt:1:1: it is not proved that .."
THROUGH = "must-fail twp_land/one.edit: NOT REFUSED: the crate is still proved with this edit"
BAD = "must-fail twp_land/one.edit: BAD EDIT: an 'old:' text is in src/lib.rt 0 times, and not once"
UNTRIED = "must-fail twp_land/one.edit: NOT TRIED: its check was killed"


class Kept(unittest.TestCase):
    def setUp(self):
        room = tempfile.TemporaryDirectory()
        self.addCleanup(room.cleanup)
        self.root = pathlib.Path(room.name)
        for it in bugs.TOOL:
            self.write(f"tools/{it}", "")
        self.write("crates/twp_land/must-fail/one.edit", "file: src/lib.rt\n")
        for it in ("twp_grid", "twp_land"):
            self.write(f"crates/{it}/src/lib.rt", "")
        # The crates that each is above, and the kit's libraries that it uses.
        self.below, self.of_kit = ["twp_grid"], []

    def write(self, name, text):
        path = self.root / name
        path.parent.mkdir(parents=True, exist_ok=True)
        path.write_text(text, encoding="utf-8")

    def crate(self, name, deps=(), of_kit=()):
        return types.SimpleNamespace(name=name, folder=str(self.root / "crates" / name), deps=deps, of_kit=of_kit)

    def run_of(self, kit="13f", anew=False, folder="must-fail"):
        """What a run takes of, and keeps for, one edit."""
        with mock.patch.object(bugs, "ROOT", self.root):
            verdicts = bugs.Verdicts(self.root / "store", kit, anew)
        one = HashableCrate(self.crate("twp_land", [HashableCrate(self.crate(it)) for it in self.below], self.of_kit))
        return verdicts, one, self.root / f"crates/twp_land/{folder}/one.edit"

    def said(self, **how):
        verdicts, *edit = self.run_of(**how)
        return verdicts.said(*edit)

    def keep(self, said):
        verdicts, *edit = self.run_of()
        verdicts.keep(*edit, said)

    def test_what_was_said_is_taken_again(self):
        self.assertIsNone(self.said())
        for it in (REFUSED, THROUGH):
            self.keep(it)
            self.assertEqual(self.said(), it)
        self.assertIsNone(self.said(anew=True))

    def test_an_edit_may_move_from_one_folder_to_the_other(self):
        self.keep(REFUSED)
        self.write("crates/twp_land/must-fail-release/one.edit", "file: src/lib.rt\n")
        self.assertEqual(self.said(folder="must-fail-release"), REFUSED)

    def test_it_is_not_taken_if_anything_that_it_rests_on_has_changed(self):
        self.keep(REFUSED)
        changes = [f"tools/{it}" for it in bugs.TOOL]
        changes += ["crates/twp_land/must-fail/one.edit", "crates/twp_land/src/lib.rt", "crates/twp_grid/src/lib.rt"]
        for name in changes:
            before = (self.root / name).read_text(encoding="utf-8")
            self.write(name, before + "-- more\n")
            self.assertIsNone(self.said(), name)
            self.write(name, before)
            self.assertEqual(self.said(), REFUSED, name)
        for name in ("specs/Land.antt", "proofs/lib/Answers.antt"):
            self.write(f"crates/twp_grid/{name}", "")
            self.assertIsNone(self.said(), name)
            (self.root / "crates/twp_grid" / name).unlink()
        self.assertIsNone(self.said(kit="13g"))
        self.of_kit = ["itoa"]
        self.assertIsNone(self.said())
        self.of_kit, self.below = [], []
        self.assertIsNone(self.said())

    def test_only_a_verdict_is_kept(self):
        for it in (BAD, UNTRIED, "nothing"):
            self.keep(it)
            self.assertIsNone(self.said(), it)
        self.keep(REFUSED)
        for file in (self.root / "store").iterdir():
            file.write_text('"not a verdict"', encoding="utf-8")
        self.assertIsNone(self.said())


class HashableCrate(types.SimpleNamespace):
    """A crate that can be a key, as rt's can."""

    def __init__(self, crate):
        super().__init__(**vars(crate))

    __hash__ = object.__hash__


class Ended(unittest.TestCase):
    def of(self, results, known=()):
        """The status, and what is told, of two edits with these results."""
        told, edits = [], {"twp_land": ["one", "two"]}
        named = {f"twp_land/{edit}": it for edit, it in zip(edits["twp_land"], results)}
        return bugs.ended(edits, {f"twp_land/{it}" for it in known}, named, told.append), told

    def test_all_are_refused(self):
        self.assertEqual(self.of(["refused", "refused"]), (0, ["2 refused, 0 let through"]))

    def test_one_that_is_listed_must_be_let_through(self):
        self.assertEqual(self.of(["NOT REFUSED", "refused"], ["one"]), (0, ["1 refused, 0 let through"]))
        self.assertEqual(self.of(["refused", "refused"], ["one"])[0], 1)

    def test_one_that_is_let_through_or_not_tried_fails(self):
        for it in ("NOT REFUSED", "BAD EDIT", "NOT TRIED", None):
            status, told = self.of(["refused", it])
            self.assertEqual((status, len(told)), (1, 2), it)


if __name__ == "__main__":
    unittest.main()
