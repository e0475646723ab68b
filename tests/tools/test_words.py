#!/usr/bin/env python3
"""Tests that tools/words.py finds each difference from the table of words, and that there is none."""
import pathlib
import sys
import tempfile
import unittest
from unittest import mock

sys.dont_write_bytecode = True
ROOT = pathlib.Path(__file__).resolve().parent.parent.parent
sys.path.insert(0, str(ROOT / "tools"))

import words  # noqa: E402
from spec_lists import Entry, Unread, lists_of  # noqa: E402
from word_functions import Class, function_of  # noqa: E402

COPIED = (words.WORDS, words.CLASSES, words.SIGNS, words.DOCUMENT, words.SOURCES, words.SPECS)


def defined(type_, value):
    return f"abbrev pub it : {type_}\nit = {value}\n"


class Table(unittest.TestCase):
    def setUp(self):
        """Copies everything that is compared."""
        folder = tempfile.TemporaryDirectory()
        self.addCleanup(folder.cleanup)
        self.root = pathlib.Path(folder.name)
        for place in COPIED:
            paths = [ROOT / place] if (ROOT / place).is_file() else sorted((ROOT / place).glob("*.*t"))
            for path in paths:
                copy = self.root / path.relative_to(ROOT)
                copy.parent.mkdir(parents=True, exist_ok=True)
                copy.write_text(path.read_text())
        root = mock.patch.object(words, "ROOT", self.root)
        root.start()
        self.addCleanup(root.stop)

    def change(self, place, old, new):
        text = (self.root / place).read_text()
        self.assertTrue(old in text, old)
        (self.root / place).write_text(text.replace(old, new, 1))

    def faults(self, *parts):
        """Checks that there are faults, and that each of these parts is in one of them."""
        found = words.check()
        self.assertTrue(found)
        for part in parts:
            self.assertTrue(any(part in one for one in found), (part, found))

    def test_nothing_differs(self):
        self.assertEqual(words.check(), [])

    def test_a_new_word_is_missing_in_the_code_until_it_is_written(self):
        self.change(words.WORDS, "idaho\t", "idahoan\tis_known\nidaho\t")
        self.faults("known.rt", "a row is not in its place")
        words.write()
        self.assertIn("idahoan", (self.root / words.SOURCES / "known.rt").read_text())
        self.assertEqual(words.check(), [])

    def test_a_state_is_also_listed_in_the_document(self):
        self.change(words.WORDS, "utah\t<state> is_state", "utah\t<state> is_known")
        self.faults("meridians.rt", words.DOCUMENT)

    def test_a_changed_function_is_named(self):
        self.change(f"{words.SOURCES}/requests.rt", "please", "plaese")
        self.faults("requests.rt")

    def test_a_changed_list_of_the_rules_is_named(self):
        self.change(f"{words.SPECS}/Endings.antt", "wyoming", "wyomnig")
        self.faults("states: `wyoming` is in crates", "states: `wyomnig` is in the list")
        words.take()
        self.assertNotIn("states: ", "".join(words.check()))

    def test_what_is_written_for_a_word_is_compared(self):
        self.change(words.WORDS, "nothwest\t", "nothwest \t")
        self.change(words.WORDS, "letters_of=NW worn_directions=NW", "letters_of=NE worn_directions=NW")
        self.faults("letters_of: ")

    def test_a_changed_hint_is_named(self):
        self.change(words.SIGNS, "Alabama Alaska", "Alabama")
        self.faults("<state>: `alaska`")

    def test_a_class_that_nothing_has_is_named(self):
        self.change(words.WORDS, "idaho\t", "idaho\tis_nothing ")
        self.faults("is_nothing: a class of")

    def test_a_word_that_a_wider_class_lacks_is_named(self):
        self.change(words.WORDS, "sectoin\tis_worn_section ", "sectoin\t")
        self.change(words.WORDS, "zone\t", "zone\tis_worn_section ")
        self.faults("is_worn_section: zone is in none of worn_section_words")

    def test_each_word_of_a_function_is_in_the_row_of_its_length_with_the_bits_of_first_and_last_letters(self):
        of_it = {"abc": [], "ab": [], "cbd": []}
        source = function_of(Class("is_it", "", "word", (), "It."), of_it)
        self.assertIn('        2 => is_among(word, 0x4_00000002, "ab"),\n', source)
        self.assertIn('        3 => is_among(word, 0x18_0000000a, "abc cbd"),\n', source)

    def test_texts_are_shown_and_meant(self):
        for text in ("", " ", "a b", " e", "\t", "\n", "\\", "½"):
            self.assertEqual(words.meant(words.shown(text)), text)


class Lists(unittest.TestCase):
    def test_lists_are_read_in_each_form(self):
        texts = [Entry(b"a b"), Entry(b"c")]
        for value in ('codes "a b" ∷ codes "c" ∷ []', '(97 ∷ 32 ∷ 98 ∷ []) ∷ codes "c" ∷ []', 'texts (codes "a b|c")',
                      'texts (codes "a b") ++ words (codes "c")'):
            self.assertEqual(lists_of([defined("List (List ℕ)", value)]), {"it": texts}, value)

    def test_tables_are_read_in_each_form(self):
        entries = [Entry(b"a", b"b"), Entry(b"c", b"")]
        for value in ('(codes "a" ⇒ codes "b") ∷ left_out (codes "c") ∷ []',
                      'all_as (codes "a" ∷ []) (codes "b") ++ all_left_out (words (codes "c"))',
                      'pairs (words (codes "a=b c="))', 'each_as (words (codes "a c")) (codes "b" ∷ [] ∷ [])'):
            self.assertEqual(lists_of([defined("List Entry", value)]), {"it": entries}, value)

    def test_another_form_is_an_error(self):
        for value in ("unknown", 'codes "a" ∷', '(codes "a" ∷ []', 'reversed (words (codes "a"))'):
            with self.assertRaises(Unread, msg=value):
                lists_of([defined("List (List ℕ)", value)])


if __name__ == "__main__":
    unittest.main()
