#!/usr/bin/env python3
"""Tests that the tables of fixed words in twp_asides are sorted by the first letter of their rows, and say where each begins."""
import pathlib
import re
import string
import unittest

ROOT = pathlib.Path(__file__).resolve().parent.parent.parent
SOURCE = (ROOT / "crates/twp_asides/src/word_rows.rt").read_text()


class FixedWords(unittest.TestCase):
    def test_sorted_by_first_letter(self):
        """The search compares a text only with the rows that begin with its letter."""
        tables = re.findall(r"static (WORDS_\w+): [^=]*= \[\n(.*?)\n\];", SOURCE, re.DOTALL)
        rows = {name: re.findall(r'\*b"(.*)"', table) for name, table in tables if not name.endswith("_OF_LETTERS")}
        places = {name: list(map(int, re.findall(r"\d+", table))) for name, table in tables if name.endswith("_OF_LETTERS")}
        self.assertEqual(sorted(rows), ["WORDS_AFTER", "WORDS_BEFORE"])
        for name, texts in rows.items():
            self.assertGreater(len(texts), 40)
            self.assertEqual(sorted(texts, key=lambda text: text[0]), texts)
            fronts = [text.rstrip("_") for text in texts]
            shadowed = [(a, b) for at, a in enumerate(fronts) for b in fronts[at + 1 :] if b.startswith(a)]
            self.assertEqual(shadowed, [])
            counts = [sum(text[0] < letter for text in texts) for letter in string.ascii_lowercase]
            self.assertEqual([*counts, len(texts)], places[f"{name}_OF_LETTERS"])


if __name__ == "__main__":
    unittest.main()
