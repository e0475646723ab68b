#!/usr/bin/env python3
"""Tests the lengths of words with which twp_asides finds the rows of its table of what can't be described."""
import pathlib
import re
import unittest

ROOT = pathlib.Path(__file__).resolve().parent.parent.parent
SOURCE = (ROOT / "crates/twp_asides/src/beyond.rt").read_text()


def first_words():
    """The words with which the rows of the table begin."""
    table = re.search(r'^const PHRASES: &str = "\n(.*?)^";', SOURCE, re.MULTILINE | re.DOTALL)[1]
    return {word for row in table.splitlines() for word in row.split("|")[0].split(" ")}


def lengths():
    """For each letter, the number that has a bit for each length."""
    numbers = re.search(r"^const LENGTHS: \[u16; 26\] = \[(.*?)\];", SOURCE, re.MULTILINE | re.DOTALL)[1]
    return [int(number, 0) for number in re.findall(r"\w+", numbers)]


class Lengths(unittest.TestCase):
    def test_first_words(self):
        """Each word has its bit, and there are no others."""
        expected = [0] * 26
        for word in first_words():
            expected[ord(word[0]) - ord("a")] |= 1 << len(word)
        self.assertEqual(lengths(), expected)


if __name__ == "__main__":
    unittest.main()
