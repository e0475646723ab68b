"""Tests of how a text is split into the parts of its townships, with a splitter of their own."""
from __future__ import annotations

import itertools
import random
import re
import unittest
from typing import List, Optional, Tuple

from samples import uneven
from township import Refused, Township, split

#: A token of a description, or any other byte that is not white space.
_TOKEN = re.compile(rb"[A-Za-z]+|1/[24]|[0-9]+|\xc2[\xbc\xbd]|[^ \t\r\n]", re.DOTALL)

_Places = List[Tuple[int, int]]


def _expected(text: bytes) -> Tuple[_Places, Optional[int]]:
    """The places of the parts of a text, or the place of the heading at which it is refused."""
    tokens = [(found[0].lower(), found.start(), found.end()) for found in _TOKEN.finditer(text)]
    headings = [index for index, token in enumerate(tokens) if token[0] == b"t" and index]
    if headings and tokens[0][0] != b"t":
        return [], tokens[headings[0]][1]
    places, start = [], 0
    for index in headings:
        before = tokens[:index]
        if before[-1][0] == b";":
            before.pop()
        elif [token[0] for token in before[-2:]] == [b";", b"and"]:
            del before[-2:]
        places.append((start, before[-1][2]))
        start = tokens[index][1]
    return [*places, (start, len(text))], None


class SplitTest(unittest.TestCase):
    """The parts of texts, and the texts that have none."""

    def check(self, text: bytes) -> None:
        places, refused_at = _expected(text)
        if refused_at is None:
            parts = split(text)
            self.assertEqual([(part.start, part.end) for part in parts], places, text)
            for part in parts:
                self.assertEqual(part.text, text[part.start : part.end].decode("utf-8", "surrogateescape"))
            return
        with self.assertRaises(Refused, msg=text) as caught:
            split(text)
        self.assertEqual((caught.exception.number, caught.exception.at), (38, refused_at), text)

    def test_all_short_texts(self) -> None:
        pieces = [b"T", b"t", b" T", b"; ", b"and ", b"x", b".", b"\xbd"]
        for size in range(6):
            for chosen in itertools.product(pieces, repeat=size):
                self.check(b"".join(chosen))

    def test_random_texts(self) -> None:
        chance = random.Random(1)
        pieces = [
            *(b"T. 2 N., R. 3 W., ", b"t3n r3w ", b"sec. 14", b"lot 1", b"\xc2\xbd", b"1/2", b"NE1/4"),
            *(b"; ", b";", b" and ", b", ", b".\n", b"Tract", b"\xff", b"\xc2"),
        ]
        for _ in range(5_000):
            self.check(b"".join(chance.choices(pieces, k=chance.randrange(12))))

    def test_parts_that_are_joined_are_split_again(self) -> None:
        chance = random.Random(2)
        lands = ["T2N R3W sec. 14", "T. 3 N., R. 3 W., secs. 31 and 32", "t3n r4w sec. 5, lot 1 and S½NE¼"]
        for _ in range(500):
            chosen = chance.choices(lands, k=chance.randrange(1, 7))
            for between in ("; ", ";\nand ", ". "):
                parts = split(between.join(chosen))
                ended = "." if between == ". " else ""
                wanted = [*(f"{each}{ended}" for each in chosen[:-1]), chosen[-1]]
                self.assertEqual([part.text for part in parts], wanted)

    def test_many_parts(self) -> None:
        parts = split("T2N R3W sec. 5;" * 1_000)
        self.assertEqual(len(parts), 1_000)
        self.assertEqual(parts[998].text, "T2N R3W sec. 5")
        self.assertEqual(parts[999].text, "T2N R3W sec. 5;")

    def test_descriptions_are_not_split(self) -> None:
        for text in ("sec. 14, NE1/4.", "T. 2 N., R. 3 W., sec. 5, lots 1 and 2; sec. 7, lot 1.", " T2N R3W sec. 14\n"):
            uneven().acres(text)
            self.assertEqual([part.text for part in split(text)], [text])

    def test_large_texts(self) -> None:
        most = "T2N R3W sec. 5".ljust(1_048_576)
        self.assertEqual(split(most)[0].text, most)
        with self.assertRaises(Refused) as caught:
            split(f"{most} ")
        refused = caught.exception
        self.assertEqual((refused.number, refused.at), (39, 1_048_576))
        self.assertEqual(str(refused), "description: the text is longer than 1,048,576 bytes")

    def test_representations_are_short(self) -> None:
        part, = split("T2N R3W sec. 5, lots\n1 and 2")
        self.assertEqual(repr(part), "<township.TownshipText 0 to 28: T2N R3W sec. 5, lots 1 and 2>")
        self.assertLess(len(repr(split("T2N R3W sec. 5, " * 1_000)[0])), 150)

    def test_the_place_is_explained(self) -> None:
        with self.assertRaises(Refused) as caught:
            split("sec. 5, S½;\n  T2N R3W sec. 6")
        refused = caught.exception
        self.assertEqual((refused.number, refused.at, refused.line, refused.column), (38, 15, 2, 3))
        sentence = "the land before this heading has no heading"
        self.assertEqual(refused.explanation, f"township: description:2:3: {sentence}\n")


class TownshipOfPartTest(unittest.TestCase):
    """The township in the heading of a part."""

    def test_the_heading(self) -> None:
        for text in ("T. 2 N., R. 3 W., sec. 14", "t2n r3w sec 14", "T2N R3W", " T 2 N R 3 W, lot 1"):
            self.assertEqual(split(text)[0].township, Township(2, "N", 3, "W"), text)

    def test_zeros_before_a_number(self) -> None:
        for text, township in (
            ("T. 0020 N., R. 3 W., sec. 14", Township(20, "N", 3, "W")),
            ("T. 02 N., R. 0030 W., sec. 14", Township(2, "N", 30, "W")),
            ("T 0002 N R 0003 W", Township(2, "N", 3, "W")),
        ):
            self.assertEqual(split(text)[0].township, township, text)

    def test_numbers_that_are_not_of_townships(self) -> None:
        for text, number, at in (
            ("T. 0 N.", 31, 3), ("T. 000 N.", 31, 3), ("T. 00100 N.", 31, 3), ("T. 20 N., R. 00100 W.", 33, 13),
        ):
            with self.assertRaises(Refused, msg=text) as caught:
                split(text)[0].township
            self.assertEqual((caught.exception.number, caught.exception.at), (number, at), text)

    def test_no_heading(self) -> None:
        for text, number in (("", 31), ("sec. 14", 31), ("T2N", 33), ("T. 2 N., R. 3, sec. 14", 34)):
            with self.assertRaises(Refused, msg=text) as caught:
                split(text)[0].township
            self.assertEqual(caught.exception.number, number, text)


if __name__ == "__main__":
    unittest.main()
