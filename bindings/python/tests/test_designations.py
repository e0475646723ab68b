"""Tests of the spellings of a township, with a reader of them that shares nothing with the library."""
from __future__ import annotations

import itertools
import random
import re
import unittest
from typing import List, NamedTuple, Optional, Tuple

from samples import TOP
from township import Land, Refused, Township

_SMALL = "one two three four five six seven eight nine".split()
_TEENS = "ten eleven twelve thirteen fourteen fifteen sixteen seventeen eighteen nineteen".split()
_TENS = {"twenty": 20, "thirty": 30}

# The words and marks that a spelling may contain, as one letter each.
_WORDS = {
    **dict.fromkeys("t tp twp twsp township".split(), "T"),
    **dict.fromkeys("r rg rge rng range".split(), "R"),
    **dict.fromkeys("n north s south".split(), "v"),
    **dict.fromkeys("e east w west".split(), "h"),
    **dict.fromkeys(_SMALL, "u"),
    **dict.fromkeys(_TEENS, "d"),
    **dict.fromkeys(_TENS, "t"),
    **{mark: mark for mark in ".,-/"},
}

_NUMBER = "(?:d|u|t(?:-?u)?)"
_TIER, _RANGE = f"{_NUMBER}-?v[.]?", f"{_NUMBER}-?h[.]?,?"

#: The forms of a spelling, over these letters; `f` is a register's number.
_FORMS = [
    f"T[.-]?{_TIER}[-,/]?R[.-]?{_RANGE}",
    f"{_TIER}[-,/]?{_RANGE}",
    "fv[-,/]?fh[.]?,?",
]

_TOKEN = re.compile(rb"[A-Za-z]+|1/[24]|[0-9]+|\xc2[\xbc\xbd]|[^ \t\r\n]", re.DOTALL)


class _Token(NamedTuple):
    letter: str
    value: int
    text: str
    at: int


def _tokens(text: bytes) -> List[_Token]:
    """The words, numbers, and marks of a text. What no spelling contains has the letter `x`."""
    tokens = []
    for found in _TOKEN.finditer(text):
        word = found[0].decode("latin-1").lower()
        letter, value = _WORDS.get(word, "x"), 0
        if re.fullmatch("[0-9]{1,3}", word) and 1 <= int(word) <= 99:
            letter, value = "d", int(word)
        elif re.fullmatch("[0-9]{3}0", word) and 10 <= int(word) <= 990:
            letter, value = "f", int(word) // 10
        elif word in _SMALL:
            value = 1 + _SMALL.index(word)
        elif word in _TEENS:
            value = 10 + _TEENS.index(word)
        elif word in _TENS:
            value = _TENS[word]
        tokens.append(_Token(letter, value, word, found.start()))
    return tokens


def _all_of(form: str) -> List[str]:
    """All sequences of letters that a form allows."""
    pieces = re.findall(r"\(\?:[^()]*(?:\([^()]*\)[^()]*)*\)\??|\[[^]]*\]\??|.\??", form)
    choices = []
    for piece in pieces:
        inner = piece[:-1] if piece.endswith("?") and len(piece) > 1 else piece
        if inner.startswith("(?:"):
            options = ["d", "u", "t", "tu", "t-u"]
        elif inner.startswith("["):
            options = list(inner[1:-1])
        else:
            options = [inner]
        choices.append(options + [""] * (inner != piece))
    return ["".join(each) for each in itertools.product(*choices)]


_SEQUENCES = {sequence for form in _FORMS for sequence in _all_of(form)}
_FRONTS = {sequence[:length] for sequence in _SEQUENCES for length in range(len(sequence) + 1)}


def slow(text: bytes) -> Tuple[Optional[Township], Optional[Tuple[int, int]]]:
    """The township that a text spells, or the number and the place of its refusal."""
    tokens = _tokens(text)
    letters = "".join(token.letter for token in tokens)
    most = next(n for n in range(len(letters), -1, -1) if letters[:n] in _FRONTS)
    parts = {"v": None, "h": None}
    numbers = [0, 0]
    for token in tokens[:most]:
        if token.letter in parts:
            parts[token.letter] = token.text[0].upper()
        numbers[parts["v"] is not None] += token.value
    if letters in _SEQUENCES:
        return Township(numbers[0], parts["v"], numbers[1], parts["h"]), None
    number = next(
        (number for number, there in enumerate((numbers[0], parts["v"], numbers[1], parts["h"]), 31) if not there), 35
    )
    return None, (number, tokens[most].at if most < len(tokens) else len(text))


def fast(text: bytes) -> Tuple[Optional[Township], Optional[Tuple[int, int]]]:
    """The same by the library."""
    try:
        return Township.of(text.decode("utf-8", "surrogateescape")), None
    except Refused as refused:
        return None, (refused.number, refused.at)


class Spellings(unittest.TestCase):
    def test_worked_examples(self):
        wanted = Township(2, "N", 3, "W")
        for text in ("T. 2 N., R. 3 W.", "T. 2 N., R. 3 W.,", "t2n r3w", "T2N-R3W", "T-2-N, R-3-W", "2N-3W", "2N3W",
                     "2n/3w", "0020N 0030W", "0020N-0030W", "T. 02 N., R. 003 W.", "Township 2 North, Range 3 West",
                     "TOWNSHIP TWO NORTH, RANGE THREE WEST", "Twp. 2 N Rge. 3 W", " 2\tN\r\n3 W "):
            with self.subTest(text=text):
                self.assertEqual(Township.of(text), wanted)
                self.assertEqual(slow(text.encode()), (wanted, None))
        self.assertEqual(Township.of("Township Twenty-five South, Range Thirty One East"), Township(25, "S", 31, "E"))
        self.assertEqual(Township.of("0990S 0100E"), Township(99, "S", 10, "E"))

    def test_worked_refusals(self):
        for text, number, at in (
            ("", 31, 0), ("  ", 31, 2), ("T. 0 N., R. 3 W.", 31, 3), ("T. 100 N., R. 3 W.", 31, 3), ("T2", 32, 2),
            ("T2 3W", 32, 3), ("T2NR3W", 32, 2), ("T. 2 E., R. 3 W.", 32, 5), ("T2N", 33, 3), ("T2N 3W", 33, 4),
            ("2N R3W", 33, 3), ("T2N R0W", 33, 5), ("T2N R3", 34, 6),
            ("T2N R3N", 34, 6), ("T. 2 N., R. 3 W., sec. 14", 35, 18), ("2N-3W-14", 35, 5), ("T2N R3W B.M.", 35, 8),
            # A register writes half townships with the fraction digit 2. With letters, four digits could be either.
            ("0022N 0030W", 31, 0), ("T. 0020 N., R. 0030 W.", 31, 3), ("0020N 3W", 33, 6), ("2N 0030W", 33, 3),
            ("Township five five North", 32, 14), ("Twenty-", 32, 7), ("T2N – R3W", 33, 4),
        ):
            with self.subTest(text=text):
                self.assertEqual(fast(text.encode()), (None, (number, at)))
                self.assertEqual(slow(text.encode()), (None, (number, at)))
        with self.assertRaises(Refused) as caught:
            Township.of("x" * 65_537)
        self.assertEqual((caught.exception.number, caught.exception.at), (36, 65_536))

    def test_documented_spellings(self):
        page = (TOP / "docs" / "TOWNSHIPS.md").read_text(encoding="utf-8")
        rows = re.findall(r"^\| (`.*`) \| [^|]* \|$", page, re.MULTILINE)
        spellings = [spelling for row in rows for spelling in re.findall("`([^`]*)`", row)]
        self.assertGreater(len(spellings), 8)
        for spelling in spellings:
            with self.subTest(spelling=spelling):
                self.assertEqual(Township.of(spelling), Township(2, "N", 3, "W"))
        examples = re.findall(r"^\| (\d+) `\w+` \| .* \| `([^`]*)`: (\d+) at (\d+) \|$", page, re.MULTILINE)
        self.assertEqual([int(number) for number, *_ in examples], [31, 32, 33, 34, 35])
        for _, text, number, at in examples:
            with self.subTest(text=text):
                self.assertEqual(fast(text.encode()), (None, (int(number), int(at))))

    def test_sentences(self):
        for text, line, column, sentence in (
            ("T. 2 N.,\nR. 300 W.", 2, 4, "unexpected `300 W.`; expected the range, as in R. 3 W."),
            ("½ N", 1, 1, "unexpected `½ N`; expected the township number, 1 to 99"),
            ("T2N R3W " + "é " * 40, 1, 9, f"unexpected `{'é ' * 30} ..`; expected nothing after the township"),
            ("T2N R3", 1, 7, "incomplete township: expected E or W"),
            ("T2N\u00a0R3W", 1, 4, r"unexpected `\u{A0}R3W`; expected the range, as in R. 3 W."),
            ("T2N R3W\u00a0", 1, 8, r"unexpected `\u{A0}`; expected nothing after the township"),
            ("T2N \x1b[31m", 1, 5, r"unexpected `\u{1B}[31m`; expected the range, as in R. 3 W."),
            (" \t", 1, 3, "the township is missing"),
        ):
            with self.subTest(text=text), self.assertRaises(Refused) as caught:
                Township.of(text)
            refused = caught.exception
            self.assertEqual((refused.line, refused.column, refused.sentence), (line, column, sentence))
            self.assertEqual(str(refused), f"township:{line}:{column}: {sentence}")
            self.assertEqual(refused.explanation, f"township: {refused}\n")

    def test_what_is_named(self):
        for named in ("2N-3W", b"2N-3W", (2, "N", 3, "W"), [2, "N", 3, "W"], Township(2, "N", 3, "W")):
            self.assertEqual(Land.empty(named).township, (2, "N", 3, "W"))
        with self.assertRaisesRegex(ValueError, "a township has four parts, such as .*, not 3"):
            Land.empty((2, "N", 3))
        for wrong in (None, 5, Land.empty("2N-3W")):
            with self.assertRaisesRegex(TypeError, "a township is a text or its four parts, not "):
                Land.empty(wrong)

    def test_each_township_is_read_back(self):
        counted = 0
        for parts in itertools.product(range(1, 100), "NS", range(1, 100), "EW"):
            number, north_south, range_number, east_west = parts
            if (number + range_number) % 7:
                continue
            each = Township(*parts)
            self.assertEqual(Township.of(str(each)), each)
            self.assertEqual(Township.of(f"{number:03}0{north_south} {range_number:03}0{east_west}"), each)
            counted += 1
        self.assertGreater(counted, 5_000)

    def test_each_sequence_of_tokens(self):
        # Each sequence that a form allows, and each of these with one token more, less, or another.
        written = {"T": "Twp", "R": "Range", "v": "n", "h": "West", "u": "five", "d": "12", "t": "Thirty", "f": "0170"}
        chosen = random.Random(65)
        accepted = refused = 0
        for sequence in chosen.sample(sorted(_SEQUENCES), 3_000):
            letters = list(sequence)
            for _ in range(3):
                text = " ".join(written.get(letter, letter) for letter in letters).encode()
                self.assertEqual(fast(text), slow(text), text)
                accepted += slow(text)[0] is not None
                refused += slow(text)[0] is None
                letters = list(sequence)
                place = chosen.randrange(len(letters) + 1)
                other = chosen.choices(sorted({*written, *".,-/", "x"}), k=chosen.randrange(2))
                letters[place : place + chosen.randrange(2)] = other
        self.assertGreater(accepted, 3_000)
        self.assertGreater(refused, 3_000)

    def test_random_texts(self):
        pieces = [*"TRNSEWt2.,-/ \t\n½–\0é", "03", "100", "0020", "0250", "0000", "00020", "1/2", "sec", "and", *_SMALL[:3],
                  "Twenty", "thirty", "TWELVE", "North", "south", "East", "west", "Township", "range", "Twp", "nor"]
        usual = ("T. 2 N., R. 3 W.", "2N-3W", "Township Twenty-one South, Range 4 East", "0020N 0030W")
        chosen = random.Random(1785)
        accepted = refused = 0
        for _ in range(30_000):
            if chosen.random() < 0.5:
                text = "".join(chosen.choices(pieces, k=chosen.randrange(14)))
            else:
                text = chosen.choice(usual)
                place = chosen.randrange(len(text) + 1)
                added = "".join(chosen.choices(pieces, k=chosen.randrange(3)))
                text = text[:place] + added + text[place + chosen.randrange(3) :]
            given = text.encode()
            self.assertEqual(fast(given), slow(given), text)
            accepted += slow(given)[0] is not None
            refused += slow(given)[0] is None
        self.assertGreater(accepted, 1_000)
        self.assertGreater(refused, 10_000)


if __name__ == "__main__":
    unittest.main()
