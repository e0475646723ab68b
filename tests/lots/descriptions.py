"""Reads a description by the grammar in docs/DESCRIPTIONS.md, without any code of the library.

`items_of(text)` is what the text names, in order, each with its place in the text, or raises `Refused` with a number
from 41 to 44. Whether a plat has the land is not its concern; see meaning.py.
"""

import re
from typing import NamedTuple

LIMIT = 65_536

TOKEN = re.compile(rb"[ \t\r\n]+|1/[24]|[A-Za-z]+|[0-9]+|\xc2[\xbc\xbd]|[,;:.]|.", re.DOTALL)

#: The kinds of tokens, by their letters in lowercase. Other words have no kind.
KINDS = {
    b"sec": "sec", b"secs": "sec", b"section": "sec", b"sections": "sec", b"lot": "lot", b"lots": "lot",
    b"to": "to", b"thru": "to", b"through": "to", b"inclusive": "inclusive",
    b"1/2": "half", b"\xc2\xbd": "half", b"1/4": "quarter", b"\xc2\xbc": "quarter",
    **{word.encode(): word for word in "all and of the t r n s e w ne nw se sw , ; : .".split()},
}

STEPS = frozenset(("n", "s", "e", "w", "ne", "nw", "se", "sw"))


class Refused(Exception):
    """The number of a refusal, and its place."""

    def __init__(self, number, at):
        super().__init__(number, at)
        self.number = number
        self.at = at


class Heading(NamedTuple):
    at: int
    township: tuple


class Sections(NamedTuple):
    """A range of sections; `whole` if no parts of it follow."""

    at: int
    first: int
    last: int
    last_at: int
    whole: bool


class Lots(NamedTuple):
    at: int
    first: int
    last: int
    last_at: int


class Part(NamedTuple):
    """An aliquot part, with its steps as they are written."""

    at: int
    steps: tuple


class All(NamedTuple):
    at: int


def items_of(text):
    """The items of a description. Raise `Refused` if it is not one."""
    return _Reader(text).description()


def aliquot_parts_of(text):
    """The aliquot parts of a list of them, as in `N1/2NE1/4 and SE1/4`. Raise `Refused` if it is not one."""
    return _Reader(text).aliquot_parts()


class _Reader:
    """Reads a text by one method for each rule of the grammar."""

    def __init__(self, text):
        if len(text) > LIMIT:
            raise Refused(41, LIMIT)
        self.kinds, self.values, self.places = [], [], []
        for found in TOKEN.finditer(text):
            token = found.group()
            kind = KINDS.get(token.lower())
            value = token
            if kind is None:
                first = token[0]
                if first in b" \t\r\n":
                    continue
                kind = "word"
                if 48 <= first <= 57:
                    if len(token) > 4:
                        raise Refused(43, found.start())
                    kind, value = "number", int(token)
                elif not token.isalpha():
                    raise Refused(42, found.start())
            self.kinds.append(kind)
            self.values.append(value)
            self.places.append(found.start())
        self.kinds.append("end")
        self.values.append(None)
        self.places.append(len(text))
        self.i = 0
        self.items = []

    def skip(self, kind):
        """Whether the next token is of this kind, which is then taken."""
        if self.kinds[self.i] != kind:
            return False
        self.i += 1
        return True

    def take(self, *kinds):
        """The place and the value of the next token, which has to be of one of these kinds."""
        i = self.i
        if self.kinds[i] not in kinds:
            raise Refused(44, self.places[i])
        self.i += 1
        return self.places[i], self.values[i]

    def description(self):
        if self.kinds[0] == "t":
            self.heading()
        self.group()
        while self.skip(";"):
            self.skip("and")
            self.group()
        self.skip(".")
        self.take("end")
        return self.items

    def heading(self):
        at, _ = self.take("t")
        self.skip(".")
        _, number = self.take("number")
        _, north_south = self.take("n", "s")
        self.skip(".")
        self.skip(",")
        self.take("r")
        self.skip(".")
        _, range_number = self.take("number")
        _, east_west = self.take("e", "w")
        self.skip(".")
        self.skip(",")
        sides = north_south.decode().upper(), east_west.decode().upper()
        self.items.append(Heading(at, (number, sides[0], range_number, sides[1])))

    def group(self):
        self.take("sec")
        self.skip(".")
        ranges, separator, several = self.entries()
        if separator == "and":
            # After `and`, only the number of another section may follow.
            self.take("number")
        if not separator and self.skip(":"):
            separator = ":"
        kind = self.kinds[self.i]
        has_parts = bool(separator) or kind in STEPS or kind in ("lot", "all")
        if several:
            if has_parts:
                self.take("all")
            self.items.extend(Sections(*each, True) for each in ranges)
            return
        self.items.append(Sections(*ranges[0], not has_parts))
        if has_parts:
            self.parts()

    def entries(self):
        """Numbers and ranges; the separator after them if no number follows it; and whether they are several."""
        ranges, several = [], False
        while True:
            at, first = self.take("number")
            last, last_at, ranged = first, at, self.skip("to")
            if ranged:
                last_at, last = self.take("number")
                several = True
                ranged = not self.skip("inclusive")
            ranges.append((at, first, last, last_at))
            separator = ""
            if self.skip(","):
                separator = ","
                if ranged and self.skip("inclusive"):
                    separator = "," if self.skip(",") else ""
            if self.skip("and"):
                separator = "and"
            if not separator or self.kinds[self.i] != "number":
                return ranges, separator, several
            several = True

    def parts(self):
        """One or more parts of a section."""
        while True:
            kind = self.kinds[self.i]
            if kind == "lot":
                self.i += 1
                ranges, separator, _ = self.entries()
                self.items.extend(Lots(*each) for each in ranges)
                if not separator:
                    return
                continue
            if kind == "all":
                self.items.append(All(self.places[self.i]))
                self.i += 1
            else:
                self.items.append(self.aliquot_part())
            if not (self.skip(",") | self.skip("and")):
                return

    def aliquot_part(self):
        at = self.places[self.i]
        steps = [self.step()]
        while True:
            if self.skip("of"):
                self.skip("the")
            elif self.kinds[self.i] not in STEPS:
                return Part(at, tuple(steps))
            steps.append(self.step())

    def step(self):
        _, letters = self.take(*STEPS)
        self.take("half" if len(letters) == 1 else "quarter")
        return letters.decode().lower()

    def aliquot_parts(self):
        """Only aliquot parts, to the end of the text."""
        found = [self.aliquot_part()]
        while self.skip(",") | self.skip("and"):
            found.append(self.aliquot_part())
        self.take("end")
        return found
