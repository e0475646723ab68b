"""The land of a description in the formal language of docs/DESCRIPTIONS.md, worked out without the program.

`land_of(text)` is the land of a text, or None if the program would refuse it on a township whose lots are those of
samples/b1.csv: a text that is not formal, land that is not there, a part with land of a lot, or land that is named
twice. With `over_lots`, a part may include whole lots. A land is a pair: the township and range, and a frozen set of
sections with their places. The places of a section are a number with 1,024 bits, one for each of the 32 by 32 squares
of the smallest size. Lots are places, too, since they can't be divided. mutated.py compares lands by it, since one run
of the program for each text would take minutes, and checks it against the program.
"""

import functools
import re

SIDE = 32
TOWNSHIP = (2, "N", 3, "W")
WHOLE = (1 << SIDE * SIDE) - 1

NUMBER = re.compile(r"\d+")
TOKEN = re.compile(r"1/[24](?!\d)|[½¼]|[a-zA-Z]+|\d+|[.,:;]|[ \t\r\n]+|.", re.DOTALL)
KINDS = {"sec": "sec", "secs": "sec", "section": "sec", "sections": "sec", "lot": "lot", "lots": "lot",
         "to": "to", "thru": "to", "through": "to", "1/2": "half", "½": "half", "1/4": "quarter", "¼": "quarter"}
WORDS = {"all", "and", "inclusive", "of", "the", "t", "r", "n", "s", "e", "w", "ne", "nw", "se", "sw"}


class Refused(Exception):
    """The program would refuse the text."""


def square(part):
    """The places of a part of steps, from the largest to the smallest, such as ["ne", "s"] for S1/2NE1/4."""
    west, south, width, height = 0, 0, SIDE, SIDE
    for step in part:
        for letter in step:
            if letter in "ns":
                height //= 2
                south += height if letter == "n" else 0
            else:
                width //= 2
                west += width if letter == "e" else 0
        if not width or not height:
            raise Refused("too fine")
    row = ((1 << width) - 1) << west
    places = 0
    for number in range(south, south + height):
        places |= row << SIDE * number
    return places


def lots_of(section):
    """The places of the lots of a section, by their numbers."""
    north = [["ne", "ne"], ["ne", "nw"], ["nw", "ne"], ["nw", "nw"]]
    west = [["nw", "nw"], ["nw", "sw"], ["sw", "nw"], ["sw", "sw"]]
    if 1 <= section <= 5:
        parts = north
    elif section == 6:
        parts = north + west[1:]
    else:
        parts = west if section in (7, 18, 19, 30, 31) else []
    return {number: square(part) for number, part in enumerate(parts, 1)}


LOTS = {section: lots_of(section) for section in range(1, 37)}


class Parser:
    """Reads a formal text by one method for each rule of its grammar."""

    def __init__(self, text, over_lots):
        self.over_lots = over_lots
        self.tokens = []
        for token in TOKEN.findall(text):
            lower = token.lower()
            if NUMBER.fullmatch(token):
                if len(token) > 4:
                    raise Refused("number")
                self.tokens.append(("number", int(token)))
            elif lower in KINDS:
                self.tokens.append((KINDS[lower], lower))
            elif lower in WORDS or token in ".,:;":
                self.tokens.append((lower, lower))
            elif token.strip(" \t\r\n"):
                raise Refused("token")
        self.at = 0
        self.sections = {}

    def kind(self, ahead=0):
        return self.tokens[self.at + ahead][0] if self.at + ahead < len(self.tokens) else "end"

    def take(self, *kinds):
        """The next token, which has to be of one of these kinds."""
        if self.kind() not in kinds:
            raise Refused("syntax")
        self.at += 1
        return self.tokens[self.at - 1][1]

    def skip(self, *kinds):
        """Whether the next token is of one of these kinds, which is then taken."""
        found = self.kind() in kinds
        self.at += found
        return found

    def land(self):
        township = self.heading() if self.kind() == "t" else TOWNSHIP
        self.group()
        while self.skip(";"):
            self.skip("and")
            self.group()
        self.skip(".")
        if self.kind() != "end" or not (1 <= township[0] <= 99 and 1 <= township[2] <= 99):
            raise Refused("syntax or heading")
        return township, frozenset(self.sections.items())

    def heading(self):
        self.take("t")
        self.skip(".")
        tier, side = self.take("number"), self.take("n", "s")
        self.skip(".")
        self.skip(",")
        self.take("r")
        self.skip(".")
        range_, other = self.take("number"), self.take("e", "w")
        self.skip(".")
        self.skip(",")
        return tier, side.upper(), range_, other.upper()

    def numbers(self):
        """The numbers of a list of numbers and ranges."""
        numbers = []
        while True:
            first = self.take("number")
            last = first
            if self.skip("to"):
                last = self.take("number")
                if last <= first:
                    raise Refused("range")
                if self.kind() == "inclusive" or (self.kind() == "," and self.kind(1) == "inclusive"):
                    self.skip(",")
                    self.take("inclusive")
            numbers.extend(range(first, last + 1))
            # A comma, `and`, or both, and a number after them, continue the list.
            ahead = 0
            ahead += self.kind(ahead) == ","
            ahead += self.kind(ahead) == "and"
            if not ahead or self.kind(ahead) != "number":
                return numbers
            self.at += ahead

    def name(self, section, places):
        if not 1 <= section <= 36:
            raise Refused("section")
        if self.sections.get(section, 0) & places:
            raise Refused("named twice")
        self.sections[section] = self.sections.get(section, 0) | places

    def group(self):
        self.take("sec")
        self.skip(".")
        sections = self.numbers()
        if any(not 1 <= section <= 36 for section in sections):
            raise Refused("section")
        marked = self.skip(",", ":")
        if self.kind() in (";", ".", "end") and not marked:
            for section in sections:
                self.name(section, WHOLE)
            return
        if len(sections) > 1:
            self.take("all")
            for section in sections:
                self.name(section, WHOLE)
            return
        while True:
            self.part(sections[0])
            if not (self.skip(",") + self.skip("and")):
                return

    def part(self, section):
        if self.skip("all"):
            self.name(section, WHOLE)
        elif self.skip("lot"):
            for number in self.numbers():
                if number not in LOTS[section]:
                    raise Refused("lot")
                self.name(section, LOTS[section][number])
        else:
            steps = [self.step()]
            while self.kind() in ("of", "n", "s", "e", "w", "ne", "nw", "se", "sw"):
                if self.skip("of"):
                    self.skip("the")
                steps.append(self.step())
            places = square(reversed(steps))
            for lot in LOTS[section].values():
                if places & lot and not (self.over_lots and places & lot == lot):
                    raise Refused("part of a lot")
            self.name(section, places)

    def step(self):
        letters = self.take("n", "s", "e", "w", "ne", "nw", "se", "sw")
        self.take("half" if len(letters) == 1 else "quarter")
        return letters


@functools.lru_cache(maxsize=None)
def land_of(text, over_lots=False):
    """The land of a formal text, or None if the program would refuse it."""
    try:
        return Parser(text, over_lots).land()
    except Refused:
        return None
