"""Reads the lists of texts in definitions: `lists_of(texts)` works out what the lists in files of `specs/` contain.

A definition of a list is read if it is written with numbers, names of other definitions, `codes`, and the functions below,
which are those of twp_rules. Any other form is an error, so that no list is skipped.
"""

import re
from typing import Any, Dict, Iterable, List, NamedTuple, Optional

#: A definition of a text, or of a list of texts or entries.
HEADING = re.compile(r"^abbrev pub (\w+) : (?:List ℕ|List \(List ℕ\)|List Entry)$", re.M)
DEFINITION = re.compile(HEADING.pattern[:-1] + r"\n\1 =(.*?)(?=\n\n|\n--|\n\w|\Z)", re.M | re.S)
SIGN = re.compile(r'"[^"]*"|\d+|∷|\+\+|⇒|\(|\)|\[\]|[\w-]+')


class Entry(NamedTuple):
    """A text in a list, and what is written for it, if the list says so."""

    seen: bytes
    written: Optional[bytes] = None


class Unread(Exception):
    """A definition in a form that can't be read."""


def all_as(texts, written):
    return [Entry(seen, written) for seen in as_list(texts)]


def each_as(texts, written):
    return [Entry(*both) for both in zip(as_list(texts), as_list(written), strict=True)]


#: The functions with which lists are written, besides `codes`, and what each makes of its arguments.
FUNCTIONS = {
    "words": lambda text: text.split(b" "),
    "texts": lambda text: text.split(b"|"),
    "left_out": lambda seen: Entry(seen, b""),
    "all_as": all_as,
    "each_as": each_as,
    "pairs": lambda texts: [Entry(*it.split(b"=", 1)) for it in as_list(texts)],
    "all_left_out": lambda texts: all_as(texts, b""),
    "all_inserted": lambda texts: [Entry(b"", written) for written in as_list(texts)],
}


def as_list(value) -> List[Any]:
    """A list, which is written like an empty text if it is empty."""
    return [] if value == b"" else value


class Reader:
    """Reads one definition from left to right."""

    def __init__(self, text: str, known: Dict[str, Any]):
        self.signs = SIGN.findall(text)
        self.known = known

    def value(self):
        """A whole definition."""
        value = self.entry()
        if self.signs:
            raise Unread(self.signs[0])
        return value

    def entry(self):
        """A list, or a text and what is written for it."""
        seen = self.chain()
        if self.signs[:1] != ["⇒"]:
            return seen
        self.signs.pop(0)
        return Entry(seen, self.chain())

    def chain(self):
        """Values with `∷` or `++` between them, which associate to the right."""
        first = self.application()
        if self.signs[:1] == ["∷"]:
            self.signs.pop(0)
            rest = self.chain()
            return bytes([first]) + rest if isinstance(first, int) else [first] + as_list(rest)
        if self.signs[:1] == ["++"]:
            self.signs.pop(0)
            rest = self.chain()
            both_texts = isinstance(first, bytes) and isinstance(rest, bytes)
            return first + rest if both_texts else as_list(first) + as_list(rest)
        return first

    def application(self):
        """A value, or a function with its arguments."""
        sign = self.signs.pop(0) if self.signs else "the end"
        if sign == "codes":
            return self.signs.pop(0)[1:-1].encode()
        if sign in FUNCTIONS:
            arguments = []
            while self.signs and self.signs[0] not in ("∷", "++", "⇒", ")"):
                arguments.append(self.atom())
            return FUNCTIONS[sign](*arguments)
        self.signs.insert(0, sign)
        return self.atom()

    def atom(self):
        """A number, an empty list, a name, or a value in parentheses."""
        sign = self.signs.pop(0)
        if sign == "(":
            value = self.entry()
            if self.signs[:1] != [")"]:
                raise Unread("a parenthesis")
            self.signs.pop(0)
            return value
        if sign == "[]":
            return b""
        if sign.isdigit():
            return int(sign)
        if sign in self.known:
            return self.known[sign]
        raise Unread(sign)


def bodies_in(text: str) -> Dict[str, str]:
    """The bodies of the definitions of texts and lists in a file, by name."""
    found = {name: body for name, body in DEFINITION.findall(text)}
    for name in HEADING.findall(text):
        if name not in found:
            raise Unread(f"{name} is in a form that isn't read")
    return found


def lists_of(texts: Iterable[str]) -> Dict[str, List[Entry]]:
    """The lists that some files define, by name. A definition may come before those that it names."""
    bodies: Dict[str, str] = {}
    for text in texts:
        found = bodies_in(text)
        for name in set(found) & set(bodies):
            raise Unread(f"{name} is defined twice")
        bodies.update(found)
    known: Dict[str, Any] = {}
    while set(bodies) - set(known):
        known.update(values_of({name: bodies[name] for name in bodies if name not in known}, known))
    return {name: entries_of(value) for name, value in known.items() if isinstance(value, list)}


def values_of(bodies: Dict[str, str], known: Dict[str, Any]) -> Dict[str, Any]:
    """The values of those definitions that name only known ones."""
    values = {}
    fault = None
    for name, body in bodies.items():
        try:
            values[name] = Reader(body, known).value()
        except (Unread, IndexError, TypeError, ValueError) as found:
            fault = Unread(f"{name} is in a form that isn't read, at {found}")
    if fault and not values:
        raise fault
    return values


def entries_of(value: List[Any]) -> List[Entry]:
    """The entries of a list, some of which may be only texts."""
    return [it if isinstance(it, Entry) else Entry(it) for it in value]
