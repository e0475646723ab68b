"""Reads a township as it is spelled: in the heading of a description, in words, or by a register."""
from __future__ import annotations

import functools
import re
from ctypes import byref
from typing import Tuple, Union

from . import _library
from ._refused import Refusal, Refused, failure_of, refusal_of, refused_as_a_whole, refused_in
from ._text import encoded
from ._township import Township, checked, township_of

#: A township: its spelling, or the parts of its designation.
Named = Union[str, Tuple[int, str, int, str]]

# What is expected at the place of a refusal, by its number.
_EXPECTED = {
    31: "the township number, 1 to 99",
    32: "N or S",
    33: "the range, as in R. 3 W.",
    34: "E or W",
    35: "nothing after the township",
}

#: The number of the refusal of a text that is too long, which has no place in the text.
_TOO_LARGE = 36

#: The most characters of a text that a sentence shows.
_SHOWN_MOST = 60

#: What is between the white space that a spelling can have.
_WORDS = re.compile(r"[^ \t\n\v\f\r]+")


def township_named(named: Named) -> Township:
    """Return a township that is given by its spelling, or by the parts of its designation.

    Raise `ValueError` if it is not a township, and `TypeError` for any other value.

    >>> township_named("T2N R3W") == township_named((2, "N", 3, "W"))
    True
    """
    if isinstance(named, (str, bytes)):
        return township_spelled(named)
    if not isinstance(named, (tuple, list)):
        raise TypeError(f"a township is a text or its four parts, not {type(named).__name__}")
    return checked(named)


@functools.lru_cache(maxsize=1024)
def township_spelled(spelling: str) -> Township:
    """Return the township that a text spells. Raise `Refused` if it spells none."""
    given = encoded(spelling)
    read = _read(given)
    if isinstance(read, Township):
        return read
    raise _refused(given, read.number, read.at)


def _read(given: bytes) -> Union[Township, Refusal]:
    """Return the township that a text spells, or its refusal."""
    parts = _library.Designation()
    answer = _library.designation_read(given, len(given), byref(parts))
    if answer.verdict == _library.ACCEPTED:
        return township_of(parts)
    if answer.verdict != _library.REFUSED:
        raise failure_of(answer.verdict)
    return refusal_of(answer)


def township_in_heading(description: bytes) -> Township:
    """Return the township in the heading of a description. Raise `Refused` if it does not begin with a heading.

    In a heading, zeros before a number mean nothing, even if it has four digits, as the number of a register has.

    >>> print(township_in_heading(b"T. 0020 N., R. 3 W., sec. 14, NE1/4."))
    T. 20 N., R. 3 W.
    """
    given = description
    while True:
        read = _read(given)
        if isinstance(read, Township):
            return read
        number, at = read
        if number == _library.REFUSAL_DESIGNATION_AFTER:
            # Land follows the township, at this place.
            given = given[:at]
            continue
        without = _without_zeros(given, at)
        if without == given:
            raise _refused(description, number, _start_of_number(description, at))
        given = without


def _without_zeros(given: bytes, at: int) -> bytes:
    """Return a text with spaces for the zeros at the beginning of the number at a place."""
    number = given[at:].lstrip(b"0")
    return given[:at] + number.rjust(len(given) - at) if number[:1].isdigit() else given


def _start_of_number(description: bytes, at: int) -> int:
    """Return where the number begins of which there is a digit at a place, or the place itself."""
    while at and description[at - 1 : at + 1].isdigit():
        at -= 1
    return at


def _refused(given: bytes, number: int, at: int) -> Refused:
    """Return the refusal of a text that spells no township."""
    refusal = Refusal(number, at)
    if number == _TOO_LARGE:
        return refused_as_a_whole("township", refusal, f"the text is longer than {at:,} bytes")
    expected = _EXPECTED.get(number, "a township, as in T. 2 N., R. 3 W.")
    rest = _shortened(given[at:].decode("utf-8", "replace"))
    if rest:
        sentence = f"unexpected `{rest}`; expected {expected}"
    elif given.strip():
        sentence = f"incomplete township: expected {expected}"
    else:
        sentence = "the township is missing"
    return refused_in("township", given, refusal, len(given), sentence)


def _shortened(text: str) -> str:
    """Return a text on one line, without white space around it and without its end if it is long.

    A character that can't be printed, such as a no-break space, is shown by its number.
    """
    line = "".join(each if each.isprintable() else f"\\u{{{ord(each):X}}}" for each in " ".join(_WORDS.findall(text)))
    return line if len(line) <= _SHOWN_MOST else f"{line[:_SHOWN_MOST]} .."
