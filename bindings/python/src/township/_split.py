"""Splits a text with the land of several townships into their descriptions."""
from __future__ import annotations

from textwrap import shorten
from typing import Any, List, NamedTuple

from . import _library
from ._refused import DESCRIPTION, Refusal, Refused, failure_of, refused_as_a_whole, refused_in
from ._spelling import township_in_heading
from ._text import Text, encoded
from ._township import Township

#: The room for parts in a first call.
_PARTS = 64

#: The most characters of a description in the representation of a part.
_SHOWN_MOST = 100

#: What a text with several parts is called in an explanation.
SOURCE = DESCRIPTION.decode()


class TownshipText(NamedTuple):
    """The part of a text that is about one township.

    >>> part = township.split("T. 2 N., R. 3 W., sec. 5, lot 1; T. 3 N., R. 3 W., sec. 31.")[1]
    >>> part.text, part.start, part.end
    ('T. 3 N., R. 3 W., sec. 31.', 33, 59)
    >>> part.township == township.Township(3, "N", 3, "W")
    True
    """

    #: The description.
    text: str
    #: Its place in the whole text: the bytes in UTF-8 from `start` to before `end`.
    start: int
    end: int

    @property
    def township(self) -> Township:
        """The township in its heading. Raise `Refused` if it does not begin with a heading.

        As in a description, zeros before a number mean nothing: `T. 0020 N.` is township 20.
        """
        return township_in_heading(encoded(self.text))

    def __repr__(self) -> str:
        shown = shorten(self.text, _SHOWN_MOST, placeholder=" ..")
        return f"<township.TownshipText {self.start} to {self.end}: {shown}>"


def split(text: Text) -> List[TownshipText]:
    """Split a text with the land of several townships into their descriptions.

    A part begins with its heading, and ends before the `;` or `; and` that the next heading follows. It may be refused
    when it is read. A text with one township, or without a heading, is its only part. Raise `Refused` if the text has a
    heading, but its first land has none (38), or if it is too long (39). `docs/SEVERAL-TOWNSHIPS.md` has more examples.

    >>> for part in township.split("T2N R3W sec. 5, lots 1 and 2; and T3N R3W secs. 31 and 32"):
    ...     print(part.township, part.text)
    T. 2 N., R. 3 W. T2N R3W sec. 5, lots 1 and 2
    T. 3 N., R. 3 W. T3N R3W secs. 31 and 32
    >>> township.split("sec. 5; T. 2 N., R. 3 W., sec. 6.")
    Traceback (most recent call last):
        ...
    township.Refused: description:1:9: the land before this heading has no heading
    """
    given = encoded(text)
    room = _PARTS
    while True:
        found: Any = (_library.Stretch * room)()
        answer = _library.split(given, len(given), found, room)
        if answer.verdict != _library.NO_ROOM:
            break
        room = answer.length
    if answer.verdict == _library.REFUSED:
        raise _refused(given, answer.number, answer.at)
    if answer.verdict != _library.ACCEPTED:
        raise failure_of(answer.verdict)
    return [_part_of(given, stretch.start, stretch.end) for stretch in found[: answer.length]]


def _part_of(given: bytes, start: int, end: int) -> TownshipText:
    """Return a part of a text. Bytes that are not characters stay in it, so that they are refused."""
    return TownshipText(given[start:end].decode("utf-8", "surrogateescape"), start, end)


def _refused(given: bytes, number: int, at: int) -> Refused:
    """Return the refusal of a text that can't be split."""
    refusal = Refusal(number, at)
    if number == _library.REFUSAL_SPLIT_TOO_LARGE:
        return refused_as_a_whole(SOURCE, refusal, f"the text is longer than {at:,} bytes")
    return refused_in(SOURCE, given, refusal, at + 1, "the land before this heading has no heading")
