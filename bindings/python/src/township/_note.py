"""Notes on places of an accepted description that can be read in two ways."""
from __future__ import annotations

from typing import List, NamedTuple

from . import _library
from ._explanation import Explained


class Note(NamedTuple):
    """A note on a place of an accepted description that can be read in two ways.

    >>> note, = plat.notes("sec. 14, NE1/4 SE1/4.")
    >>> note.line, note.column
    (1, 16)
    >>> note.start, note.end
    (15, 20)
    >>> print(note.sentence.partition(";")[0])
    NE1/4 SE1/4 is read as one part of 40.00 acres, the NE1/4 of the SE1/4
    >>> print(note.text, end="")
    township: description:1:16: note: NE1/4 SE1/4 is read as one part of 40.00 acres, the NE1/4 of the
      SE1/4; if two parts were meant, write a comma after NE1/4 (320.00 acres)
      1 | sec. 14, NE1/4 SE1/4.
        |                ^^^^^
    """

    #: The line of the place, counted from 1.
    line: int
    #: The column, in characters, counted from 1.
    column: int
    #: The note, in the form that the program `township` prints on standard error.
    text: str

    #: Both readings of the place, with their acreage, without the location.
    sentence: str
    #: Where the place begins in the description: a byte of the UTF-8 text, counted from 0.
    start: int
    #: Where the place ends: the first byte after it.
    end: int


def notes_of(answer: _library.Answer, text: str, explained: Explained) -> List[Note]:
    """Return the note beside the answer that accepts a description, or nothing."""
    if explained.start is None or explained.end is None:
        return []
    return [Note(answer.line, answer.column, text, explained.sentence, explained.start, explained.end)]
