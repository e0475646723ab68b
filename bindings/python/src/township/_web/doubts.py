"""The doubtful places of an accepted description: all of them, and not only the first, which the library notes.

To find the next place, the one before it is written without doubt, so that the land stays the same: the library then
notes the next one.
"""
from __future__ import annotations

import re
from typing import Dict, Iterable, Iterator, List, NamedTuple, Optional, Tuple, Union

from .._land import Land
from .._lots import Lots
from .._note import Note
from .._plat import Plat
from .._refused import Refused
from .._text import encoded
from .limits import DOUBTS_MOST, DOUBTS_OF_LIST_MOST
from .refusals import Json, note_json

#: What a note says of the places after its own.
_MORE = re.compile(r"^\s*(\d+) more such places?$", re.MULTILINE)

#: The most bytes of text that are looked at again to find further places, so that an answer does not take long.
_BYTES_MOST = 1 << 18

#: White space, which doubtful parts have between them, and the word that they may have instead.
_WHITE, _AND = b" \t\r\n", b" and "


class Doubts(NamedTuple):
    """The notes on a description, with their places in it."""

    notes: Tuple[Note, ...] = ()
    #: The number of places after them that are doubtful as well.
    more: int = 0

    def first(self, most: int) -> Doubts:
        """Return the first `most` notes."""
        notes = self.notes[:most]
        return Doubts(notes, self.more + len(self.notes) - len(notes))

    def json(self, description: str) -> List[Json]:
        """Return the notes on the text that this is about, of which the last says how many more there are."""
        found = [note_json(note, description) for note in self.notes]
        if self.more:
            places = "place" if self.more == 1 else "places"
            found[-1]["sentence"] = f"{self.notes[-1].sentence}; {self.more:,} more such {places}"
        return found


def doubts_of(by: Union[Plat, Lots], description: str, land: Land, most: int) -> Doubts:
    """Return the first `most` notes on an accepted description, which is of this land: fewer if it is long."""
    given = encoded(description)
    most = min(most, _BYTES_MOST // (len(given) + 1))
    found: List[Note] = []
    # The text in which the places so far are written without doubt, and how much shorter it is.
    text, shorter = given, 0
    notes = by.notes(text)
    while notes:
        note = notes[0]
        found.append(_moved(note, given, shorter))
        clear = _without_doubt(by, text, note, land) if len(found) < most else None
        if clear is None:
            return Doubts(tuple(found), _more_after(note))
        shorter += len(text) - len(clear.text)
        text, notes = clear
    return Doubts(tuple(found))


def doubts_of_many(by: Union[Plat, Lots], described: Iterable[Tuple[int, str]]) -> Dict[int, Doubts]:
    """Return the notes on many accepted descriptions, by their indexes: all on the first ones, and one on each other.

    The same description is looked at only once.
    """
    found: Dict[int, Doubts] = {}
    known: Dict[str, Doubts] = {}
    places, size = DOUBTS_OF_LIST_MOST, _BYTES_MOST
    for index, description in described:
        length = len(encoded(description)) + 1
        most = max(1, min(places, DOUBTS_MOST))
        if description not in known:
            doubts = doubts_of(by, description, by.land(description), min(most, size // length))
            known[description] = doubts
            size -= len(doubts.notes) * length
        found[index] = known[description].first(most)
        places -= len(found[index].notes)
    return found


class _Clear(NamedTuple):
    """A text in which a place is not doubtful, and the note on its next place, if there is one."""

    text: bytes
    notes: List[Note]


def _moved(note: Note, given: bytes, by: int) -> Note:
    """Return a note with its place in the text as it was given."""
    start, end = note.start + by, note.end + by
    before = given[:start].decode("utf-8", "surrogateescape")
    column = len(before) - (before.rfind("\n") + 1) + 1
    return note._replace(line=1 + before.count("\n"), column=column, start=start, end=end)


def _without_doubt(by: Union[Plat, Lots], text: bytes, note: Note, land: Land) -> Optional[_Clear]:
    """Return a text of the same land in which the place of a note is not doubtful, or `None` if there is none."""
    for clear in _candidates(text, note):
        try:
            if by.land(clear) == land:
                notes = by.notes(clear)
                if _more_after(note) == sum(1 + _more_after(each) for each in notes):
                    return _Clear(clear, notes)
        except Refused:
            continue
    return None


def _candidates(text: bytes, note: Note) -> Iterator[bytes]:
    """Yield texts in which the place may not be doubtful: two parts are written as one, or with a comma between."""
    before = text[: note.start].rstrip(_WHITE)
    yield before + text[note.start :]
    if _AND in text[note.start : note.end]:
        first, _, second = text[note.start : note.end].rpartition(_AND)
        yield text[: note.start] + first + b", " + second + text[note.end :]


def _more_after(note: Note) -> int:
    found = _MORE.search(note.text)
    return int(found[1]) if found else 0
