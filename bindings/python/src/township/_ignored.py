"""Phrases that are not land because the caller says so: readings of a text leave them out."""
from __future__ import annotations

import codecs
import ctypes
from array import array
from bisect import bisect_left
from typing import Any, List, NamedTuple, Optional, Sequence, Tuple, Union, overload

from . import _library
from ._many import in_a_row
from ._refused import Refusal, Refused, failure_of, refusal_of, refused_as_a_whole, refused_in
from ._text import Path, Text, encoded, shown

#: The room for places in a first call.
_STRETCHES = 64

#: What phrases are called in an explanation.
PHRASES = "phrases"

#: The largest file of phrases, in bytes: much larger than phrases may be, since lines can be empty.
_FILE_MOST = 1 << 20

_TOO_LARGE = "there are more than 65,536 phrases, or they have more than 65,536 bytes"

_NAMES_LAND = "can't be left out: it names, excepts, or limits land, or contains a number that could be that of a section"


class Place(NamedTuple):
    """Where a phrase is in a text: the bytes in UTF-8 from `start` to before `end`."""

    start: int
    end: int


class Phrases(Sequence[str]):
    """Phrases that you know are not land, such as the labels of your office: readings of a text leave them out.

    They are checked when they are made, and can then be used for any number of texts. A phrase is found in uppercase
    or lowercase, as whole words. At each place, the first phrase counts: put longer phrases before shorter ones.

    >>> phrases = township.Phrases(["Payout group Kestrel", "Unit 7"])
    >>> township.suggest("UNIT 7: NE/4 Sec. 14", ignore=phrases)[0].text
    'sec. 14, NE1/4'

    Raise `Refused` if a phrase names, excepts, or limits land (51), or if there are too many phrases (50). Its `at` is
    then the number of the phrase, from 1, or the limit; `docs/PHRASES.md` has examples.

    >>> try:
    ...     township.Phrases(["Kestrel", "Lot 3"])
    ... except township.Refused as refused:
    ...     print(refused.number, refused.at)
    51 2
    """

    __slots__ = ("_phrases", "_row", "_offsets")

    _phrases: Tuple[str, ...]
    #: The bytes of all phrases in a row, and the offsets between them.
    _row: bytes
    _offsets: "array[int]"

    def __init__(self, phrases: Sequence[Text] = ()) -> None:
        if isinstance(phrases, (str, bytes)):
            raise TypeError("this takes many phrases; write a single one as a list: [phrase]")
        self._make([encoded(phrase) for phrase in phrases])
        refusal = self._refusal()
        if refusal is not None:
            raise self._refused(refusal)

    def _make(self, phrases: Sequence[bytes]) -> None:
        self._phrases = tuple(map(_decoded, phrases))
        self._row, self._offsets = in_a_row(phrases)

    @classmethod
    def open(cls, path: Path) -> Phrases:
        """Read phrases from a file, one on each line. Spaces around a phrase and empty lines are ignored.

        Raise `OSError` if the file cannot be read, and `Refused` if a phrase is refused: it then has the name of the
        file, and the `line`.
        """
        with open(path, "rb") as file:
            return cls._of_file(file.read(_FILE_MOST + 1), shown(path))

    @classmethod
    def _of_file(cls, given: bytes, source: str) -> Phrases:
        """Return the phrases in the bytes of a file, which an explanation calls by this name."""
        if len(given) > _FILE_MOST:
            too_large = Refusal(_library.REFUSAL_PHRASES_TOO_LARGE, _FILE_MOST)
            raise refused_as_a_whole(source, too_large, f"the file is longer than {_FILE_MOST:,} bytes")
        given = _in_utf8(given)
        places = _places_of_lines(given)
        phrases = object.__new__(cls)
        phrases._make([given[start:end] for start, end in places])
        refusal = phrases._refusal()
        if refusal is not None:
            raise phrases._refused_in_file(refusal, source, given, places)
        return phrases

    def _places_in(self, text: Text) -> List[Place]:
        """Return where the phrases are in a text, from left to right. No place begins before the end of another one.

        >>> township.Phrases(["Payout group Kestrel"])._places_in("PAYOUT GROUP KESTREL NE/4 Sec. 14")
        [Place(start=0, end=20)]
        """
        if not self._phrases:
            return []
        given = encoded(text)
        found, answer = self._found_in(given)
        if answer.verdict != _library.ACCEPTED:
            raise failure_of(answer.verdict)
        places = [Place(each.start, each.end) for each in found[: answer.length]]
        # White space can be a phrase, too. It is no more than the space that would be written over it.
        return [place for place in places if given[place.start : place.end].strip()]

    def _refusal(self) -> Optional[Refusal]:
        """Return the refusal of the phrases, if there is one."""
        if not self._phrases:
            return None
        _, answer = self._found_in(b"")
        if answer.verdict == _library.ACCEPTED:
            return None
        if answer.verdict != _library.REFUSED:
            raise failure_of(answer.verdict)
        return refusal_of(answer)

    def _found_in(self, given: bytes) -> Tuple[Any, _library.Answer]:
        """Call the library with enough room. Return the places that it writes, and its answer."""
        row, offsets = self._row, (ctypes.c_size_t * len(self._offsets)).from_buffer(self._offsets)
        room = _STRETCHES
        while True:
            found = (_library.Stretch * room)()
            answer = _library.set_aside(given, len(given), row, len(row), offsets, len(offsets), found, room)
            if answer.verdict != _library.NO_ROOM:
                return found, answer
            room = answer.length

    def _refused(self, refusal: Refusal) -> Refused:
        """Return the refusal of phrases that are given as a list."""
        if refusal.number == _library.REFUSAL_PHRASES_TOO_LARGE:
            return refused_as_a_whole(PHRASES, refusal, _TOO_LARGE)
        sentence = f"`{shown(self[refusal.at - 1])}` (phrase {refusal.at}) {_NAMES_LAND}"
        return refused_as_a_whole(PHRASES, refusal, sentence)

    def _refused_in_file(self, refusal: Refusal, source: str, given: bytes, places: Sequence[Place]) -> Refused:
        """Return the refusal of phrases at these places of a file."""
        if refusal.number == _library.REFUSAL_PHRASES_TOO_LARGE:
            return refused_as_a_whole(source, refusal, _TOO_LARGE)
        start, end = places[refusal.at - 1]
        sentence = f"`{shown(self[refusal.at - 1])}` {_NAMES_LAND}"
        return refused_in(source, given, refusal, end, sentence, start=start)

    def __len__(self) -> int:
        return len(self._phrases)

    @overload
    def __getitem__(self, index: int) -> str: ...

    @overload
    def __getitem__(self, index: slice) -> Tuple[str, ...]: ...

    def __getitem__(self, index: Union[int, slice]) -> Union[str, Tuple[str, ...]]:
        return self._phrases[index]

    def __eq__(self, other: object) -> bool:
        if not isinstance(other, Phrases):
            return NotImplemented
        return self._phrases == other._phrases

    def __hash__(self) -> int:
        return hash(self._phrases)

    def __reduce__(self) -> Tuple[Any, ...]:
        return Phrases, (self._phrases,)

    def __repr__(self) -> str:
        return f"<township.Phrases: {len(self)}>"


#: Phrases to leave out of a text: a list, or an object that is made and checked once.
Ignored = Union[Phrases, Sequence[Text]]


def phrases_in(ignore: Ignored) -> Phrases:
    """Return phrases that are given in either way. Raise `Refused` if one of them can't be left out."""
    return ignore if isinstance(ignore, Phrases) else Phrases(ignore)


def blanked(given: bytes, places: Sequence[Place]) -> bytes:
    """Return a text with a space over each byte of these places.

    >>> blanked(b"Kestrel: NE/4", [Place(0, 7)])
    b'       : NE/4'
    """
    left = bytearray(given)
    for start, end in places:
        left[start:end] = b" " * (end - start)
    return bytes(left)


def places_within(places: Sequence[Place], start: int, end: int) -> Sequence[Place]:
    """Return the places that begin between two bytes. The places are in order."""
    return places[bisect_left(places, Place(start, 0)) : bisect_left(places, Place(end, 0))]


def _decoded(phrase: bytes) -> str:
    return phrase.decode("utf-8", "surrogateescape")


def _in_utf8(given: bytes) -> bytes:
    """Return the bytes of a file in UTF-8. Without a byte order mark that says otherwise, they are in it already."""
    if given.startswith((codecs.BOM_UTF16_LE, codecs.BOM_UTF16_BE)):
        return given.decode("utf-16", "replace").encode()
    return given[len(codecs.BOM_UTF8) :] if given.startswith(codecs.BOM_UTF8) else given


def _places_of_lines(given: bytes) -> List[Place]:
    """Return where the lines of a file are, without the white space around them. Empty lines are left out.

    >>> _places_of_lines(b"Kestrel\\r\\n\\n  Unit 7  \\n")
    [Place(start=0, end=7), Place(start=12, end=18)]
    """
    places, at = [], 0
    for line in given.splitlines(keepends=True):
        start = at + len(line) - len(line.lstrip())
        at += len(line)
        if line.strip():
            places.append(Place(start, start + len(line.strip())))
    return places
