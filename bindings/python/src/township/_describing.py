"""The answers about descriptions that depend on no acreage: the same on a plat and by a lot table."""
from __future__ import annotations

from ctypes import byref
from decimal import Decimal
from typing import Callable, List, Sequence, Union

from . import _library
from ._explanation import explained_by
from ._full import FullAnswers
from ._ignored import Ignored, Place, phrases_in
from ._land import Land
from ._note import Note, notes_of
from ._readings import Reading, Readings
from ._refused import DESCRIPTION, Refused, exception_of
from ._suggested import readings_without
from ._text import Text, encoded
from ._township import township_of
from ._written import text_by, without_text


class Describing:
    """The answers about descriptions in a township."""

    __slots__ = ()

    def _plat_struct(self) -> _library.Plat:
        """Return the struct of the plat on which descriptions are read and explained."""
        raise NotImplementedError

    def land(self, description: Text) -> Land:
        """Return the land described, as a value that can be combined and compared with other land.

        >>> rest = plat.land("sec. 5, all.") - plat.land("sec. 5, lots 1 and 2.")
        >>> plat.acres(rest)
        Decimal('561.40')
        """
        parts = self._plat_struct()
        return Land._read(township_of(parts), parts, encoded(description), DESCRIPTION)

    def normal(self, description: Text) -> str:
        """Return the canonical description, which is the same for any two descriptions of the same land.

        >>> print(plat.normal("sec. 14, SE1/4, NE1/4, NW1/4."), end="")
        T. 2 N., R. 3 W.,
        sec. 14, N1/2, SE1/4.
        """
        given = encoded(description)
        answer, text = text_by(_library.normal, byref(self._plat_struct()), given, len(given))
        if answer.verdict != _library.ACCEPTED:
            raise self._described_exception(answer, given)
        return text

    def normal_many(self, descriptions: Sequence[Text], *, threads: int = 1) -> List[Union[str, Refused]]:
        """Return the canonical descriptions of many descriptions, or their refusals, by one call of the library.

        This is several times as fast as `normal` for each, and takes 400 bytes of memory for each description. At most
        `threads` threads share the work, each with a call for at least 1,000 descriptions.

        >>> texts = plat.normal_many(["sec. 14, SE1/4, NE1/4, NW1/4.", "sec. 5, lot 5."])
        >>> print(texts[0], end="")
        T. 2 N., R. 3 W.,
        sec. 14, N1/2, SE1/4.
        >>> texts[1].number
        64
        """
        many = self._listed(descriptions, "normal")
        parts = byref(self._plat_struct())
        answers = FullAnswers(parts, many, _library.EXACT, self._described_exception, threads)
        return answers.texts_or_refusals()

    def notes(self, description: Text) -> List[Note]:
        """Return the notes on an accepted description: there is one if a place can be read in two ways.

        The note is on the first such place; its last line says how many more there are. The acreage in it is
        that of the account `exact`. Raise `Refused` if the description is refused.

        >>> plat.notes("sec. 14, NE1/4, SE1/4.")
        []
        >>> for note in plat.notes("sec. 14, NE1/4 SE1/4."):
        ...     print(note.line, note.column, note.sentence)
        1 16 NE1/4 SE1/4 is read as one part of 40.00 acres, the NE1/4 of the SE1/4; if two parts were meant, \
write a comma after NE1/4 (320.00 acres)
        """
        return self._notes_by(self._plat_struct(), encoded(description), DESCRIPTION)

    def _notes_by(self, plat: _library.Plat, given: bytes, source: bytes) -> List[Note]:
        """Return the notes on a description on this plat. They call it by this name."""
        asked = (byref(plat), given, len(given), source, len(source))
        # Nearly all accepted descriptions have no note, which the answer says without a text.
        answer = without_text(_library.explain_description, *asked)
        if answer.verdict == _library.ACCEPTED:
            return []
        if answer.verdict == _library.NO_ROOM:
            answer, text, explained = explained_by(_library.explain_description_parts, *asked)
            if answer.verdict == _library.ACCEPTED:
                return notes_of(answer, text, explained)
        raise self._described_exception(answer, given)

    def _measured_readings(self, text: Text, ignore: Ignored, acres: Callable[[str], Decimal]) -> Readings:
        """Return the readings of a text, each with its acreage, or with the refusal of its description."""
        given = encoded(text)
        found = self._readings_without(given, phrases_in(ignore)._places_in(given))
        return found.measured(lambda reading: self._measured_reading(reading, acres))

    def _readings_without(self, given: bytes, aside: Sequence[Place]) -> Readings:
        """Return the readings of a text without these places. The plat of field notes has the standard lots."""
        return readings_without(given, aside)

    def _measured_reading(self, reading: Reading, acres: Callable[[str], Decimal]) -> Reading:
        try:
            return reading._replace(acres=acres(reading.text), normal=self.normal(reading.text))
        except Refused as refused:
            return reading._replace(refused=refused)

    def _listed(self, descriptions: Sequence[Text], single: str) -> Sequence[Text]:
        """Return many descriptions as a list. `single` is the method that takes one."""
        if isinstance(descriptions, (str, bytes)):
            name = type(self).__name__
            raise TypeError(f"this takes many descriptions; for one there is {name}.{single}")
        return list(descriptions)

    def _described_exception(self, answer: _library.Answer, given: bytes) -> Exception:
        """Return the exception for a description that is refused whatever the acreage is."""
        explain = _library.explain_description_parts
        parts = byref(self._plat_struct())
        return exception_of(answer, explain, parts, given, len(given), source=DESCRIPTION)
