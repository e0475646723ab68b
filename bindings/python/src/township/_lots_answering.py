"""The answers by a lot table: the methods of `Lots` that take descriptions and land."""
from __future__ import annotations

from ctypes import byref
from decimal import Decimal
from fractions import Fraction
from typing import TYPE_CHECKING, Iterable, Iterator, List, Sequence, Union, cast

from . import _library
from ._describing import Describing
from ._figures import acres_of_hundredths, fraction_of
from ._full import FullAnswers
from ._ignored import Ignored, Place
from ._land import Land
from ._lot_faults import LACKING, described_exception, lacking_exception, table_notes
from ._lots_drawing import LotsDrawing
from ._lots_full import LotsFullAnswers, TableAnswers
from ._lots_reporting import LotsReporting
from ._many import Answers, Ask, answers_by, each_acres
from ._note import Note
from ._readings import Readings
from ._refused import DESCRIPTION, LAND, Refused, failure_of
from ._suggested import readings_without
from ._text import Text, encoded
from ._township import nominal_plat_of, township_of

if TYPE_CHECKING:
    from ._lots import Lots


class LotsAnswering(LotsReporting, LotsDrawing, Describing):
    """The answers by a lot table."""

    __slots__ = ()

    def _plat_struct(self) -> _library.Plat:
        # With the standard lots, whatever depends on no acreage is the same on any plat of the township.
        return nominal_plat_of(township_of(self._parts.township))

    def land(self, description: Text) -> Land:
        """Return the land described, as a value that can be combined and compared with other land of this table.

        It is on the plat of the table: with its date, and with its lots if the table says where they lie.

        >>> lots = township.Lots.read("section,lot,acres,land\\nT,2,N,3,W\\n14,1,38.50,NE1/4NE1/4\\n")
        >>> lots.land("sec. 14, all.") - lots.land("sec. 14, lot 1.")
        <township.Land: T. 2 N., R. 3 W., sec. 14, NW1/4NE1/4, S1/2NE1/4, NW1/4, S1/2.>
        """
        return self._land_of(encoded(description), DESCRIPTION)

    def _land_of(self, given: bytes, source: bytes) -> Land:
        """Return the land of a description, which explanations call by this name."""
        parts = _library.Land()
        answer = _library.lots_land_read(byref(self._parts), given, len(given), byref(parts))
        if answer.verdict != _library.ACCEPTED:
            raise described_exception(answer, self._parts, given, source)
        # The library knows the standard lots without a table.
        return Land._of_struct(parts, cast("Lots", self) if self.has_land else None)

    def normal(self, description: Text) -> str:
        """Return the canonical description, which is the same for any two descriptions of the same land.

        >>> lots = township.Lots.read("section,lot,acres,land\\nT,2,N,3,W\\n14,1,38.50,NE1/4NE1/4\\n")
        >>> print(lots.normal("sec. 14, SE1/4 and NW1/4, lot 1."), end="")
        T. 2 N., R. 3 W.,
        sec. 14, lot 1, NW1/4, SE1/4.
        """
        return self.land(description).text

    def normal_many(self, descriptions: Sequence[Text], *, threads: int = 1) -> List[Union[str, Refused]]:
        """Return the canonical descriptions of many descriptions, or their refusals, as `Plat.normal_many` does.

        >>> lots = township.Lots.of_figures("T. 2 N., R. 3 W.", {(5, 1): "40.45"})
        >>> texts = lots.normal_many(["sec. 14, SE1/4, NE1/4, NW1/4.", "sec. 5, lot 5."])
        >>> texts[0].split("\\n")[1], texts[1].number
        ('sec. 14, N1/2, SE1/4.', 64)
        """
        if not self.has_land:
            return super().normal_many(descriptions, threads=threads)
        many = self._listed(descriptions, "normal")
        answers = TableAnswers(byref(self._parts), many, _library.EXACT, self._exception_of, threads)
        return answers.texts_or_refusals()

    def notes(self, description: Text) -> List[Note]:
        """Return the notes on an accepted description, as `Plat.notes` does. With the standard lots, the acreage in
        them is nominal; otherwise they have none.

        >>> lots = township.Lots.read("section,lot,acres,land\\nT,2,N,3,W\\n14,1,38.50,NE1/4NE1/4\\n")
        >>> print(lots.notes("sec. 14, SE1/4 SW1/4.")[0].sentence.partition(";")[0])
        SE1/4 SW1/4 is read as one part, the SE1/4 of the SW1/4
        """
        return self._notes_on(encoded(description), DESCRIPTION)

    def _notes_on(self, given: bytes, source: bytes) -> List[Note]:
        """Return the notes on a description, which they call by this name."""
        if self.has_land:
            return table_notes(self._parts, given, source)
        return self._notes_by(self._plat_struct(), given, source)

    def acres(self, description: Union[Text, Land]) -> Decimal:
        """Return the acreage of the land described, or of a `Land`, rounded once to hundredths, half up."""
        answer = self._answer(description)
        self._check(answer, description)
        return acres_of_hundredths(answer.hundredths)

    def area(self, description: Union[Text, Land]) -> Fraction:
        """Return the exact area of the land described, or of a `Land`, in acres. `acres` returns it rounded."""
        area = _library.Fraction()
        if isinstance(description, Land):
            self._check_lots(description)
            answer = _library.lots_land_area(byref(self._parts), byref(description._parts), byref(area))
        else:
            given = encoded(description)
            answer = _library.lots_area(byref(self._parts), given, len(given), byref(area))
        self._check(answer, description)
        return fraction_of(area)

    def suggest(self, text: Text, ignore: Ignored = ()) -> Readings:
        """Return the readings of a text, as `Plat.suggest` does, with their acreage by the table.

        They are readings on the plat of the table: if an aliquot part includes lots, they name the lots of this plat.

        >>> lots = township.Lots.of_figures("T. 2 N., R. 3 W.", {(5, 1): "40.45"})
        >>> [reading.acres for reading in lots.suggest("Lot 1, Sec 5")]
        [Decimal('40.45')]
        >>> lake = township.Lots.read("section,lot,acres,land\\nT,2,N,3,W\\n14,1,38.50,NE1/4NE1/4\\n")
        >>> reading, = lake.suggest("Sec 14: N2")
        >>> print(reading.acres, reading.normal, end="")
        318.50 T. 2 N., R. 3 W.,
        sec. 14, lot 1, NW1/4NE1/4, S1/2NE1/4, NW1/4.
        """
        return self._measured_readings(text, ignore, self.acres)

    def _readings_without(self, given: bytes, aside: Sequence[Place]) -> Readings:
        """Return the readings of a text without these places, on the plat of the table."""
        return readings_without(given, aside, self._parts)

    def acres_of(self, descriptions: Iterable[Text]) -> Iterator[Union[Decimal, Refused]]:
        """Iterate over the answers to many descriptions, as `Plat.acres_of` does.

        >>> lots = township.Lots.of_figures("T. 2 N., R. 3 W.", {(5, 1): "40.45"})
        >>> for answer in lots.acres_of(["sec. 5, lot 1.", "sec. 5, lot 2."]):
        ...     print(answer)
        40.45
        description: the lot table has no record for lot 2 of section 5
        """
        if isinstance(descriptions, (str, bytes)):
            raise TypeError("this takes many descriptions; for one there is Lots.acres")
        return each_acres(descriptions, self._asking(), self._exception_of)

    def acres_many(self, descriptions: Sequence[Text], *, threads: int = 1) -> Answers:
        """Return the answers to many descriptions, as `Plat.acres_many` does, in at most `threads` threads.

        >>> lots = township.Lots.of_figures("T. 2 N., R. 3 W.", {(5, 1): "40.45"})
        >>> answers = lots.acres_many(["sec. 5, lot 1.", "sec. 5, lot 2.", "sec. 36."])
        >>> answers[0], answers[1].number, answers[2]
        (Decimal('40.45'), 94, Decimal('640.00'))
        """
        many = self._listed(descriptions, "acres")
        return answers_by(byref(self._parts), many, self._exception_of, threads)

    def _full_answers(self, descriptions: Sequence[Text]) -> FullAnswers:
        """Return everything that the library answers about many descriptions."""
        lots = byref(self._parts)
        if self.has_land:
            return TableAnswers(lots, descriptions, _library.EXACT, self._exception_of)
        return LotsFullAnswers(lots, byref(self._plat_struct()), descriptions, self._exception_of)

    def _asking(self) -> Ask:
        """Return the call that answers a description. Whatever does not depend on the description is computed once."""
        call, parts = _library.lots_acres, byref(self._parts)
        return lambda description: call(parts, description, len(description))

    def _check(self, answer: _library.Answer, described: Union[Text, Land]) -> None:
        """Raise the exception for a description, or for land, that is not accepted."""
        if answer.verdict == _library.ACCEPTED:
            return
        if not isinstance(described, Land):
            raise self._exception_of(answer, encoded(described))
        if answer.verdict == _library.REFUSED:
            raise lacking_exception(answer, self._parts, LAND)
        raise failure_of(answer.verdict, described.township, township_of(self._parts.township))

    def _exception_of(self, answer: _library.Answer, given: bytes) -> Exception:
        """Return the exception for a description that is not accepted."""
        if answer.verdict == _library.REFUSED and answer.number == LACKING:
            return lacking_exception(answer, self._parts, DESCRIPTION)
        return described_exception(answer, self._parts, given, DESCRIPTION)
