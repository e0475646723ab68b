"""The answers to lists of tracts: the methods of `Lots` that take them."""
from __future__ import annotations

from ctypes import byref
from typing import Iterable, Tuple

from . import _library
from ._land import Land
from ._lots_places import LotsPlaces
from ._refused import LIST, exception_of, failure_of
from ._report import (
    Described,
    LotsOverlap,
    LotsReport,
    TractAnswer,
    accepted,
    answers_by,
    list_of,
    overlaps_by,
    report_by,
)
from ._text import Text, encoded
from ._township import township_of


class LotsReporting(LotsPlaces):
    """The answers to lists of tracts by a lot table."""

    __slots__ = ()

    def report(self, tracts: Iterable[Tuple[Text, Described]]) -> LotsReport:
        """Return the acreage of tracts, each a name and a description or `Land`, and that of all of them together.

        There may be at most 1,000 tracts, and they must not overlap. A name is 1 to 64 bytes of printable
        ASCII, and each name must be unique.

        If the tracts are refused, the location in `Refused` refers to the list that they make: the tract with
        index k is record k + 2.

        >>> lots = township.Lots.of_figures("T. 2 N., R. 3 W.", {(5, 1): "40.45", (5, 2): "40.55"})
        >>> report = lots.report([("A", "sec. 5, lot 1."), ("B", "sec. 5, lot 2, S1/2NE1/4.")])
        >>> report.tracts
        (Tract(name='A', acres=Decimal('40.45')), Tract(name='B', acres=Decimal('120.55')))
        >>> report.total
        Decimal('161.00')
        """
        return self.report_csv(self._list_of(tracts))

    def report_csv(self, tracts: Text) -> LotsReport:
        """Return the same for a list of tracts (CSV, at most 1,048,576 bytes; see `docs/TRACTS-FORMAT.md`).

        Raise `Refused`, with a number from 80 to 85, if the list is refused. If a tract's description is
        refused, the number is 83, and `inner` contains the description's own refusal; its number is 94 if the
        tract contains a lot that the table lacks.

        >>> lots = township.Lots.of_figures("T. 2 N., R. 3 W.", {(5, 1): "40.45", (5, 2): "40.55"})
        >>> lots.report_csv('name,description\\nA,"sec. 5, lots 1 and 3."\\n')
        Traceback (most recent call last):
            ...
        township.Refused: tracts:2: tract `A`: the lot table has no record for lot 3 of section 5
        """
        given = encoded(tracts)
        return accepted(report_by(byref(self._parts), given), self._list_exception, given)

    def report_each(self, tracts: Iterable[Tuple[Text, Described]]) -> Tuple[TractAnswer, ...]:
        """Return the answer to each of the tracts, whatever is wrong with the others: its acreage or its refusal.

        The refusal is the first that the tract has by itself, as `Plat.report_each` returns it; or, if its land
        contains a lot that the table lacks, number 83 with the inner refusal 94. Tracts that overlap are accepted.

        >>> lots = township.Lots.of_figures("T. 2 N., R. 3 W.", {(5, 1): "40.45"})
        >>> answers = lots.report_each([("A", "sec. 5, lot 1."), ("B", "sec. 5, lot 2."), ("C", "sec. 5, lot 5.")])
        >>> [answer.acres for answer in answers]
        [Decimal('40.45'), None, None]
        >>> answers[1].refusal, answers[1].inner, answers[2].inner
        (Refusal(number=83, at=3), Refusal(number=94, at=502), Refusal(number=64, at=12))
        """
        given = self._list_of(tracts)
        return accepted(answers_by(byref(self._parts), given), self._list_exception, given)

    def overlaps(self, tracts: Iterable[Tuple[Text, Described]]) -> Tuple[LotsOverlap, ...]:
        """Return all overlaps of the tracts, in the order of the later tract, and then of the earlier one.

        A tract whose description is refused overlaps none. If the land in both tracts contains a lot that the
        table lacks, they overlap, but `acres` is `None`.

        >>> lots = township.Lots.of_figures("T. 2 N., R. 3 W.", {(5, 1): "40.45"})
        >>> lots.overlaps([("A", "sec. 5."), ("B", "sec. 5, lot 1."), ("C", "sec. 5, lot 2.")])
        (LotsOverlap(first=0, second=1, acres=Decimal('40.45')), LotsOverlap(first=0, second=2, acres=None))
        """
        given = self._list_of(tracts)
        return accepted(overlaps_by(byref(self._parts), given), self._list_exception, given)

    def _list_of(self, tracts: Iterable[Tuple[Text, Described]]) -> bytes:
        """Return the list that tracts make. Raise `ValueError` for land on another plat of the township."""
        many = list(tracts)
        for _, described in many:
            if isinstance(described, Land) and self._answer(described).verdict == _library.OTHER_PLAT:
                raise failure_of(_library.OTHER_PLAT, township_of(self._parts.township))
        return list_of(many)

    def _answer(self, described: Described) -> _library.Answer:
        """Return the library's answer to a description or land. Raise `ValueError` for land of another table's lots."""
        if isinstance(described, Land):
            self._check_lots(described)
            return _library.lots_land_acres(byref(self._parts), byref(described._parts))
        text = encoded(described)
        return _library.lots_acres(byref(self._parts), text, len(text))

    def _check_lots(self, land: Land) -> None:
        """Raise `ValueError` for land of a table whose plat has the same date, but whose lots lie at other places.

        The library takes the two for one plat.
        """
        lots = land.lots
        if lots is None or lots is self or not self.has_land:
            return
        is_of_plat = (land.township, land.date) == (township_of(self._parts.township), self.date)
        if is_of_plat and not self._has_lots_of(lots):
            raise failure_of(_library.OTHER_PLAT, land.township)

    def _list_exception(self, answer: _library.Answer, given: bytes) -> Exception:
        """Return the exception for a list of tracts that is not accepted."""
        explain = _library.lots_explain_list_parts
        return exception_of(answer, explain, byref(self._parts), given, len(given), source=LIST)
