"""The answers to lists of tracts: the methods of `Plat` that take them."""
from __future__ import annotations

from ctypes import byref
from typing import Iterable, Tuple

from . import _library
from ._land import Land
from ._refused import failure_of
from ._report import (
    Described,
    Overlap,
    Report,
    TractAnswer,
    accepted,
    answers_on,
    exception_of_list,
    list_of,
    overlaps_on,
    report_on,
)
from ._text import Text, encoded


class Reporting:
    """The answers to lists of tracts on a plat, which is a struct of the library."""

    __slots__ = ("_parts",)

    _parts: _library.Plat

    def report(self, tracts: Iterable[Tuple[Text, Described]]) -> Report:
        """Return the report on tracts, each a name and a description, or a name and `Land`.

        There may be at most 1,000 tracts, and they must not overlap. A name is 1 to 64 bytes of printable
        ASCII, and each name must be unique.

        If the tracts are refused, the location in `Refused` refers to the list that they make: the tract with
        index k is record k + 2.

        >>> report = plat.report([("A", "sec. 7, lot 1."), ("B", "sec. 7, lot 4.")])
        >>> report.tracts
        (Tract(name='A', acres=Decimal('39.18')), Tract(name='B', acres=Decimal('39.03')))
        >>> report.total, report.remaining
        (Decimal('78.20'), Decimal('22959.37'))
        """
        return self.report_csv(self._list_of(tracts))

    def report_csv(self, tracts: Text) -> Report:
        """Return the report on a list of tracts (CSV, at most 1,048,576 bytes; see `docs/TRACTS-FORMAT.md`).

        Raise `Refused`, with a number from 80 to 85, if the list is refused. If a tract's description is
        refused, the number is 83, and `inner` contains the description's own refusal.

        >>> plat.report_csv(open("samples/tracts.csv", "rb").read()).total
        Decimal('78.20')
        """
        given = encoded(tracts)
        return accepted(report_on(byref(self._parts), given), self._list_exception, given)

    def report_each(self, tracts: Iterable[Tuple[Text, Described]]) -> Tuple[TractAnswer, ...]:
        """Return the answer to each of the tracts, whatever is wrong with the others: its acreage or its refusal.

        The refusal is the first that the tract has by itself, at its record: the tract with index k is record
        k + 2. Tracts that overlap are accepted here.

        >>> answers = plat.report_each([("A", "sec. 7, lot 1."), ("B", "sec. 7, lot 5."), ("A", "sec. 14.")])
        >>> [answer.acres for answer in answers]
        [Decimal('39.18'), None, None]
        >>> answers[1].refusal, answers[1].inner, answers[2].refusal
        (Refusal(number=83, at=3), Refusal(number=64, at=12), Refusal(number=82, at=4))
        """
        return self.report_each_csv(self._list_of(tracts))

    def report_each_csv(self, tracts: Text) -> Tuple[TractAnswer, ...]:
        """Return the answer to each tract of a list (CSV).

        Raise `Refused` only if the list as a whole is refused: it is too large (80), has no heading (81), or has
        too many tracts (85).

        >>> plat.report_each_csv(open("samples/tracts.csv", "rb").read())[0]
        TractAnswer(name='A', acres=Decimal('39.18'), refusal=None, inner=None)
        """
        given = encoded(tracts)
        return accepted(answers_on(byref(self._parts), given), self._list_exception, given)

    def overlaps(self, tracts: Iterable[Tuple[Text, Described]]) -> Tuple[Overlap, ...]:
        """Return all overlaps of the tracts, in the order of the later tract, and then of the earlier one.

        A tract that `report_each` refuses as no tract, or for its description, overlaps none.

        >>> plat.overlaps([("A", "sec. 14."), ("B", "sec. 15."), ("C", "sec. 14, NE1/4; sec. 15, N1/2.")])
        (Overlap(first=0, second=2, acres=Decimal('160.00')), Overlap(first=1, second=2, acres=Decimal('320.00')))
        """
        return self.overlaps_csv(self._list_of(tracts))

    def overlaps_csv(self, tracts: Text) -> Tuple[Overlap, ...]:
        """Return all overlaps in a list of tracts (CSV). Raise `Refused` as `report_each_csv` does.

        >>> plat.overlaps_csv(open("samples/tracts.csv", "rb").read())
        ()
        """
        given = encoded(tracts)
        return accepted(overlaps_on(byref(self._parts), given), self._list_exception, given)

    def _list_of(self, tracts: Iterable[Tuple[Text, Described]]) -> bytes:
        """Return the list that tracts make. Raise `ValueError` for land on a plat with other lots than the standard ones.

        The text of such land would name other land on this plat.
        """
        many = list(tracts)
        for _, described in many:
            if isinstance(described, Land):
                answer = _library.land_acres(byref(self._parts), byref(described._parts), _library.EXACT)
                if answer.verdict == _library.OTHER_PLAT:
                    raise failure_of(answer.verdict, described.township)
        return list_of(many)

    def _list_exception(self, answer: _library.Answer, given: bytes) -> Exception:
        """Return the exception for a list of tracts that is not accepted."""
        return exception_of_list(answer, byref(self._parts), given)
