"""The answers on a plat: the methods of `Plat` that take descriptions and land."""
from __future__ import annotations

from ctypes import byref
from decimal import Decimal
from fractions import Fraction
from typing import Callable, Iterable, Iterator, List, Sequence, Union

from . import _library
from ._account import Account, code_of
from ._describing import Describing
from ._differences import Difference, differences_of
from ._figures import acres_of_hundredths, fraction_of
from ._full import FullAnswers
from ._ignored import Ignored
from ._land import Land
from ._lots import Lots
from ._many import Answers, answers_of, each_acres
from ._readings import Readings
from ._refused import Refused, failure_of
from ._reporting import Reporting
from ._text import Text, encoded
from ._township import township_of


class Answering(Reporting, Describing):
    """The answers on a plat."""

    __slots__ = ()

    def _plat_struct(self) -> _library.Plat:
        return self._parts

    def acres(self, description: Union[Text, Land], account: Account = "exact") -> Decimal:
        """Return the acreage of the land described, or of a `Land`, rounded once to hundredths, half up.

        With the account `plat`, each whole lot counts at the acreage printed on the plat, and other land at
        its nominal area.

        >>> plat.acres("sec. 5, lots 1 and 2, S1/2NE1/4.")
        Decimal('161.00')
        >>> plat.acres("sec. 7, lots 1 to 4, inclusive.")
        Decimal('156.40')
        >>> plat.acres("sec. 7, lots 1 to 4, inclusive.", account="plat")
        Decimal('156.42')
        """
        if isinstance(description, Land):
            return acres_of_hundredths(self._measured(_library.land_acres, description, account))
        given = encoded(description)
        answer = _library.acres(byref(self._parts), given, len(given), code_of(account))
        if answer.verdict != _library.ACCEPTED:
            raise self._described_exception(answer, given)
        return acres_of_hundredths(answer.hundredths)

    def area(self, description: Union[Text, Land], account: Account = "exact") -> Fraction:
        """Return the exact area of the land described, or of a `Land`, in acres. `acres` returns it rounded.

        >>> plat.area("sec. 5, lot 1.")
        Fraction(809, 20)
        """
        area = _library.Fraction()
        if isinstance(description, Land):
            self._measured(_library.land_area, description, account, byref(area))
            return fraction_of(area)
        given = encoded(description)
        answer = _library.area(byref(self._parts), given, len(given), code_of(account), byref(area))
        if answer.verdict != _library.ACCEPTED:
            raise self._described_exception(answer, given)
        return fraction_of(area)

    def suggest(self, text: Text, account: Account = "exact", ignore: Ignored = ()) -> Readings:
        """Return the readings of a text: the descriptions that it may mean, in a fixed order, with their acreage.

        A text that can be read in several ways has several readings. It has none if nothing is certain, or if lots
        and aliquot parts can't describe the land; `reason` then says why. Readings are for people to choose from:
        no other method uses them. If the plat refuses a reading, its `refused` says why.

        >>> for reading in plat.suggest("sec. 14: NE¼NE¼ SW¼SW¼"):
        ...     print(reading.acres, reading.text)
        80.00 sec. 14: NE¼NE¼, SW¼SW¼
        2.50 sec. 14: NE¼NE¼SW¼SW¼
        >>> plat.suggest("N2 Sec 14-3N-3W")[0].refused.number
        61

        Phrases that you know are not land can be left out: see `Phrases`.

        >>> plat.suggest("Payout group Kestrel NE/4 Sec. 14", ignore=["Payout group Kestrel"])[0].acres
        Decimal('160.00')
        """
        code_of(account)
        return self._measured_readings(text, ignore, lambda reading: self.acres(reading, account))

    def acres_of(
        self, descriptions: Iterable[Text], account: Account = "exact"
    ) -> Iterator[Union[Decimal, Refused]]:
        """Iterate over the answers to many descriptions, in order.

        Each answer is the acreage that `acres` returns or the `Refused` that it raises. A refusal does not
        end the iteration.

        Descriptions are consumed one at a time as answers are requested, so there may be any number of them.
        In a column of a data frame, a missing description is a number and raises `TypeError`, as does any
        other value that is neither `str` nor `bytes`. `df["description"].fillna("")` replaces it with an
        empty text, which is refused.

        >>> for answer in plat.acres_of(["sec. 5, lot 1.", "sec. 5, lot 5.", "sec. 36."]):
        ...     print(repr(answer) if isinstance(answer, Decimal) else answer.number)
        Decimal('40.45')
        64
        Decimal('640.00')
        """
        if isinstance(descriptions, (str, bytes)):
            raise TypeError("this takes many descriptions; for one there is Plat.acres")
        call, parts, code = _library.acres, byref(self._parts), code_of(account)
        return each_acres(descriptions, lambda given: call(parts, given, len(given), code), self._described_exception)

    def acres_many(
        self, descriptions: Sequence[Text], account: Account = "exact", *, threads: int = 1
    ) -> Answers:
        """Return the answers to many descriptions, which one call of the library gives.

        The answers are those of `acres_of`, as a sequence. This is several times as fast, and takes about 100
        bytes of memory for each description, beyond their text. At most `threads` threads share the work, each with
        a call for at least 1,000 descriptions.

        >>> answers = plat.acres_many(["sec. 5, lot 1.", "sec. 5, lot 5.", "sec. 36."])
        >>> answers[0], answers[1].number, answers[2]
        (Decimal('40.45'), 64, Decimal('640.00'))
        """
        many = self._listed(descriptions, "acres")
        return answers_of(byref(self._parts), many, code_of(account), self._described_exception, threads)

    def _full_answers(self, descriptions: Sequence[Text], account: Account) -> FullAnswers:
        """Return everything that the library answers about many descriptions."""
        return FullAnswers(byref(self._parts), descriptions, code_of(account), self._described_exception)

    def differences(self, lots: Lots) -> List[Difference]:
        """Return the lots whose acreage on the printed plat differs from the one in a lot table.

        They are in order of section and lot. Lots that the table lacks are left out. Raise `ValueError` if the
        table is for another township.

        >>> lots = township.Lots.read("section,lot,acres\\nT,2,N,3,W\\n5,1,40.45\\n5,2,40.50\\n")
        >>> for difference in plat.differences(lots):
        ...     print(difference)
        Difference(section=5, lot=2, computed=Decimal('40.55'), returned=Decimal('40.50'), by=Decimal('-0.05'))
        """
        return differences_of(self._parts, lots)

    def _measured(
        self, call: Callable[..., _library.Answer], land: Land, account: Account, *more: object
    ) -> int:
        """Call a function that measures land. Return the hundredths of an acre in its answer."""
        answer = call(byref(self._parts), byref(land._parts), code_of(account), *more)
        if answer.verdict != _library.ACCEPTED:
            raise failure_of(answer.verdict, land.township, township_of(self._parts))
        hundredths: int = answer.hundredths
        return hundredths
