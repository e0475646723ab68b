"""The plats and lot tables of several townships, and the acreage of land in all of them."""
from __future__ import annotations

import datetime
from decimal import Decimal
from fractions import Fraction
from typing import Any, Dict, Iterable, Iterator, List, Mapping, NamedTuple, Optional, Tuple, Union

from . import _library
from ._account import Account, code_of
from ._earlier import EarlierLands
from ._explanation import Explained
from ._ignored import Ignored
from ._land import Land
from ._lands import Lands
from ._lots import Lots
from ._part_readings import PartReadings, parts_read
from ._plat import Plat
from ._readings import Reading
from ._refused import LIST, Refusal, Refused, refused_as_a_whole
from ._report import FIRST_TRACT, LotsOverlap
from ._rounding import rounded
from ._spelling import Named, township_in_heading, township_named
from ._standard_lots import reading_with_standard_lots
from ._text import Path, Text, encoded
from ._township import Township

#: What a list of tracts is called in an explanation.
_LIST = LIST.decode()

#: What acreage in a township is computed by.
Basis = Union[Plat, Lots]

#: Land in any townships: a text with headings, or land as a value.
Located = Union[Text, Land, Lands]


class MissingPlat(KeyError):
    """There is no plat and no lot table for a township."""

    def __init__(self, township: Township) -> None:
        super().__init__(township)
        #: The township.
        self.township = township

    def __str__(self) -> str:
        return f"there are no field notes and no lot table for {self.township}"


class LocatedTract(NamedTuple):
    """A tract in several townships, with its acreage."""

    name: str
    acres: Decimal
    #: The acreage in each township, which is rounded independently.
    by_township: Mapping[Township, Decimal]


class PlatsReport(NamedTuple):
    """The report on tracts in several townships. Each figure is an exact area, rounded independently."""

    #: The tracts, in the order of the list.
    tracts: Tuple[LocatedTract, ...]
    #: The acreage of all tracts together.
    total: Decimal
    #: The acreage of all tracts in each township.
    by_township: Mapping[Township, Decimal]


class Plats(Mapping[Township, Basis]):
    """The plats and lot tables of several townships on one principal meridian.

    To make them, call `Plats` with plats and lot tables, or with a mapping to them from their townships, or `Plats.open`
    with a folder. A township can have a plat and a lot table: the lot table then controls, as the acreage that the
    approved plat returns. Of lot tables with different dates, the newest one does; a table without a date counts as
    older than any other.

    >>> table = township.Lots.of_figures("T. 3 N., R. 3 W.", {(31, 1): "38.97", (31, 2): "39.01"})
    >>> plats = township.Plats([plat, table])
    >>> plats.acres("T. 2 N., R. 3 W., sec. 5, lots 1 and 2; T. 3 N., R. 3 W., sec. 31, lots 1 and 2.")
    Decimal('158.98')
    >>> plats.acres("T. 4 N., R. 3 W., sec. 14.")
    Traceback (most recent call last):
        ...
    township.MissingPlat: there are no field notes and no lot table for T. 4 N., R. 3 W.

    This is a mapping from townships to their plats or lot tables. It can be used from several threads at once.
    """

    __slots__ = ("_by_township",)

    def __init__(self, plats: Union[Iterable[Basis], Mapping[Any, Basis]] = ()) -> None:
        self._by_township: Dict[Township, Basis] = {}
        kept: Dict[Tuple[Township, _Age], Basis] = {}
        for each in _each_of(plats):
            age = _age_of(each)
            if kept.setdefault((each.township, age), each) != each:
                kind = "lot tables" if isinstance(each, Lots) else "field notes"
                dated = f" of {each.date}" if isinstance(each, Lots) and each.date else ""
                raise ValueError(f"these are different {kind}{dated} for {each.township}")
            before = self._by_township.get(each.township)
            if before is None or age > _age_of(before):
                self._by_township[each.township] = each

    @classmethod
    def open(cls, folder: Path, meridian: Optional[str] = None) -> Plats:
        """Read the field notes and the lot tables (`.csv`) in a folder, as `batch --plats` does.

        The folders inside it are those of principal meridians, whose names they have: with any, say which one. Raise
        `OSError` if the folder can't be read, and `ValueError` if a file is refused, if two files of a township are
        different, or if there is no folder for the meridian.
        """
        # Reading a folder needs more modules than the rest.
        from ._batch.folder import plats_in

        return cls(plats_in(folder, meridian))

    def __getitem__(self, named: Named) -> Basis:
        township = township_named(named)
        by = self._by_township.get(township)
        if by is None:
            raise MissingPlat(township)
        return by

    def __iter__(self) -> Iterator[Township]:
        return iter(self._by_township)

    def __len__(self) -> int:
        return len(self._by_township)

    def __repr__(self) -> str:
        return f"<township.Plats: {len(self)} {'township' if len(self) == 1 else 'townships'}>"

    def land(self, text: Text) -> Lands:
        """Return the land that a text names, in all its townships: see `Lands.of`.

        In a township whose lot table says where its lots lie, it has these lots.

        >>> township.Plats([plat]).land("T2N R3W sec. 14, N1/2; T3N R3W sec. 31")
        <township.Lands: T. 2 N., R. 3 W., sec. 14, N1/2. T. 3 N., R. 3 W., sec. 31, all.>
        """
        return Lands._read(text, self._table_of)

    def acres(self, located: Located, account: Account = "exact") -> Decimal:
        """Return the acreage of the land that a text names, or of a `Lands` or a `Land`.

        It is the exact sum of the exact areas in all townships, rounded once to hundredths, half up. The account is
        about whole lots on a plat, as for `Plat.acres`.

        Raise `MissingPlat`, which names the township, if there is no plat and no lot table for it. Raise `Refused` if
        the text is refused, as `Lands.of` does, or if a lot table lacks a lot of the land.

        >>> township.Plats([plat]).acres("T2N R3W sec. 7, lot 1; T2N R3W sec. 7, lot 4")
        Decimal('78.20')
        """
        return rounded(self.area(located, account))

    def area(self, located: Located, account: Account = "exact") -> Fraction:
        """Return the exact area of the same land, in acres. `acres` rounds it.

        >>> township.Plats([plat]).area("T2N R3W sec. 5, lot 1")
        Fraction(809, 20)
        """
        return sum(self._areas(located, account).values(), Fraction(0))

    def acres_by_township(self, located: Located, account: Account = "exact") -> Mapping[Township, Decimal]:
        """Return the acreage of the same land in each township. Each figure is rounded independently.

        >>> figures = township.Plats([plat]).acres_by_township("T2N R3W sec. 5, lot 1")
        >>> [(str(each), acres) for each, acres in figures.items()]
        [('T. 2 N., R. 3 W.', Decimal('40.45'))]
        """
        return _each_rounded(self._areas(located, account))

    def suggest(self, text: Text, account: Account = "exact", ignore: Ignored = ()) -> List[PartReadings]:
        """Return the readings of each part of a text, as `suggest_parts` does, with their acreage.

        Each is read and measured by the plat or the lot table of the township in its heading, with the lots that the
        table has. Without a plat and a table, it has no acreage, and is read with the standard lots; if it depends on
        them, it says that this is assumed. If a reading has no heading, or is refused there, its `refused` says so.

        >>> (part, readings), = township.Plats([plat]).suggest("T2N-R3W Sec 14: NE/4, S2NW4")
        >>> print(readings[0].acres, readings[0].text)
        240.00 T2N R3W Sec 14: NE1/4, S1/2NW1/4
        """
        code_of(account)
        return [
            part._replace(readings=part.readings.measured(lambda reading: self._measured(reading, account)))
            for part in parts_read(text, ignore, self._table_of)
        ]

    def report(self, tracts: Iterable[Tuple[str, Located]], account: Account = "exact") -> PlatsReport:
        """Return the report on tracts, each a name and its land: the acreage of each, and of all of them together.

        Raise `Refused` for a name that an earlier tract has (82), for a tract whose text is refused (83, with the
        refusal in `inner`), and for a tract that overlaps an earlier one (84). The tract with index k is record k + 2,
        as in a list of tracts.

        >>> report = township.Plats([plat]).report([("A", "T2N R3W sec. 7, lot 1"), ("B", "T2N R3W sec. 7, lot 4")])
        >>> [(tract.name, tract.acres) for tract in report.tracts], report.total
        ([('A', Decimal('39.18')), ('B', Decimal('39.03'))], Decimal('78.20'))
        """
        code_of(account)
        names: Dict[str, int] = {}
        earlier = EarlierLands()
        figures: List[LocatedTract] = []
        total: Dict[Township, Fraction] = {}
        for index, (name, located) in enumerate(tracts):
            if names.setdefault(name, index) != index:
                raise _refused(_library.REFUSAL_NAME_REPEATED, index, f"an earlier tract has the name `{name}`")
            land, areas = self._reported(index, located, account)
            shared = next(earlier.shared(land), None)
            if shared is not None:
                other, both = shared
                sentence = f"`{name}` overlaps `{figures[other].name}`: {both.on_one_line()}"
                raise _refused(_library.REFUSAL_TRACTS_OVERLAP, index, sentence)
            earlier.add(index, land)
            figures.append(LocatedTract(name, rounded(sum(areas.values(), Fraction(0))), _each_rounded(areas)))
            for township, area in areas.items():
                total[township] = total.get(township, Fraction(0)) + area
        return PlatsReport(tuple(figures), rounded(sum(total.values(), Fraction(0))), _each_rounded(total))

    def overlaps(self, tracts: Iterable[Tuple[str, Located]]) -> Tuple[LotsOverlap, ...]:
        """Return all overlaps of tracts, in the order of the later tract, and then of the earlier one.

        A tract whose text is refused overlaps none. If there is no plat for a township, or if a lot table lacks a lot
        of the land in both tracts, they overlap, but `acres` is `None`.

        >>> township.Plats([plat]).overlaps([("A", "T2N R3W sec. 14"), ("B", "T2N R3W sec. 14, NE1/4")])
        (LotsOverlap(first=0, second=1, acres=Decimal('160.00')),)
        """
        earlier = EarlierLands()
        found = []
        for second, (_, located) in enumerate(tracts):
            lands = self._land_or_none(located)
            for first, both in earlier.shared(lands):
                found.append(LotsOverlap(first, second, self._acres_or_none(both)))
            earlier.add(second, lands)
        return tuple(found)

    def _table_of(self, township: Township) -> Optional[Lots]:
        """Return the lot table of a township, if it says where its lots lie."""
        by = self._by_township.get(township)
        return by if isinstance(by, Lots) and by.has_land else None

    def _lands_of(self, located: Located) -> Lands:
        """Return land that is given as a text, or as a value."""
        if isinstance(located, Lands):
            return located
        return Lands([located]) if isinstance(located, Land) else self.land(located)

    def _land_or_none(self, located: Located) -> Lands:
        """Return the land of a tract, or no land if its text is refused."""
        try:
            return self._lands_of(located)
        except Refused:
            return Lands()

    def _areas(self, located: Located, account: Account) -> Dict[Township, Fraction]:
        """Return the exact area of land in each of its townships."""
        code_of(account)
        return {land.township: self._area_in_one(land, account) for land in self._lands_of(located)}

    def _area_in_one(self, land: Land, account: Account) -> Fraction:
        """Return the exact area of land in one township. A refusal names the township."""
        by = self[land.township]
        if isinstance(by, Plat):
            return by.area(land, account)
        try:
            return by.area(land)
        except Refused as refused:
            refusal = Refusal(refused.number, refused.at)
            raise refused_as_a_whole(str(land.township), refusal, refused.sentence) from None

    def _measured(self, reading: Reading, account: Account) -> Reading:
        """Return a reading with its acreage, or with its refusal."""
        try:
            by = self[township_in_heading(encoded(reading.text))]
            acres = by.acres(reading.text) if isinstance(by, Lots) else by.acres(reading.text, account)
            return reading._replace(acres=acres, normal=by.normal(reading.text))
        except Refused as refused:
            return reading._replace(refused=refused)
        except MissingPlat:
            return reading_with_standard_lots(reading)

    def _acres_or_none(self, land: Lands) -> Optional[Decimal]:
        try:
            return self.acres(land)
        except (MissingPlat, Refused):
            return None

    def _reported(self, index: int, located: Located, account: Account) -> Tuple[Lands, Dict[Township, Fraction]]:
        """Return the land and the areas of a tract. Raise `Refused` if it is refused."""
        try:
            land = self._lands_of(located)
            return land, self._areas(land, account)
        except Refused as refused:
            inner = Refusal(refused.number, refused.at)
            raise _refused(_library.REFUSAL_TRACT_REFUSED, index, str(refused), inner) from refused


def _each_of(plats: Union[Iterable[Basis], Mapping[Any, Basis]]) -> Iterator[Basis]:
    """Yield plats and lot tables. In a mapping, each has the key of its own township."""
    if isinstance(plats, Mapping):
        for named, each in plats.items():
            township = township_named(named)
            if _checked(each).township != township:
                raise ValueError(f"the plat or lot table for {township} is for {each.township}")
            yield each
    else:
        yield from map(_checked, plats)


def _checked(by: Basis) -> Basis:
    """Return a plat or a lot table. Raise `TypeError` for anything else, such as the name of a file."""
    if not isinstance(by, (Plat, Lots)):
        raise TypeError(f"Plats takes Plat and Lots, not {type(by).__name__}; Plats.open reads a folder")
    return by


#: Whether acreage is that of a lot table, and the table's date. Of two in a township, the greater one controls.
_Age = Tuple[bool, datetime.date]


def _age_of(by: Basis) -> _Age:
    """Return how old field notes or a lot table are."""
    return (True, by.date or datetime.date.min) if isinstance(by, Lots) else (False, datetime.date.min)


def _each_rounded(areas: Mapping[Township, Fraction]) -> Dict[Township, Decimal]:
    return {township: rounded(area) for township, area in areas.items()}


def _refused(number: int, index: int, sentence: str, inner: Optional[Refusal] = None) -> Refused:
    """Return the refusal of the tract with this index."""
    explained = Explained(f"{_LIST}: record {index + FIRST_TRACT}", sentence)
    text = f"township: {explained.message}\n"
    return Refused(number, index + FIRST_TRACT, None, None, text, inner, _LIST, explained)
