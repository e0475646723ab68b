"""Land as a value: a set of places in a township."""
from __future__ import annotations

import datetime
from ctypes import byref, c_uint32
from decimal import Decimal
from fractions import Fraction
from functools import reduce
from operator import or_
from textwrap import shorten
from types import MappingProxyType
from typing import (
    TYPE_CHECKING,
    Any,
    Dict,
    Iterable,
    Iterator,
    List,
    Mapping,
    Optional,
    Sequence,
    Tuple,
    Union,
    overload,
)

from . import _library
from ._account import Account
from ._date import date_of
from ._parts import Part, parts_of
from ._refused import DESCRIPTION, exception_of, failure_of
from ._spelling import Named, township_named
from ._text import Text, encoded
from ._township import Township, codes_of, nominal_plat_of, township_of
from ._written import text_by

if TYPE_CHECKING:
    from ._lots import Lots
    from ._plat import Plat

#: The most characters of a description in the representation of land.
_SHOWN_MOST = 100

#: The rows of a section that has no land, and of six of them.
_NO_ROWS = bytes(4 * _library.PLACES_ACROSS)
_NO_ROWS_OF_SIX = 6 * _NO_ROWS


class Land:
    """The land that a description names, as a value: a set of places in a township.

    To make land, call `Land.of` with a township and a description, or `Plat.land` or `Lots.land` with a description.
    It does not depend on field notes; only its acreage does. Land is immutable, can be pickled, and can be used from
    several threads at once. Two lands are equal if they are the same places on the same plat of the same township.

    Land can be combined and compared like a Python set, exactly:

    >>> lease = plat.land("sec. 14, all.") - plat.land("sec. 14, NE1/4NE1/4.")
    >>> print(lease.text, end="")
    T. 2 N., R. 3 W.,
    sec. 14, NW1/4NE1/4, S1/2NE1/4, NW1/4, S1/2.
    >>> deed = plat.land("sec. 14, E1/2; sec. 15, all.")
    >>> print((lease & deed).text, end="")
    T. 2 N., R. 3 W.,
    sec. 14, NW1/4NE1/4, S1/2NE1/4, SE1/4.
    >>> lease & deed <= lease | deed
    True

    `|`, `&`, `-`, and `^` raise `ValueError` for land in two different townships. Such lands are disjoint,
    and neither is less than the other. `in` takes land or a description: `a in b` is true if `b` contains all
    of `a`.

    Land of a lot table is on the plat of that table: with its date, and with its lots if the table says where they lie.
    Land on two different plats of a township can't be combined or compared, since their lots may be different land:
    this raises `ValueError`, too.

    Iteration goes by section: it yields the land in each section that has any, and `len` is their number.
    `sections` is a mapping to them from section numbers. Land is true unless it is empty.
    """

    __slots__ = ("_parts", "_lots", "__weakref__")

    _parts: _library.Land
    _lots: Optional[Lots]

    def __new__(cls, *_: object, **__: object) -> Land:
        raise TypeError("make land with Land.of, Land.of_rows, Plat.land, or Lots.land")

    @classmethod
    def _of_struct(cls, parts: _library.Land, lots: Optional[Lots] = None) -> Land:
        """Make land of a valid struct, which the land then owns. The lot table is the one that knows its lots."""
        land = object.__new__(cls)
        land._parts = parts
        land._lots = lots
        return land

    @classmethod
    def of(cls, township: Named, description: Text) -> Land:
        """Make the land that a description names in a township.

        The township is given as `T. 2 N., R. 3 W.` or as `(2, "N", 3, "W")`. Raise `Refused`, with a number from
        41 to 67, if the description is refused, and `ValueError` if the township is not one.

        >>> township.Land.of("T. 2 N., R. 3 W.", "sec. 14, NE1/4, NW1/4.")
        <township.Land: T. 2 N., R. 3 W., sec. 14, N1/2.>
        """
        named = township_named(township)
        return cls._read(named, nominal_plat_of(named), encoded(description), DESCRIPTION)

    @classmethod
    def _read(cls, township: Township, plat: _library.Plat, given: bytes, source: bytes) -> Land:
        """Make the land of a description, which explanations call by this name, and explain on this plat."""
        parts = _library.Land()
        designation = _library.Designation(*codes_of(township))
        answer = _library.land_read(byref(designation), given, len(given), byref(parts))
        if answer.verdict != _library.ACCEPTED:
            explain = _library.explain_description_parts
            raise exception_of(answer, explain, byref(plat), given, len(given), source=source)
        return cls._of_struct(parts)

    @classmethod
    def of_rows(cls, township: Named, rows: Mapping[int, Sequence[int]]) -> Land:
        """Make land of the places in each section, as in `Land.rows`. Sections that are left out are empty.

        Raise `ValueError` if the rows contain part of a lot, or are not valid.

        >>> township.Land.of_rows("T. 2 N., R. 3 W.", {14: [0] * 16 + [0xFFFF] * 16})
        <township.Land: T. 2 N., R. 3 W., sec. 14, NE1/4.>
        """
        parts = _library.Land(township=_library.Designation(*codes_of(township_named(township))))
        for section, given in rows.items():
            if not 1 <= section <= _library.SECTIONS:
                raise ValueError(f"there is no section {section}: sections are numbered from 1 to 36")
            if len(given) != _library.PLACES_ACROSS or not all(0 <= row < 1 << 32 for row in given):
                raise ValueError("a section has 32 rows of 32 places, and a row is a number of 32 bits")
            parts.rows[section - 1][:] = given
        land = cls._of_struct(parts)
        land._compared_to(land)
        return land

    @classmethod
    def empty(cls, township: Named) -> Land:
        """Make empty land in a township, to which `|` adds.

        >>> bool(township.Land.empty("T. 2 N., R. 3 W."))
        False
        """
        return cls._of_struct(_library.Land(township=_library.Designation(*codes_of(township_named(township)))))

    @classmethod
    def union(cls, lands: Iterable[Land]) -> Land:
        """Return the land that is in any of several lands, as `|` does for two.

        Raise `ValueError` if there are none, since their township is then unknown, or if they are in different
        townships.

        >>> township.Land.union(plat.land(f"sec. 14, {part}.") for part in ("NE1/4", "NW1/4", "S1/2"))
        <township.Land: T. 2 N., R. 3 W., sec. 14, all.>
        """
        each = iter(lands)
        first = next(each, None)
        if first is None:
            raise ValueError("the union of no lands has no township; use Land.empty")
        return reduce(or_, each, first)

    @property
    def township(self) -> Township:
        """The township's designation."""
        return township_of(self._parts.township)

    @property
    def rows(self) -> Mapping[int, Tuple[int, ...]]:
        """The places of each section that has land, by section number: 32 rows, from the south.

        In a row, bit `k`, counted from the lowest, is the place in column `k` from the east.

        >>> [hex(row) for row in plat.land("sec. 14, NE1/4.").rows[14][15:18]]
        ['0x0', '0xffff', '0xffff']
        """
        return MappingProxyType({number: tuple(self._parts.rows[number - 1]) for number in self._numbers()})

    @property
    def text(self) -> str:
        """The canonical description, which is the same for any two descriptions of the same land.

        The text of empty land is empty.
        """
        lots = self._lots
        if lots is None:
            answer, text = text_by(_library.land_text, byref(self._parts))
        else:
            answer, text = text_by(_library.lots_land_text, byref(lots._parts), byref(self._parts))
        if answer.verdict != _library.ACCEPTED:
            raise failure_of(answer.verdict)
        return text

    @property
    def parts(self) -> List[Part]:
        """The parts that the canonical text names, in its order. A lot that lies in several aliquot parts has a part
        for each.

        >>> plat.land("sec. 6, lot 7.").parts
        [Part(section=6, lot=7, column=24, row=0, columns=8, rows=8)]
        """
        lots = self._lots
        if lots is None:
            return parts_of(self._parts)
        rows = self.rows
        return [part for number in self._numbers() for part in lots._parts_in(number, rows[number])]

    @property
    def date(self) -> Optional[datetime.date]:
        """The date of the plat that the land is on: that of the lot table by which it was read. `None` without one."""
        return date_of(self._parts.date)

    @property
    def lots(self) -> Optional[Lots]:
        """The lot table that says where the lots of the land lie. `None` if they are the standard lots.

        >>> lots = township.Lots.read("section,lot,acres,land\\nT,2,N,3,W\\n14,1,38.50,NE1/4NE1/4\\n")
        >>> lots.land("sec. 14, lot 1.").lots == lots, plat.land("sec. 14.").lots
        (True, None)
        """
        return self._lots

    @property
    def sections(self) -> Mapping[int, Land]:
        """The land in each section that has any, by section number.

        >>> dict(plat.land("sec. 14, N1/2; sec. 5, lot 1.").sections)[14]
        <township.Land: T. 2 N., R. 3 W., sec. 14, N1/2.>
        """
        return MappingProxyType({number: self._within(number) for number in self._numbers()})

    @overload
    def acres(self, by: Plat, account: Account = ...) -> Decimal: ...

    @overload
    def acres(self, by: Lots) -> Decimal: ...

    def acres(self, by: Any, *account: Any, **named: Any) -> Decimal:
        """Return the acreage by a plat and an account (`Plat.acres`), or by a lot table (`Lots.acres`).

        >>> plat.land("sec. 7, lots 1 to 4.").acres(plat, account="plat")
        Decimal('156.42')
        """
        acres: Decimal = by.acres(self, *account, **named)
        return acres

    @overload
    def area(self, by: Plat, account: Account = ...) -> Fraction: ...

    @overload
    def area(self, by: Lots) -> Fraction: ...

    def area(self, by: Any, *account: Any, **named: Any) -> Fraction:
        """Return the exact area in acres, by a plat and an account, or by a lot table. `acres` rounds it.

        >>> plat.land("sec. 5, lot 1.").area(plat)
        Fraction(809, 20)
        """
        area: Fraction = by.area(self, *account, **named)
        return area

    def isdisjoint(self, other: Land) -> bool:
        """Return whether the two have no place in common.

        >>> plat.land("sec. 14, N1/2.").isdisjoint(plat.land("sec. 14, S1/2."))
        True
        """
        return not self or not other or self._compared_to(other) == _library.DISJOINT

    def disjoint(self, other: Land) -> bool:
        """Return whether the two have no place in common: `isdisjoint`, by the name that it has for shapes."""
        return self.isdisjoint(other)

    def overlaps(self, other: Land) -> bool:
        """Return whether the two have a place in common, also if they are the same or one contains the other.

        >>> plat.land("sec. 14, N1/2.").overlaps(plat.land("sec. 14, NE1/4."))
        True
        """
        return not self.isdisjoint(other)

    def contains(self, other: Union[Land, Text]) -> bool:
        """Return whether each place of the other land, or of a description, is in this land.

        >>> plat.land("sec. 14, N1/2.").contains("sec. 14, NE1/4.")
        True
        """
        return other in self

    def _repr_svg_(self) -> str:
        """Return the drawing that a notebook shows, without acreage, which needs a plat: see `Plat.svg`."""
        from ._drawing.of_plat import drawing_of_land

        return drawing_of_land(self)

    def _numbers(self) -> List[int]:
        """Return the numbers of the sections that have land."""
        rows = bytes(self._parts.rows)
        # Most land is in few sections: those that have none are passed over six at a time.
        return [
            number
            for first in range(1, _library.SECTIONS, 6)
            if not rows.startswith(_NO_ROWS_OF_SIX, (first - 1) * len(_NO_ROWS))
            for number in range(first, first + 6)
            if not rows.startswith(_NO_ROWS, (number - 1) * len(_NO_ROWS))
        ]

    def _within(self, number: int) -> Land:
        """Return the land in one section."""
        mine = self._parts
        parts = _library.Land(township=mine.township, date=mine.date, own_lots=mine.own_lots)
        parts.rows[number - 1] = mine.rows[number - 1]
        return Land._of_struct(parts, self._lots)

    def _combined_with(self, other: object, operation: int) -> Land:
        if not isinstance(other, Land):
            return NotImplemented
        parts = _library.Land()
        answer = _library.land_combine(byref(self._parts), byref(other._parts), operation, byref(parts))
        if answer.verdict != _library.ACCEPTED:
            raise failure_of(answer.verdict, self.township, other.township)
        self._check_lots(other)
        return Land._of_struct(parts, self._lots)

    def _compared_to(self, other: Land) -> int:
        """Return the library's comparison. Lands in different townships are disjoint."""
        comparison = c_uint32()
        answer = _library.land_compare(byref(self._parts), byref(other._parts), byref(comparison))
        if answer.verdict == _library.OTHER_TOWNSHIP:
            return _library.DISJOINT
        if answer.verdict != _library.ACCEPTED:
            raise failure_of(answer.verdict, self.township)
        self._check_lots(other)
        return comparison.value

    def _check_lots(self, other: Land) -> None:
        """Raise `ValueError` if the lots of two lands, whose plats have the same date, lie at different places."""
        mine, others = self._lots, other._lots
        if mine is not None and others is not None and mine is not others and not mine._has_lots_of(others):
            raise failure_of(_library.OTHER_PLAT, self.township)

    def _described(self, description: Text) -> Land:
        """Return the land that a description names on the plat of this land."""
        if self._lots is not None:
            return self._lots.land(description)
        land = Land.of(self.township, description)
        land._parts.date = self._parts.date
        return land

    def __or__(self, other: Land) -> Land:
        return self._combined_with(other, _library.UNION)

    def __and__(self, other: Land) -> Land:
        return self._combined_with(other, _library.INTERSECTION)

    def __sub__(self, other: Land) -> Land:
        return self._combined_with(other, _library.DIFFERENCE)

    def __xor__(self, other: Land) -> Land:
        if not isinstance(other, Land):
            return NotImplemented
        return (self | other) - (self & other)

    def __le__(self, other: Land) -> bool:
        return self._is(other, _library.EQUAL, _library.IS_CONTAINED)

    def __lt__(self, other: Land) -> bool:
        return self._is(other, _library.IS_CONTAINED)

    def __ge__(self, other: Land) -> bool:
        return self._is(other, _library.EQUAL, _library.CONTAINS)

    def __gt__(self, other: Land) -> bool:
        return self._is(other, _library.CONTAINS)

    def _is(self, other: object, *comparisons: int) -> bool:
        """Return whether the comparison with another land is one of these."""
        if not isinstance(other, Land):
            return NotImplemented
        return self._compared_to(other) in comparisons

    def __eq__(self, other: object) -> bool:
        if not isinstance(other, Land):
            return NotImplemented
        return bytes(self._parts) == bytes(other._parts)

    def __hash__(self) -> int:
        return hash(bytes(self._parts))

    def __contains__(self, other: Union[Land, Text]) -> bool:
        return (other if isinstance(other, Land) else self._described(other)) <= self

    def __bool__(self) -> bool:
        return bytes(self._parts.rows) != _NO_ROWS * _library.SECTIONS

    def __len__(self) -> int:
        return len(self._numbers())

    def __iter__(self) -> Iterator[Land]:
        return map(self._within, self._numbers())

    def __reduce__(self) -> Tuple[Any, ...]:
        rows: Dict[int, Tuple[int, ...]] = dict(self.rows)
        if not self._parts.date and self._lots is None:
            return Land.of_rows, (tuple(self.township), rows)
        return _restored, (tuple(self.township), rows, self._parts.date, self._lots)

    def __repr__(self) -> str:
        shown = shorten(self.text, _SHOWN_MOST, placeholder=" ..") or f"none in {self.township}"
        return f"<township.Land: {shown}>"


def _restored(
    township: Tuple[int, str, int, str], rows: Mapping[int, Sequence[int]], date: int, lots: Optional[Lots]
) -> Land:
    """Return land on the plat of a lot table. Raise `ValueError` if the rows contain part of one of its lots."""
    if lots is None:
        land = Land.of_rows(township, rows)
        land._parts.date = date
        return land
    parts = _library.Land(township=lots._parts.township, date=date, own_lots=1)
    for section, given in rows.items():
        parts.rows[section - 1][:] = given
    land = Land._of_struct(parts, lots)
    # Only a call that takes the table checks that the land has whole lots.
    _ = land.text
    return land
