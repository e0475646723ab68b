"""Where the lots of a lot table lie, and the table as text: the methods of `Lots` for both."""
from __future__ import annotations

import datetime
from ctypes import byref
from decimal import Decimal
from operator import index
from typing import Iterator, List, NamedTuple, Optional, Sequence, Tuple

from . import _library
from ._date import date_of
from ._figures import acres_of_hundredths
from ._lot_list import lots_in
from ._lot_map import NO_LAND, Rows, aliquot_parts, blocks_of, rows_marked
from ._parts import Part
from ._refused import failure_of
from ._township import township_of

#: All places in a row of a section.
_ROW = (1 << _library.PLACES_ACROSS) - 1

#: The columns of a table, of which the last one says where its lots lie.
_COLUMNS = ("section", "lot", "acres", "land")


class PlatLot(NamedTuple):
    """A lot of a section, or land of the section that is not there, as a record of a lot table says it.

    >>> lots = township.Lots.read("section,lot,acres\\nT,2,N,3,W\\n5,1,40.45\\n")
    >>> lots.section(5)[0]
    PlatLot(lot=1, acres=Decimal('40.45'), land='NE1/4NE1/4')
    """

    #: The lot's number. `None` for land that is not there.
    lot: Optional[int]
    #: The returned acreage. `None` if the table lacks it, and for land that is not there.
    acres: Optional[Decimal]
    #: Where it lies, in aliquot parts of the section, such as `N1/2NE1/4, SE1/4NE1/4`.
    land: str


class LotsPlaces:
    """Where the lots of a lot table lie, which is a struct of the library."""

    __slots__ = ("_parts",)

    _parts: _library.Lots

    @property
    def date(self) -> Optional[datetime.date]:
        """The date on which the plat was approved. `None` if the table does not say.

        >>> township.Lots.read("section,lot,acres\\nT,2,N,3,W,1912-03-04\\n5,1,40.45\\n").date
        datetime.date(1912, 3, 4)
        """
        return date_of(self._parts.date)

    @property
    def has_land(self) -> bool:
        """Whether the table says where its lots lie. If it does not, they are the standard lots.

        >>> township.Lots.new("T. 2 N., R. 3 W.").has_land
        False
        """
        return bool(self._parts.mapped)

    def where(self, section: int, lot: int) -> str:
        """Return where a lot lies, in aliquot parts of its section. Raise `ValueError` if there is no such lot.

        >>> lots = township.Lots.read("section,lot,acres,land\\nT,2,N,3,W\\n14,1,38.50,NE1/4 of the NE1/4\\n")
        >>> lots.where(14, 1)
        'NE1/4NE1/4'
        >>> township.Lots.new("T. 2 N., R. 3 W.").where(6, 7)
        'SW1/4SW1/4'
        """
        section, lot = index(section), index(lot)
        if lot not in dict(self._lots_of(section)):
            raise ValueError(f"section {section} has no lot {lot}")
        return aliquot_parts(self._rows_of(section, lot))

    def section(self, number: int) -> Tuple[PlatLot, ...]:
        """Return the lots of a section, by number, and then the land that is not there, if there is any.

        Raise `ValueError` if there is no such section.

        >>> lots = township.Lots.read("section,lot,acres,land\\nT,2,N,3,W\\n14,1,71.10,E1/2NW1/4\\n14,,,W1/2NW1/4\\n")
        >>> for each in lots.section(14):
        ...     print(each.lot, each.acres, each.land)
        1 71.10 E1/2NW1/4
        None None W1/2NW1/4
        """
        number = index(number)
        found = [
            PlatLot(lot, acres_of_hundredths(figure) if figure else None, aliquot_parts(self._rows_of(number, lot)))
            for lot, figure in self._lots_of(number)
        ]
        missing = self._missing(number)
        return (*found, PlatLot(None, None, aliquot_parts(missing))) if any(missing) else tuple(found)

    def csv(self) -> str:
        """Return the table (CSV), from which `Lots.read` makes it again.

        If the table says where its lots lie, there is a record for each lot, and one for the land of a section that is
        not there. The text exceeds 65,536 bytes, and is then refused as too large, only if lots share dozens of
        quarter-quarters in very small parts.

        >>> print(township.Lots.of_figures((2, "N", 3, "W"), {(5, 1): "40.45"}).csv(), end="")
        section,lot,acres
        T,2,N,3,W
        5,1,40.45
        """
        date = [str(self.date)] if self.date else []
        columns = len(_COLUMNS) if self.has_land else len(_COLUMNS) - 1
        township = township_of(self._parts.township)
        records: List[Sequence[str]] = [_COLUMNS[:columns], ("T", *map(str, township), *date)]
        records += self._records() if self.has_land else self._standard_records()
        return "".join(f"{','.join(map(_quoted, record))}\n" for record in records)

    def _standard_records(self) -> Iterator[Sequence[str]]:
        for (section, lot), figure in lots_in(self._parts):
            if figure:
                yield str(section), str(lot), str(acres_of_hundredths(figure))

    def _records(self) -> Iterator[Sequence[str]]:
        for section in range(1, _library.SECTIONS + 1):
            for lot, acres, land in self.section(section):
                yield str(section), str(lot or ""), str(acres or ""), land

    def _lots_of(self, section: int) -> List[Tuple[int, int]]:
        """Return the lots of a section, with the figure of each. Raise `ValueError` if there is no such section."""
        if not 1 <= section <= _library.SECTIONS:
            raise ValueError(f"there is no section {section}: sections are numbered from 1 to {_library.SECTIONS}")
        return [(lot, figure) for (its_section, lot), figure in lots_in(self._parts) if its_section == section]

    def _rows_of(self, section: int, lot: int) -> Rows:
        """Return the places of a lot, of which the library knows where it lies."""
        land = _library.Land()
        description = f"sec. {section}, lot {lot}.".encode()
        answer = _library.lots_land_read(byref(self._parts), description, len(description), byref(land))
        if answer.verdict != _library.ACCEPTED:
            raise failure_of(answer.verdict)
        return list(land.rows[section - 1])

    def _missing(self, section: int) -> Rows:
        """Return the places of a section at which the plat has no land."""
        return rows_marked(self._parts, section, NO_LAND) if self.has_land else [0] * _library.PLACES_ACROSS

    def _parts_in(self, section: int, rows: Sequence[int]) -> Iterator[Part]:
        """Yield the parts of the land at these places of a section, with whole lots, in the order of its text.

        A lot in several parts is several of them.
        """
        left = list(rows)
        if left != [_ROW & ~missing for missing in self._missing(section)]:
            for lot, _ in self._lots_of(section):
                its_rows = self._rows_of(section, lot)
                if all(its_row & row == its_row for its_row, row in zip(its_rows, left)):
                    yield from (part._replace(lot=lot) for part in blocks_of(section, its_rows))
                    left = [row & ~its_row for its_row, row in zip(its_rows, left)]
        yield from blocks_of(section, left)

    def _has_lots_of(self, other: LotsPlaces) -> bool:
        """Return whether the lots of another table lie at the same places."""
        mine, others = self._parts, other._parts
        return bytes(mine.positions) == bytes(others.positions) and bytes(mine.divided) == bytes(others.divided)


def _quoted(field: str) -> str:
    """Return a field of a record, in quotation marks if it needs them. No field contains one."""
    return f'"{field}"' if "," in field else field
