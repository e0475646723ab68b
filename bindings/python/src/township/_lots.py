"""Lot tables: the lots of the approved plat, and the acreage that it returns for each."""
from __future__ import annotations

from ctypes import byref
from decimal import Decimal
from types import MappingProxyType
from typing import Any, List, Mapping, Optional, Tuple

from . import _library
from ._decimals import Number, scaled
from ._figures import acres_of_hundredths
from ._lot_faults import plain_exception, table_exception
from ._lot_list import lots_in, lots_of_township, standard_table
from ._lots_answering import LotsAnswering
from ._refused import LOT_TABLE, Refused, failure_of, hinted
from ._spelling import Named, township_named
from ._text import Path, Text, encoded, names_a_file, shown
from ._township import Township, codes_of, township_of
from ._workbook import is_workbook, table_of_workbook
from ._written import bytes_by

#: The acreage of a quarter-quarter section.
_STANDARD = 40

#: The largest figure of a lot, in hundredths of an acre.
_MOST = 99_999


class Lots(LotsAnswering):
    """A lot table: the lots of a township's approved plat, and the acreage that it returns for each.

    By a lot table, each whole lot counts at its returned acreage, and other land at its nominal area, 40 acres
    for each quarter-quarter section. No field notes are needed. To make a table, call `Lots.open` with the name
    of a file, `Lots.read` with the table itself (CSV; see `docs/LOTS-FORMAT.md`), or `Lots.of_figures`.

    >>> lots = township.Lots.read("section,lot,acres\\nT,2,N,3,W\\n5,1,40.45\\n5,2,40.55\\n")
    >>> lots.acres("sec. 5, lots 1 and 2, S1/2NE1/4.")
    Decimal('161.00')

    A table with the column `land` says where its lots lie. All other tables are for the standard lots.

    >>> lake = township.Lots.read("section,lot,acres,land\\nT,2,N,3,W\\n14,1,38.50,NE1/4NE1/4\\n14,,,NW1/4NE1/4\\n")
    >>> print(lake.land("sec. 14, NW1/4, lot 1.").text, end="")
    T. 2 N., R. 3 W.,
    sec. 14, lot 1, NW1/4.
    >>> lake.acres("sec. 14.")
    Decimal('598.50')

    A table is immutable, can be pickled, and can be used from several threads at once. Two tables are equal if
    their townships, dates, lots, and figures are. Methods raise `Refused` if a description is refused, or with the
    number 94 if the land contains a lot that the table lacks; `at` is then 100 times the section's number plus the
    lot's.

    >>> lots.acres("sec. 5, lots 1 to 4.")
    Traceback (most recent call last):
        ...
    township.Refused: description: the lot table has no record for lot 3 of section 5
    """

    __slots__ = ("__weakref__",)

    def __new__(cls, *_: object, **__: object) -> Lots:
        raise TypeError("make a lot table with Lots.open, Lots.read, Lots.of_figures, or Lots.new")

    @classmethod
    def _of_struct(cls, parts: _library.Lots) -> Lots:
        """Make a lot table of a valid struct, which the table then owns."""
        lots = object.__new__(cls)
        lots._parts = parts
        return lots

    @classmethod
    def open(cls, path: Path) -> Lots:
        """Read a lot table from a file (CSV, at most 65,536 bytes; see `docs/LOTS-FORMAT.md`).

        A file whose name ends with `.xlsx` is a workbook, whose first sheet is read. This takes the package
        `openpyxl`.

        Raise `OSError` if the file cannot be read, and `Refused` if it is not a lot table. The explanation then
        shows the name of the file.
        """
        return cls._read(_bytes_in(path), shown(path).encode("utf-8", "backslashreplace"))

    @classmethod
    def read(cls, table: Text) -> Lots:
        """Read a lot table (CSV, at most 65,536 bytes; see `docs/LOTS-FORMAT.md`).

        A table may be as a spreadsheet saves it: with empty cells at the end of a row, with semicolons or tabs
        between the cells, or with 40.5 for 40.50 acres.

        Raise `Refused` if it is not a lot table. To read a file, call `Lots.open`.

        >>> township.Lots.read("section,lot,acres\\nT,2,N,3,W\\n14,1,40.00\\n")
        Traceback (most recent call last):
            ...
        township.Refused: lots:3: there is no lot 1: section 14 has no lots
        """
        try:
            return cls._read(encoded(table), LOT_TABLE)
        except Refused as refused:
            if not names_a_file(table):
                raise
            raise hinted(refused, "this looks like the name of a file: Lots.open reads one") from None

    @classmethod
    def _read(cls, table: bytes, source: bytes) -> Lots:
        """Read a lot table, which an explanation calls by this name.

        If it is refused, a spreadsheet may have saved it, so read its plain table. The bytes of a table that is too
        large may be only the first of a file, so its plain table could lack lots.
        """
        answer, parts = _parts_of(table)
        if answer.verdict == _library.REFUSED and answer.number != _library.REFUSAL_LOTS_TOO_LARGE:
            plain = _plain(table)
            if plain != table:
                return cls._read_plain(plain, source)
        if answer.verdict != _library.ACCEPTED:
            raise table_exception(answer, table, source)
        return cls._of_struct(parts)

    @classmethod
    def _read_plain(cls, plain: bytes, source: bytes) -> Lots:
        """Read the plain table of a lot table that is refused. Its lines are those of the table."""
        answer, parts = _parts_of(plain)
        if answer.verdict != _library.ACCEPTED:
            raise plain_exception(answer, plain, source)
        return cls._of_struct(parts)

    @classmethod
    def of_figures(cls, township: Named, figures: Mapping[Tuple[int, int], Optional[Number]]) -> Lots:
        """Make a lot table from figures, as in `Lots.figures`: by section and lot, in acres.

        A lot that is left out, or whose figure is `None`, is lacking. Raise `ValueError` if there is no such
        lot, or if a figure is not 0.01 to 999.99 acres with at most two decimal places.

        >>> township.Lots.of_figures("T. 2 N., R. 3 W.", {(5, 1): "40.45", (5, 2): Decimal("40.55")}).area(
        ...     "sec. 5, lots 1 and 2."
        ... )
        Fraction(81, 1)
        """
        parts = _library.Lots.from_buffer_copy(standard_table())
        parts.township = _library.Designation(*codes_of(township_named(township)))
        lots = lots_of_township()
        for key, figure in figures.items():
            if key not in lots:
                raise ValueError(f"no lot has the section and the number {key!r}")
            if figure is not None:
                parts.figures[lots.index(key)] = _hundredths(figure)
        return cls._of_struct(parts)

    @classmethod
    def new(cls, township: Named) -> Lots:
        """Make a lot table to fill in: each lot of the township has 40 acres.

        Replace each figure with the one on the approved plat, and leave out the lots whose acreage isn't known.

        >>> print(township.Lots.new("T. 2 N., R. 3 W.").csv()[:38], end="")
        section,lot,acres
        T,2,N,3,W
        1,1,40.00
        """
        return cls.of_figures(township, dict.fromkeys(lots_of_township(), _STANDARD))

    @property
    def township(self) -> Township:
        """The township's designation."""
        return township_of(self._parts.township)

    @property
    def figures(self) -> Mapping[Tuple[int, int], Optional[Decimal]]:
        """The returned acreage of each lot of the plat, by section and lot: `None` if the table lacks it.

        >>> lots = township.Lots.read("section,lot,acres\\nT,2,N,3,W\\n5,1,40.45\\n")
        >>> lots.figures[5, 1], lots.figures[5, 2]
        (Decimal('40.45'), None)
        """
        lots = lots_in(self._parts)
        return MappingProxyType({lot: acres_of_hundredths(figure) if figure else None for lot, figure in lots})

    def __eq__(self, other: object) -> bool:
        if not isinstance(other, Lots):
            return NotImplemented
        return bytes(self._parts) == bytes(other._parts)

    def __hash__(self) -> int:
        return hash(bytes(self._parts))

    def __reduce__(self) -> Tuple[Any, ...]:
        table = self.csv()
        # A table with very many small parts may have no text that is short enough.
        return (Lots.read, (table,)) if len(table) <= _library.LOTS_TEXT_MOST else (_restored, (bytes(self._parts),))

    def __repr__(self) -> str:
        figures: List[int] = [figure for _, figure in lots_in(self._parts)]
        has = sum(1 for figure in figures if figure)
        plat = f"{self.township}, {self.date}" if self.date else str(self.township)
        if self.has_land:
            return f"<township.Lots of {plat}: {len(figures)} {'lot' if len(figures) == 1 else 'lots'}>"
        return f"<township.Lots of {plat}: {has} of {len(figures)} lots>"


def _bytes_in(path: Path) -> bytes:
    """Return the bytes of a file, or the first sheet of a workbook as CSV."""
    if is_workbook(path):
        return table_of_workbook(path)
    with open(path, "rb") as file:
        # One byte more than the limit is enough for the refusal of a table that is too large.
        return file.read(_library.LOTS_TEXT_MOST + 1)


def _parts_of(table: bytes) -> Tuple[_library.Answer, _library.Lots]:
    """Return the answer of the library on a lot table, and the table's parts, if it is accepted."""
    parts = _library.Lots()
    return _library.lots_read(table, len(table), byref(parts)), parts


def _restored(parts: bytes) -> Lots:
    """Return the lot table with these bytes, which were those of a lot table."""
    return Lots._of_struct(_library.Lots.from_buffer_copy(parts))


def _plain(table: bytes) -> bytes:
    """Return the plain table of a lot table as a spreadsheet saves it."""
    answer, plain = bytes_by(_library.lots_plain, table, len(table))
    if answer.verdict != _library.ACCEPTED:
        raise failure_of(answer.verdict)
    return plain


def _hundredths(figure: Number) -> int:
    """Return a figure in hundredths of an acre. Raise `ValueError` if it is not one."""
    hundredths = scaled(figure, 100, 1, _MOST)
    if hundredths is None:
        raise ValueError(
            f"{figure!r} is not a returned acreage: write 0.01 to 999.99 acres, with at most two decimal places"
        )
    return hundredths
