"""Plats."""
from __future__ import annotations

import os
from ctypes import byref
from decimal import Decimal
from types import MappingProxyType
from typing import Any, Mapping, Optional, Sequence, Tuple, Union

from . import _library
from ._answering import Answering
from ._figures import Section, acres_of_hundredths, sections_of
from ._land import Land
from ._refused import NOTES, Refused, exception_of, failure_of, hinted
from ._spelling import Named, township_named
from ._text import Path, Text, encoded, names_a_file, shown
from ._township import Township, struct_of, township_of
from ._written import text_by


class Plat(Answering):
    """The plat of a township: the result of protracting its field notes, and the basis of every acreage.

    To make a plat, call `Plat.open` with the name of a file of field notes, `Plat.read` with the notes
    themselves, or `Plat.of_parts`. A plat is immutable, and two plats with the same parts are equal. It can
    be pickled, and used from several threads at once; each thread needs a stack of at least 256 KiB.

    A description can be `str` or `bytes`. A `str` is encoded as UTF-8; bytes that were decoded with Python's
    `surrogateescape` are restored. Methods raise `Refused` if a description is refused, `MemoryError` if
    memory runs out, and `ValueError` for an account other than `exact` or `plat`, and for land in another
    township.
    """

    __slots__ = ("_plain", "_text", "_figures", "__weakref__")

    _plain: bytes
    _text: Optional[str]
    _figures: Optional[Tuple[Mapping[int, Section], Decimal]]

    def __new__(cls, *_: object, **__: object) -> "Plat":
        raise TypeError("make a plat with Plat.open, Plat.read, or Plat.of_parts")

    @classmethod
    def _of_struct(cls, parts: _library.Plat) -> "Plat":
        """Make a plat of a struct, which the plat then owns."""
        plat = object.__new__(cls)
        plat._parts = parts
        plat._plain = bytes(parts)
        plat._text = None
        plat._figures = None
        return plat

    @classmethod
    def open(cls, path: Path) -> "Plat":
        """Make the plat of the field notes in a file (CSV, at most 65,536 bytes; see `docs/NOTES-FORMAT.md`).

        Raise `OSError` if the file cannot be read, and `Refused`, with a number from 1 to 23, if the notes do
        not make a plat. The explanation then shows the name of the file.

        >>> township.Plat.open("samples/b1.csv").township
        Township(number=2, north_south='N', range=3, east_west='W')
        >>> try:
        ...     township.Plat.open("samples/tracts.csv")
        ... except township.Refused as refused:
        ...     print(refused.number, refused.at, refused.source)
        3 1 samples/tracts.csv
        """
        with open(path, "rb") as file:
            # One byte more than the limit is enough for the refusal of notes that are too large.
            notes = file.read(_library.NOTES_MOST + 1)
        return cls._of_notes(notes, shown(path).encode("utf-8", "backslashreplace"))

    @classmethod
    def read(cls, notes: Text) -> "Plat":
        """Make the plat of field notes (CSV, at most 65,536 bytes; see `docs/NOTES-FORMAT.md`).

        Raise `Refused`, with a number from 1 to 23, if the notes do not make a plat. To read a file, call
        `Plat.open`.

        >>> with open("samples/b1.csv", "rb") as file:
        ...     plat = township.Plat.read(file.read())
        >>> plat.township
        Township(number=2, north_south='N', range=3, east_west='W')
        >>> township.Plat.read(b"")
        Traceback (most recent call last):
            ...
        township.Refused: notes: the field notes are empty: they begin with `line,between,and,quarter,corner`
        """
        if isinstance(notes, os.PathLike):
            raise TypeError("Plat.read takes the field notes themselves; Plat.open reads a file")
        try:
            return cls._of_notes(encoded(notes), NOTES)
        except Refused as refused:
            if not names_a_file(notes):
                raise
            # The refusal of the name, as if it were notes, explains nothing.
            raise hinted(refused, "this looks like the name of a file: Plat.open reads one") from None

    @classmethod
    def _of_notes(cls, notes: bytes, source: bytes) -> "Plat":
        """Make the plat of field notes, which an explanation calls by this name."""
        parts = _library.Plat()
        answer = _library.read(notes, len(notes), byref(parts))
        if answer.verdict != _library.ACCEPTED:
            raise exception_of(answer, _library.explain_notes_parts, notes, len(notes), source=source)
        return cls._of_struct(parts)

    @classmethod
    def of_parts(cls, township: Named, closing_quarters: Sequence[int]) -> "Plat":
        """Make a plat from its parts: the township, and the last quarter miles of its 84 section lines.

        The township is given as `T. 2 N., R. 3 W.` or as `(2, "N", 3, "W")`.

        The quarter miles are in thousandths of a chain, in the order of the lines' indexes (see the drawing
        in `docs/NOTES-FORMAT.md`). For the closing lines, 0 to 6 and 47, 53, 59, 65, 71, 77, and 83, each
        must be 5,000 to 25,000; for all other lines, 20,000. Raise `ValueError` for parts that do not make a
        plat.

        >>> even = township.Plat.of_parts((2, "N", 3, "W"), [20_000] * 84)
        >>> even.total
        Decimal('23040.00')
        >>> even == township.Plat.open("samples/b0.csv")
        True
        """
        plat = cls._of_struct(struct_of(township_named(township), closing_quarters))
        plat._printed_figures()
        return plat

    def write_notes(self) -> str:
        """Return field notes (CSV) from which `Plat.read` makes this plat again.

        Each half mile in them is 40 chains long, except for the second ones of closing lines.

        >>> print(plat.write_notes()[:45])
        line,between,and,quarter,corner
        T,2,N,3,W
        N,1
        >>> township.Plat.read(plat.write_notes()) == plat
        True
        """
        answer, text = text_by(_library.write_notes, byref(self._parts))
        if answer.verdict != _library.ACCEPTED:
            raise failure_of(answer.verdict)
        return text

    @property
    def township(self) -> Township:
        """The township's designation."""
        return township_of(self._parts)

    @property
    def closing_quarters(self) -> Tuple[int, ...]:
        """The last quarter mile of each section line, by line index, in thousandths of a chain.

        >>> plat.closing_quarters[:7]
        (20000, 20000, 20000, 20000, 20200, 20400, 20800)
        """
        return tuple(self._parts.closing_quarters)

    @property
    def text(self) -> str:
        """The printed plat: the acreage of each lot, of each section, and of the township.

        >>> print(plat.text.splitlines()[6])
        sec. 7: lot 1 39.18, lot 2 39.13, lot 3 39.08, lot 4 39.03, total 636.40
        """
        return self._print() if self._text is None else self._text

    @property
    def sections(self) -> Mapping[int, Section]:
        """The sections of the printed plat, by section number, 1 to 36.

        >>> plat.sections[5].lots
        {1: Decimal('40.45'), 2: Decimal('40.55'), 3: Decimal('40.65'), 4: Decimal('40.75')}
        >>> plat.sections[5].total
        Decimal('642.40')
        """
        return self._printed_figures()[0]

    @property
    def figures(self) -> Mapping[Tuple[int, int], Decimal]:
        """The acreage of each lot on the printed plat, by section and lot, as in `Lots.figures`.

        >>> plat.figures[5, 1], len(plat.figures)
        (Decimal('40.45'), 47)
        """
        lots = ((each.number, each.lots) for each in self.sections.values())
        return MappingProxyType({(number, lot): acres for number, each in lots for lot, acres in each.items()})

    @property
    def total(self) -> Decimal:
        """The acreage of the township.

        >>> plat.total
        Decimal('23037.57')
        """
        return self._printed_figures()[1]

    def svg(self, land: Union[Text, Land, None] = None, section: Optional[int] = None) -> str:
        """Return a drawing of the plat, or of one of its sections, as an SVG document of at most 200 kB.

        The land of a description, or a `Land`, is shaded, and its acreage is shown by each account. The drawing is
        schematic, and fits on letter and on A4 paper. Raise `Refused` if the description is refused, and
        `ValueError` if there is no such section. In a notebook, a plat at the end of a cell is shown as this drawing.

        >>> plat.svg(land="sec. 5, lots 1 and 2, S1/2NE1/4.")[:40]
        '<svg xmlns="http://www.w3.org/2000/svg" '
        >>> "39.18 acres" in plat.svg(section=7)
        True
        """
        from ._drawing.of_plat import drawing_of

        return drawing_of(self, land, section)

    def _repr_svg_(self) -> str:
        """Return the drawing that a notebook shows."""
        return self.svg()

    def _print(self) -> str:
        """Print the plat and cache the text."""
        answer, text = text_by(_library.print_plat, byref(self._parts))
        if answer.verdict != _library.ACCEPTED:
            raise failure_of(answer.verdict)
        self._text = text
        return text

    def _printed_figures(self) -> Tuple[Mapping[int, Section], Decimal]:
        """Return the figures of the printed plat, which are cached."""
        if self._figures is None:
            figures = _library.PlatFigures()
            answer = _library.figures(byref(self._parts), byref(figures))
            if answer.verdict != _library.ACCEPTED:
                raise failure_of(answer.verdict)
            sections = MappingProxyType(sections_of(figures))
            self._figures = sections, acres_of_hundredths(figures.township)
        return self._figures

    def __eq__(self, other: object) -> bool:
        if not isinstance(other, Plat):
            return NotImplemented
        return self._plain == other._plain

    def __hash__(self) -> int:
        return hash(self._plain)

    def __reduce__(self) -> Tuple[Any, ...]:
        return Plat.of_parts, (tuple(self.township), self.closing_quarters)

    def __repr__(self) -> str:
        return f"<township.Plat of {self.township}>"
