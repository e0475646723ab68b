"""The figures of printed plats."""
from __future__ import annotations

from decimal import Context, Decimal
from fractions import Fraction
from typing import Dict, List, NamedTuple, Tuple

from . import _library

#: The number of units in an acre. The unit of area is a square thousandth of a chain.
UNITS_IN_ACRE = 10_000_000

# A 64-bit number has at most 20 digits, so nothing is rounded, whatever the caller's decimal context is.
_scaleb = Context(prec=28).scaleb


def acres_of_hundredths(hundredths: int) -> Decimal:
    """Return an acreage with two decimal places."""
    return _scaleb(hundredths, -2)


def fraction_of(area: _library.Fraction) -> Fraction:
    """Return an exact area in acres."""
    return Fraction(area.units_high << 64 | area.units_low, area.over * UNITS_IN_ACRE)


class Section(NamedTuple):
    """A section of the printed plat. Each figure is an exact area, rounded independently."""

    #: The section number, 1 to 36.
    number: int
    #: The acreage of lot 1, lot 2, and so on. A section has four lots, seven lots, or none.
    lot_acres: Tuple[Decimal, ...]
    #: The acreage of the section.
    total: Decimal

    @property
    def lots(self) -> Dict[int, Decimal]:
        """The acreage of each lot, by lot number.

        >>> plat.sections[7].lots[4]
        Decimal('39.03')
        """
        return dict(enumerate(self.lot_acres, start=1))


def sections_of(figures: _library.PlatFigures) -> Dict[int, Section]:
    """Return the sections of a printed plat, by section number."""
    numbers = range(1, _library.SECTIONS + 1)
    return {number: _section_of(number, lots, total) for number, lots, total in zip(numbers, *_rows(figures))}


def _rows(figures: _library.PlatFigures) -> Tuple[List[List[int]], List[int]]:
    """Return the figures of the lots of each section, and those of the sections."""
    return [list(lots) for lots in figures.lots], list(figures.sections)


def _section_of(number: int, lots: List[int], total: int) -> Section:
    """Return a section. The places of lots that it does not have are 0, which is no lot's figure."""
    return Section(number, tuple(map(acres_of_hundredths, filter(None, lots))), acres_of_hundredths(total))
