"""Gathers the rows of each township, which can be in any order in the attribute table."""
from __future__ import annotations

from typing import Dict, List, Union

from .plss import PlssId
from .rows import LotRow, OtherRow


class SectionRows:
    """The rows of a section."""

    __slots__ = ("lots", "aliquot", "no_land")

    def __init__(self) -> None:
        #: The rows of each lot, by its number.
        self.lots: Dict[int, List[LotRow]] = {}
        #: The line of an aliquot part, and a row of land that is not there, by quarter-quarter.
        self.aliquot: Dict[str, int] = {}
        self.no_land: Dict[str, OtherRow] = {}

    def add(self, row: Union[LotRow, OtherRow]) -> None:
        """Add a row."""
        if isinstance(row, LotRow):
            self.lots.setdefault(row.number, []).append(row)
        elif row.is_there:
            self.aliquot.setdefault(row.quarter_quarter, row.listed.line)
        else:
            self.no_land.setdefault(row.quarter_quarter, row)


class TownshipRows:
    """The rows of a township."""

    __slots__ = ("sections", "has_bad_rows")

    def __init__(self) -> None:
        self.sections: Dict[int, SectionRows] = {}
        #: Whether there are rows of which it cannot be said what they are about.
        self.has_bad_rows = False

    def add(self, row: Union[LotRow, OtherRow]) -> None:
        """Add a row."""
        rows = self.sections.get(row.section)
        if rows is None:
            rows = self.sections[row.section] = SectionRows()
        rows.add(row)


class Gathered:
    """The rows of all townships so far."""

    def __init__(self) -> None:
        self.townships: Dict[PlssId, TownshipRows] = {}

    def of(self, township: PlssId) -> TownshipRows:
        """Return the rows of a township."""
        rows = self.townships.get(township)
        if rows is None:
            rows = self.townships[township] = TownshipRows()
        return rows
