"""Finds the lots of a section, and the rows that contradict each other."""
from __future__ import annotations

from typing import Dict, Iterator, List, NamedTuple, Set

from .gathering import SectionRows, TownshipRows
from .quarters import QUARTER_QUARTERS
from .rows import LotRow, Unused

#: The most lots that a lot table may have in a section.
LOTS_MOST = 64


class FoundLot(NamedTuple):
    """A lot: its acreage in hundredths, and the quarter-quarters that it lies in."""

    number: int
    hundredths: int
    quarter_quarters: Set[str]


class FoundSection(NamedTuple):
    """The lots of a section, by number, and the quarter-quarters in which the plat has no land."""

    section: int
    lots: List[FoundLot]
    no_land: List[str]


class FoundTownship(NamedTuple):
    """The sections of a township that have lots, or a quarter-quarter without land."""

    sections: List[FoundSection]
    #: The rows that cannot be used, in the order of the file.
    unused: List[Unused]


def found_in(rows: TownshipRows) -> FoundTownship:
    """Return the lots of a township."""
    unused: List[Unused] = []
    sections = sorted(rows.sections.items(), key=lambda each: each[0])
    found = [_section(number, of_section, unused) for number, of_section in sections]
    unused.sort()
    return FoundTownship([each for each in found if each.lots or each.no_land], unused)


def _section(section: int, rows: SectionRows, unused: List[Unused]) -> FoundSection:
    """Return the lots of a section, and add the rows that cannot be used."""
    lots: List[FoundLot] = []
    taken: Set[str] = set()
    for number, of_lot in sorted(rows.lots.items()):
        taken.update(row.quarter_quarter for row in of_lot)
        faults = list(_faults(of_lot, rows.aliquot))
        if len(rows.lots) > LOTS_MOST:
            faults = [row.listed._replace(reason=f"the section has more than {LOTS_MOST} lots") for row in of_lot]
        unused += faults
        if not faults:
            lots.append(_lot(number, of_lot))
    no_land = []
    for quarter_quarter, row in rows.no_land.items():
        if quarter_quarter in rows.aliquot:
            line = rows.aliquot[quarter_quarter]
            unused.append(row.listed._replace(reason=f"an aliquot part is in the same quarter-quarter (line {line})"))
        elif quarter_quarter not in taken:
            no_land.append(quarter_quarter)
    return FoundSection(section, lots, sorted(no_land, key=QUARTER_QUARTERS.index))


def _lot(number: int, rows: List[LotRow]) -> FoundLot:
    hundredths = next(row.hundredths for row in rows if row.hundredths is not None)
    return FoundLot(number, hundredths, {row.quarter_quarter for row in rows})


def _faults(rows: List[LotRow], aliquot: Dict[str, int]) -> Iterator[Unused]:
    """Yield the rows of a lot, each with what is wrong, unless nothing is wrong with any of them."""
    faults = [row.listed.reason or _contradiction(row, aliquot) for row in rows]
    acreages = sorted({row.hundredths for row in rows if row.hundredths is not None})
    everywhere = ""
    if len(acreages) > 1:
        shown = " and ".join(f"{each // 100}.{each % 100:02}" for each in acreages)
        everywhere = f"the rows of this lot have different acreages: {shown}"
    elif not acreages:
        everywhere = "the lot has no acreage"
    elif any(faults):
        everywhere = "another row of this lot cannot be used"
    if everywhere:
        for row, fault in zip(rows, faults):
            yield row.listed._replace(reason=fault or everywhere)


def _contradiction(row: LotRow, aliquot: Dict[str, int]) -> str:
    """Return why a lot cannot lie in its quarter-quarter, or nothing."""
    line = aliquot.get(row.quarter_quarter)
    return "" if line is None else f"an aliquot part is in the same quarter-quarter (line {line})"
