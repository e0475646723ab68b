"""Writes lot tables with four columns."""
from __future__ import annotations

from typing import Dict, List

from .._township import Township
from .dividing import divided
from .quarters import QUARTER_QUARTERS, steps_of
from .resolving import FoundSection

_HEADING = "section,lot,acres,land"


def table_of(township: Township, sections: List[FoundSection]) -> str:
    """Return the lot table of a township: its records are by section and lot, with the land that is not there last."""
    records = [_HEADING, ",".join(map(str, ("T", *township)))]
    for section in sections:
        parts = _parts(section)
        for lot in section.lots:
            acres = f"{lot.hundredths // 100}.{lot.hundredths % 100:02}"
            records.append(f"{section.section},{lot.number},{acres},{_field(parts[lot.number])}")
        if section.no_land:
            records.append(f"{section.section},,,{_field([_square(each) for each in section.no_land])}")
    return "\n".join(records) + "\n"


def name_of(township: Township) -> str:
    """Return the name of a township's file.

    >>> name_of(Township(2, "N", 3, "W"))
    '2N-3W.csv'
    """
    return f"{township.number}{township.north_south}-{township.range}{township.east_west}.csv"


def _parts(section: FoundSection) -> Dict[int, List[str]]:
    """Return the parts of each lot."""
    parts: Dict[int, List[str]] = {lot.number: [] for lot in section.lots}
    for quarter_quarter in QUARTER_QUARTERS:
        sharing = [lot.number for lot in section.lots if quarter_quarter in lot.quarter_quarters]
        if sharing:
            for number, part in zip(sharing, divided(len(sharing), _square(quarter_quarter))):
                parts[number].append(part)
    return parts


def _square(quarter_quarter: str) -> str:
    return "".join(steps_of(quarter_quarter))


def _field(parts: List[str]) -> str:
    """Return a field with parts, in quotes if there are several."""
    return parts[0] if len(parts) == 1 else f'"{", ".join(parts)}"'
