"""Where the lots of a plat lie: the places of each in its section, and the aliquot parts that they make up."""
from __future__ import annotations

from ctypes import byref
from typing import Dict, List, Sequence

from . import _library
from ._parts import Part, parts_of
from ._refused import failure_of
from ._written import text_by

#: The places of a section: 32 rows from the south, as in `Land.rows`.
Rows = List[int]

#: The bytes of a place in no lot and of one where the plat has no land, and that of the first quarter-quarter that is
#: divided.
_NO_LOT = 0
NO_LAND = 100
_FIRST_DIVIDED = 101

#: The quarter-quarters along a side of a section, and the places along a side of one.
_QUARTERS = 4
_SIDE = _library.PLACES_ACROSS // _QUARTERS

#: Aliquot parts are the same in each section. They are written for one in which a regular township has no lots.
_PLAIN_SECTION = 14

#: A whole section is no aliquot part, so its halves are written.
_WHOLE, _HALVES = "all", "N1/2, S1/2"


def rows_marked(table: _library.Lots, section: int, mark: int) -> Rows:
    """Return the places of a section that have a mark in a table that says where its lots lie.

    The mark of a place is the number of its lot, or `NO_LAND`.
    """
    return rows_by_mark(table, section).get(mark, [0] * _library.PLACES_ACROSS)


def rows_by_mark(table: _library.Lots, section: int) -> Dict[int, Rows]:
    """Return the places of a section that have each mark in a table that says where its lots lie. Places in no lot
    have none."""
    found: Dict[int, Rows] = {}
    first = _QUARTERS * _QUARTERS * (section - 1)
    for index, byte in enumerate(bytes(table.positions)[first : first + _QUARTERS * _QUARTERS]):
        if byte == _NO_LOT:
            continue
        top, left = (_SIDE * each for each in divmod(index, _QUARTERS))
        for place, mark in enumerate(_marks_of(table, byte)):
            if mark != _NO_LOT:
                row, column = divmod(place, _SIDE)
                found.setdefault(mark, [0] * _library.PLACES_ACROSS)[top + row] |= 1 << left + column
    return found


def _marks_of(table: _library.Lots, byte: int) -> bytes:
    """Return the marks of the places of a quarter-quarter that has this byte."""
    count = _SIDE * _SIDE
    if byte < _FIRST_DIVIDED:
        return bytes([byte]) * count
    first = count * (byte - _FIRST_DIVIDED)
    return bytes(table.divided)[first : first + count]


def aliquot_parts(rows: Sequence[int]) -> str:
    """Return places of a section in aliquot parts, as the records of a lot table have them.

    >>> aliquot_parts([0] * 24 + [0xFF] * 8)
    'NE1/4NE1/4'
    """
    answer, text = text_by(_library.land_text, byref(_in_plain_section(rows)))
    if answer.verdict != _library.ACCEPTED:
        raise failure_of(answer.verdict)
    parts = text.partition(f"sec. {_PLAIN_SECTION}, ")[2].rstrip(".\n")
    return _HALVES if parts == _WHOLE else parts


def blocks_of(section: int, rows: Sequence[int]) -> List[Part]:
    """Return the blocks of places of a section that its aliquot parts are, in their order. They are of no lot."""
    return [part._replace(section=section) for part in parts_of(_in_plain_section(rows))]


def _in_plain_section(rows: Sequence[int]) -> _library.Land:
    """Return the land at the same places of a section without lots."""
    land = _library.Land(township=_library.Designation(1, _library.NORTH, 1, _library.EAST))
    land.rows[_PLAIN_SECTION - 1][:] = rows
    return land
