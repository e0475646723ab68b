"""The parts that the canonical text of land names."""
from __future__ import annotations

from ctypes import byref
from typing import List, NamedTuple, Optional

from . import _library
from ._refused import failure_of

#: The number of parts that a first call has room for.
_USUAL_ROOM = 64


class Part(NamedTuple):
    """A part of land, as the canonical text writes it: a lot, or a block of aliquot parts.

    The unit is a place, of which a section has 32 rows and 32 columns. A part is a block of `columns` by `rows`
    places, whose southeast corner is `column` places west of the section's east line and `row` places north of
    its south line.

    >>> for part in plat.land("sec. 5, lot 1; sec. 14, W1/2.").parts:
    ...     print(part)
    Part(section=5, lot=1, column=0, row=24, columns=8, rows=8)
    Part(section=14, lot=None, column=16, row=0, columns=16, rows=32)
    """

    #: The section's number, 1 to 36.
    section: int
    #: The lot's number, or `None` if the part is not a lot.
    lot: Optional[int]
    column: int
    row: int
    columns: int
    rows: int


def parts_of(land: _library.Land) -> List[Part]:
    """Return the parts of land, in the order of its canonical text."""
    room = _USUAL_ROOM
    parts = (_library.Part * room)()
    answer = _library.land_parts(byref(land), parts, room)
    while answer.verdict == _library.NO_ROOM:
        room = answer.length
        parts = (_library.Part * room)()
        answer = _library.land_parts(byref(land), parts, room)
    if answer.verdict != _library.ACCEPTED:
        raise failure_of(answer.verdict)
    return [_part_of(part) for part in parts[: answer.length]]


def _part_of(part: _library.Part) -> Part:
    return Part(part.section, part.lot or None, part.column, part.row, part.columns, part.rows)
