"""Land as rows with the keys of a GIS's polygons: the section, the quarter-quarter, and the lot."""
from __future__ import annotations

from decimal import Decimal
from typing import Dict, Iterator, List, NamedTuple, Optional, Sequence, Set

from . import _library
from ._land import Land
from ._lot_map import aliquot_parts
from ._lots import Lots
from ._parts import Part

#: The number of places along a side of a quarter-quarter.
_SIDE = _library.PLACES_ACROSS // 4

#: The columns and rows of quarters, in the order of a canonical description: NE, NW, SW, SE.
_TURN = ((0, 1), (1, 1), (1, 0), (0, 0))


class GisRow(NamedTuple):
    """Land in one polygon: in a quarter-quarter, or in a lot and a quarter-quarter that it lies in."""

    #: The section's number, as in FRSTDIVNO.
    section: int
    #: As in QQSEC: `NENW` is the northeast quarter of the northwest quarter.
    quarter_quarter: str
    #: The lot's number, as in GOVLOT, or `None` for other land.
    lot: Optional[int]
    #: How much of the polygon the land contains: always all of a lot.
    share: Decimal
    #: The aliquot parts that the land contains, if it does not contain the whole quarter-quarter.
    part: str


class _Square(NamedTuple):
    """A quarter-quarter: its column from the east, and its row from the south, 0 to 3."""

    column: int
    row: int

    @property
    def quarters(self) -> List[str]:
        """The quarters that reach it, the smaller one first."""
        digits = (self.row % 2, self.column % 2), (self.row // 2, self.column // 2)
        return ["SN"[row] + "EW"[column] for row, column in digits]

    def meets(self, block: Part) -> bool:
        """Return whether it shares a place with a block."""
        return (
            block.column < (self.column + 1) * _SIDE
            and self.column * _SIDE < block.column + block.columns
            and block.row < (self.row + 1) * _SIDE
            and self.row * _SIDE < block.row + block.rows
        )

    def within(self, rows: Sequence[int]) -> List[int]:
        """Return its places that are in the rows of a section, as such rows."""
        mask = ((1 << _SIDE) - 1) << self.column * _SIDE
        return [row & mask if index // _SIDE == self.row else 0 for index, row in enumerate(rows)]


_SQUARES = [_Square(2 * east + column, 2 * south + row) for east, south in _TURN for column, row in _TURN]


def rows_of(lots: Lots, land: Land) -> Iterator[GisRow]:
    """Yield the rows of land on the plat of a lot table: by section, and in it lots before other land.

    >>> lots = township.Lots.new("T. 2 N., R. 3 W.")
    >>> for row in rows_of(lots, lots.land("sec. 5, lot 1, S1/2SE1/4NE1/4.")):
    ...     print(*row)
    5 NENE 1 1 
    5 SENE None 0.5 S1/2SE1/4NE1/4
    >>> lots = township.Lots.read("section,lot,acres,land\\nT,2,N,3,W\\n14,4,71.10,E1/2NW1/4\\n14,,,N1/2NW1/4NW1/4\\n")
    >>> for row in rows_of(lots, lots.land("sec. 14, lot 4, S1/2NW1/4NW1/4.")):
    ...     print(*row)
    14 NENW 4 1 
    14 SENW 4 1 
    14 NWNW None 0.5 S1/2NW1/4NW1/4
    """
    for section, places in land.rows.items():
        in_lots: Set[_Square] = set()
        for number, blocks in _lots_of_section(lots, section).items():
            squares = [square for square in _SQUARES if any(map(square.meets, blocks))]
            in_lots.update(squares)
            if places[blocks[0].row] >> blocks[0].column & 1:
                yield from (GisRow(section, "".join(each.quarters), number, Decimal(1), "") for each in squares)
        # A quarter-quarter that a lot lies in is made up of lots, and of land that is not there.
        for square in _SQUARES:
            rows = square.within(places)
            if square not in in_lots and any(rows):
                yield _other_land(section, square, rows)


def _other_land(section: int, square: _Square, rows: Sequence[int]) -> GisRow:
    """Return the row of these places in a quarter-quarter without lots."""
    share = Decimal(sum(bin(row).count("1") for row in rows)) / (_SIDE * _SIDE)
    return GisRow(section, "".join(square.quarters), None, share, "" if share == 1 else aliquot_parts(rows))


def _lots_of_section(lots: Lots, section: int) -> Dict[int, List[Part]]:
    """Return the lots of a section by their numbers, with the blocks that each lies in."""
    numbers = [number for each, number in lots.figures if each == section]
    return {number: lots.land(f"sec. {section}, lot {number}.").parts for number in numbers}
