"""Where sections, lots, and section lines are, counted in places from the northwest corner of the township.

A place is the smallest part that a description can name: a section is 32 places wide and 32 high.
"""
from __future__ import annotations

from dataclasses import dataclass
from typing import Iterator, NamedTuple, Optional, Tuple

#: The places along a side of a section, and of a quarter-quarter section, which is also that of a lot.
SECTION = 32
LOT = 8

#: The sections along a side of a township, and its places.
ACROSS = 6
TOWNSHIP = ACROSS * SECTION

#: The lines that run north come first; then those that run west, from the line on this index on.
FIRST_WEST = 42
LINES = 84

#: The quarter mile of a line that does not close, in thousandths of a chain.
REGULAR = 20_000


class Box(NamedTuple):
    """A rectangle of places, by its northwest corner and its size."""

    x: int
    y: int
    width: int
    height: int


class Lot(NamedTuple):
    """A lot, by the number of its section and its own."""

    section: int
    number: int


@dataclass(frozen=True)
class Line:
    """A section line, from its west or north end."""

    index: int
    x: int
    y: int
    #: Whether it runs north; otherwise it runs west.
    north: bool

    @property
    def closes(self) -> bool:
        """Whether its last quarter mile takes the excess or deficiency."""
        return self.index < ACROSS + 1 if self.north else self.x == 0


def column_of(section: int) -> int:
    """Return the column of a section, counted from the west.

    >>> [column_of(section) for section in (1, 6, 7, 12, 36)]
    [5, 0, 0, 5, 5]
    """
    row, place = divmod(section - 1, ACROSS)
    return place if row % 2 else ACROSS - 1 - place


def row_of(section: int) -> int:
    """Return the row of a section, counted from the north."""
    return (section - 1) // ACROSS


def box_of(section: int) -> Box:
    """Return where a section is in its township.

    >>> box_of(6)
    Box(x=0, y=0, width=32, height=32)
    """
    return Box(SECTION * column_of(section), SECTION * row_of(section), SECTION, SECTION)


def lots_of(section: int) -> Iterator[Tuple[Lot, Box]]:
    """Yield the lots of a section, and where each is in it.

    Along the north boundary lots are numbered from the east, and along the west boundary from the north.

    >>> [(lot.number, box.x, box.y) for lot, box in lots_of(6)]
    [(1, 24, 0), (2, 16, 0), (3, 8, 0), (4, 0, 0), (5, 0, 8), (6, 0, 16), (7, 0, 24)]
    """
    north, west = row_of(section) == 0, column_of(section) == 0
    corners = [(x, 0) for x in range(SECTION - LOT, -1, -LOT)] if north else []
    if west:
        corners += [(0, y) for y in range(LOT if north else 0, SECTION, LOT)]
    for number, (x, y) in enumerate(corners, start=1):
        yield Lot(section, number), Box(x, y, LOT, LOT)


def line_of(index: int) -> Line:
    """Return the section line with an index, as `docs/NOTES-FORMAT.md` numbers them.

    >>> line_of(6), line_of(47).closes
    (Line(index=6, x=0, y=0, north=True), True)
    """
    if index < FIRST_WEST:
        row, place = divmod(index, ACROSS + 1)
        return Line(index, TOWNSHIP - SECTION * place, SECTION * row, True)
    row, place = divmod(index - FIRST_WEST, ACROSS)
    return Line(index, TOWNSHIP - SECTION * (place + 1), SECTION * row, False)


def lines() -> Iterator[Line]:
    """Yield all section lines, by their index."""
    return map(line_of, range(LINES))


def closing_of(section: int, side: str) -> Optional[Line]:
    """Return the line on a side of a section (`N`, `E`, `S`, or `W`) if it closes there."""
    box = box_of(section)
    if side in "EW":
        index = (ACROSS + 1) * row_of(section) + ACROSS - column_of(section) - (side == "E")
    else:
        row = row_of(section) + (side == "S")
        index = FIRST_WEST + ACROSS * row + ACROSS - 1 - box.x // SECTION
    line = line_of(index)
    return line if line.closes else None
