"""Divides a quarter-quarter among the lots that share it. The attribute table does not say which part each lot has."""
from __future__ import annotations

from typing import List

from .quarters import QUARTERS

#: The parts of a square that two or three lots are given.
_TWO = ("N1/2", "S1/2")
_THREE = ("N1/2", "SW1/4", "SE1/4")


def divided(count: int, square: str) -> List[str]:
    """Return one part of a square for each of some lots, in the order of their numbers.

    One lot has the whole square; two have its halves, north and south; three have its north half and the quarters in
    the south; and four or more share its quarters, as evenly as possible.

    >>> divided(2, "NE1/4NW1/4"), divided(3, "NE1/4")
    (['N1/2NE1/4NW1/4', 'S1/2NE1/4NW1/4'], ['N1/2NE1/4', 'SW1/4NE1/4', 'SE1/4NE1/4'])
    >>> divided(5, "NE1/4")
    ['N1/2NE1/4NE1/4', 'S1/2NE1/4NE1/4', 'NW1/4NE1/4', 'SW1/4NE1/4', 'SE1/4NE1/4']
    """
    if count == 1:
        return [square]
    if count < 4:
        return [part + square for part in (_TWO if count == 2 else _THREE)]
    parts = []
    for index, quarter in enumerate(QUARTERS):
        parts += divided(count // 4 + (index < count % 4), f"{quarter}1/4{square}")
    return parts
