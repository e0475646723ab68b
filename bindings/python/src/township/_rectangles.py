"""Rectangles of places. A row of places is a number, whose bit k is the place in column k."""
from __future__ import annotations

from typing import Dict, Iterator, List, Sequence, Tuple

#: A rectangle: its first column, its first row, and its columns and rows.
Rectangle = Tuple[int, int, int, int]


def rectangles_in(rows: Sequence[int]) -> List[Rectangle]:
    """Return rectangles that cover exactly the places in some rows, without overlap, by their rows and columns.

    >>> rectangles_in([0b011, 0b011, 0b100])
    [(0, 0, 2, 2), (2, 2, 1, 1)]
    """
    found: List[Rectangle] = []
    open_runs: Dict[Tuple[int, int], int] = {}
    for y, row in enumerate([*rows, 0]):
        # Most rows of a picture are empty.
        if not row and not open_runs:
            continue
        present = set(runs(row))
        for run in [each for each in open_runs if each not in present]:
            top = open_runs.pop(run)
            found.append((run[0], top, run[1], y - top))
        for run in present:
            open_runs.setdefault(run, y)
    return sorted(found, key=lambda each: (each[1], each[0]))


def runs(row: int) -> Iterator[Tuple[int, int]]:
    """Yield the first bit and the length of each run of ones.

    >>> list(runs(0b1101))
    [(0, 1), (2, 2)]
    """
    start = 0
    while row:
        zeros = (row & -row).bit_length() - 1
        row >>= zeros
        length = ((row + 1) & -(row + 1)).bit_length() - 1
        yield start + zeros, length
        row >>= length
        start += zeros + length
