"""The pieces of land: rectangles that have sides in common, and closed outlines."""
from __future__ import annotations

from typing import Dict, Iterator, List, Sequence, Tuple

from .._rectangles import runs
from .layout import Box
from .places import Picture

Corner = Tuple[int, int]
#: Where the sides of an outline end, by where they begin. Two begin where two corners of land meet.
Sides = Dict[Corner, List[int]]


def pieces_of(boxes: Sequence[Box]) -> List[List[Box]]:
    """Return the pieces that the rectangles of a picture form. Rectangles that meet only at a corner are separate.

    The rectangles are those of `boxes_of`, of which no two are beside each other in a row.

    >>> pieces_of([Box(0, 0, 2, 1), Box(1, 1, 2, 1), Box(3, 2, 1, 1)])
    [[Box(x=0, y=0, width=2, height=1), Box(x=1, y=1, width=2, height=1)], [Box(x=3, y=2, width=1, height=1)]]
    """
    owner = list(range(len(boxes)))

    def first_of(index: int) -> int:
        while owner[index] != index:
            owner[index] = owner[owner[index]]
            index = owner[index]
        return index

    ending: Dict[int, List[int]] = {}
    for index, box in enumerate(boxes):
        ending.setdefault(box.y + box.height, []).append(index)
    for index, box in enumerate(boxes):
        for above in ending.get(box.y, ()):
            other = boxes[above]
            if other.x < box.x + box.width and box.x < other.x + other.width:
                owner[first_of(index)] = first_of(above)
    found: Dict[int, List[Box]] = {}
    for index, box in enumerate(boxes):
        found.setdefault(first_of(index), []).append(box)
    return list(found.values())


def loops_of(picture: Picture, top: int = 0) -> str:
    """Return the outline of the land in a picture as closed loops, so that it can be filled, too.

    Going round, the land is at the right hand. The first row of the picture is `top` rows down.

    >>> loops_of([0b01, 0b11])
    'M0 0h1v1h1v1h-2z'
    >>> loops_of([0b01, 0b10])
    'M0 0h1v1h-1zM1 1h1v1h-1z'
    """
    across, along = _across(picture), _along(picture)
    found: List[str] = []
    while across:
        start = next(iter(across))
        first = end = _taken(across, start, 1)
        x, y = start
        moves = [f"M{x} {y + top}"]
        while True:
            moves.append(f"h{end - x}")
            # Where two corners meet, the loop turns right, and so stays with its own land.
            right, x = (1 if end > x else -1), end
            end = _taken(along, (x, y), right)
            right, step, y = (-1 if end > y else 1), end - y, end
            if (x, y) == start and ((x, y) not in across or (first - x) * right > 0):
                break
            moves.append(f"v{step}")
            end = _taken(across, (x, y), right)
        found.append("".join(moves) + "z")
    return "".join(found)


def _taken(sides: Sides, corner: Corner, right: int) -> int:
    """Remove a side that begins at a corner, and return its end: of two, the farther one in this direction."""
    ends = sides[corner]
    end = max(ends) if right > 0 else min(ends)
    ends.remove(end)
    if not ends:
        del sides[corner]
    return end


def _across(picture: Picture) -> Sides:
    """Return the sides of the outline that run east or west."""
    found: Sides = {}
    for y, (above, below) in enumerate(zip([0, *picture], [*picture, 0])):
        if above == below:
            continue
        for x, length in runs(below & ~above):
            found.setdefault((x, y), []).append(x + length)
        for x, length in runs(above & ~below):
            found.setdefault((x + length, y), []).append(x)
    return found


def _along(picture: Picture) -> Sides:
    """Return the sides of the outline that run north or south."""
    found: Sides = {}
    begun: Dict[Tuple[bool, int], int] = {}
    lefts = rights = previous = 0
    for y, row in enumerate([*picture, 0]):
        if row == previous:
            continue
        previous, left, right = row, row & ~(row << 1), (row << 1) & ~row
        for goes_north, before, now in ((True, lefts, left), (False, rights, right)):
            for x in _ones(before & ~now):
                top = begun.pop((goes_north, x))
                start, end = (y, top) if goes_north else (top, y)
                found.setdefault((x, start), []).append(end)
            for x in _ones(now & ~before):
                begun[goes_north, x] = y
        lefts, rights = left, right
    return found


def _ones(bits: int) -> Iterator[int]:
    while bits:
        lowest = bits & -bits
        yield lowest.bit_length() - 1
        bits ^= lowest
