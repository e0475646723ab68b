"""Land as paths: its places, joined into rectangles, and its outline."""
from __future__ import annotations

from itertools import groupby
from typing import Iterable, Iterator, List, Sequence, Tuple

from .._rectangles import rectangles_in, runs
from .layout import ACROSS, SECTION, Box, box_of
from .subject import Rows

#: The most rectangles that get an outline. Land in more pieces would be drawn black by its outline.
OUTLINED_MOST = 2_000

#: The rows of a drawing, from the north; bit k of a row is column k from the west.
Picture = List[int]


def picture_of_township(rows: Rows) -> Picture:
    """Return the land in a township, as a picture of 192 rows."""
    picture = [0] * (ACROSS * SECTION)
    for section, land in rows.items():
        box = box_of(section)
        for y, row in enumerate(picture_of_section(land)):
            picture[box.y + y] |= row << box.x
    return picture


def picture_of_section(land: Sequence[int]) -> Picture:
    """Return the land in a section, as a picture of 32 rows.

    Land has its rows from the south and its bits from the east, pictures from the north and from the west.

    >>> picture_of_section([1] + 31 * [0])[31] == 1 << 31
    True
    """
    return [_mirrored(row) for row in reversed(land)]


def _mirrored(row: int) -> int:
    return int(f"{row:0{SECTION}b}"[::-1], 2) if row else 0


def boxes_of(picture: Picture) -> List[Box]:
    """Return rectangles that cover exactly the land in a picture, without overlap.

    >>> boxes_of([0b011, 0b011, 0b100])
    [Box(x=0, y=0, width=2, height=2), Box(x=2, y=2, width=1, height=1)]
    """
    return [Box(*each) for each in rectangles_in(picture)]


def picture_of_boxes(boxes: Iterable[Box], size: int) -> Picture:
    """Return the picture of some rectangles, with so many rows."""
    picture = [0] * size
    for box in boxes:
        bits = ((1 << box.width) - 1) << box.x
        for y in range(box.y, box.y + box.height):
            picture[y] |= bits
    return picture


def strokes_of(boxes: Iterable[Box]) -> Iterator[Tuple[int, str]]:
    """Yield paths that cover the rectangles of one height each, by a stroke along the middle of each rectangle.

    A stroke takes half as many characters as a rectangle, which counts for land in thousands of pieces.

    >>> list(strokes_of([Box(0, 0, 2, 2), Box(4, 1, 3, 2)]))
    [(2, 'm0 1h2m2 1h3')]
    """
    by_height = sorted(boxes, key=lambda box: (box.height, box.y, box.x))
    for height, group in groupby(by_height, key=lambda box: box.height):
        path, x, middle = [], 0.0, 0.0
        for box in group:
            to = box.y + height / 2
            path.append(f"m{box.x - x:g} {to - middle:g}h{box.width}")
            x, middle = box.x + box.width, to
        yield height, "".join(path)


def outline_of(picture: Picture, width: int) -> str:
    """Return the path of the outline of the land in a picture of this width.

    >>> outline_of([0b01, 0b11], 2)
    'M0 0h1M1 1h1M0 2h2M0 0v2M1 0v1M2 1v1'
    """
    sides = [f"M{x} {y}h{length}" for y, x, length in _edges(picture)]
    sides += [f"M{x} {y}v{length}" for x, y, length in _edges(turned(picture, width))]
    return "".join(sides)


def _edges(picture: Picture) -> Iterator[Tuple[int, int, int]]:
    """Yield where rows differ from those above them: the row, the first column, and the number of columns.

    A run ends where the land changes sides, so that no side of the outline crosses another.
    """
    for y, (above, below) in enumerate(zip([0, *picture], [*picture, 0])):
        if above == below:
            continue
        for one_side in (above & ~below, below & ~above):
            for x, length in runs(one_side):
                yield y, x, length


def turned(picture: Picture, width: int) -> Picture:
    """Return a picture in which rows and columns have changed places."""
    columns = [0] * width
    for y, row in enumerate(picture):
        if not row:
            continue
        for x, length in runs(row):
            for column in range(x, x + length):
                columns[column] |= 1 << y
    return columns
