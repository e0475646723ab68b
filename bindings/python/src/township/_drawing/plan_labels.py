"""Where the numbers of lots are written on a plat with lots of its own, and what is written where there is no land."""
from __future__ import annotations

from typing import Iterable, Iterator, List, NamedTuple, Sequence, Tuple

from .layout import SECTION, Box, Lot
from .pieces import pieces_of
from .places import Picture, boxes_of, picture_of_boxes
from .plan import SectionPlan
from .tracts_drawn import Room, Shape, largest_in

#: How many columns and rows a label takes.
Size = Tuple[int, int]


class Label(NamedTuple):
    """Where a label is: its middle in a section, in places, and the rectangle that it has there."""

    x: float
    y: float
    columns: int
    rows: int
    #: Which of the sizes has room there, from 0. If it is the number of sizes, none has.
    size: int

    @property
    def room(self) -> str:
        """The rectangle, as an attribute: a screen shows the label where it enlarges that enough."""
        return f"{self.columns} {self.rows}"

    def box(self, size: Size) -> Box:
        """Return the places that a label of this size takes."""
        return _around(self.x, self.y, size)


def lot_labels(plan: SectionPlan, taken: Sequence[Box], sizes: Sequence[Size]) -> Iterator[Tuple[Lot, Label]]:
    """Yield each lot of a section, and where its label is: clear of what is taken, as large as possible."""
    room = Room(SECTION, taken)
    for lot, picture in plan.lots.items():
        yield lot, _label(picture, room, taken, sizes)


def further_labels(
    plan: SectionPlan, labels: Iterable[Tuple[Lot, Label]], taken: Sequence[Box], sizes: Sequence[Size]
) -> Iterator[Tuple[Lot, Label]]:
    """Yield where to write the numbers of lots again: in each piece of a lot that has room, and not its label."""
    room = Room(SECTION, taken)
    for lot, label in labels:
        pieces = pieces_of(boxes_of(plan.lots[lot]))
        for piece in pieces if len(pieces) > 1 else []:
            if not any(_contains(box, label.x, label.y) for box in piece):
                again = _label(picture_of_boxes(piece, SECTION), room, taken, sizes)
                if again.size < len(sizes):
                    yield lot, again


def no_land_labels(plan: SectionPlan, taken: Sequence[Box], sizes: Sequence[Size]) -> Iterator[Label]:
    """Yield where to write that there is no land: in each piece of it that has room."""
    room = Room(SECTION, taken)
    for piece in pieces_of(boxes_of(plan.no_land)):
        label = _label(picture_of_boxes(piece, SECTION), room, taken, sizes)
        if label.size < len(sizes):
            yield label


def _label(picture: Picture, room: Room, taken: Sequence[Box], sizes: Sequence[Size]) -> Label:
    """Return where the label of land is: in the middle of its largest rectangle, if that is free."""
    filled = [y for y, row in enumerate(picture) if row]
    rows = picture[filled[0] : filled[-1] + 1]
    largest = largest_in(rows, filled[0])
    shape = Shape(filled[0], rows, largest, "")
    x, y = largest.x + largest.width / 2, largest.y + largest.height / 2
    for index, size in enumerate(sizes):
        fits = size[0] <= largest.width and size[1] <= largest.height
        if fits and not any(_meet(_around(x, y, size), box) for box in taken):
            return Label(x, y, largest.width, largest.height, index)
        found = room.find(shape, *size)
        if found is not None:
            return Label(found.x + found.width / 2, found.y + found.height / 2, *size, index)
    return Label(x, y, largest.width, largest.height, len(sizes))


def _around(x: float, y: float, size: Size) -> Box:
    """Return the places that a rectangle of this size covers around a point, also in part."""
    left, top = int(x - size[0] / 2), int(y - size[1] / 2)
    return Box(left, top, size[0] + (2 * left != 2 * x - size[0]), size[1] + (2 * top != 2 * y - size[1]))


def _meet(one: Box, other: Box) -> bool:
    across = one.x < other.x + other.width and other.x < one.x + one.width
    return across and one.y < other.y + other.height and other.y < one.y + one.height


def _contains(box: Box, x: float, y: float) -> bool:
    return box.x <= x <= box.x + box.width and box.y <= y <= box.y + box.height


def boxes_taken(labels: Sequence[Label], sizes: Sequence[Size]) -> List[Box]:
    """Return the places that labels take."""
    return [label.box(sizes[label.size]) for label in labels if label.size < len(sizes)]
