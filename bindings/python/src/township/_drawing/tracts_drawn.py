"""Tracts in a drawing: the outline of each, and its name where there is room."""
from __future__ import annotations

import functools
from typing import Callable, Dict, List, NamedTuple, Optional, Sequence, Tuple

from .layout import Box
from .markup import attribute, escaped, fit, group, number
from .pieces import loops_of
from .places import Picture, boxes_of
from .subject import Outline, Rows

#: The size of a name in millimeters, which is 6.2 points; and how wide its characters are, as a part of that.
SIZE = 2.2
_WIDE = 0.6

#: The most characters of a name that are drawn.
NAME_MOST = 20

#: The most characters that outlines take together. Tracts after that have none, and are counted in a note.
_PATHS_MOST = 90_000


#: The rectangles among which the largest is looked for.
_BOXES_MOST = 500


class Drawn(NamedTuple):
    """The tracts of a drawing, as markup, and how many of them it leaves out."""

    parts: List[str]
    left_out: int


class Shape(NamedTuple):
    """The land of a tract: its rows from the first that has any to the last, and its outline."""

    top: int
    rows: Picture
    largest: Box
    loops: str

    def __hash__(self) -> int:
        return hash(self.loops)


class Tract(NamedTuple):
    """A tract that is outlined: its name, its acreage, its place in the list, and its land."""

    name: str
    acres: Optional[str]
    place: int
    shape: Shape


#: A function that returns the picture of land.
Pictured = Callable[[Rows], Picture]


@functools.lru_cache(maxsize=2048)
def _shape_of(rows: Tuple[Tuple[int, Sequence[int]], ...], picture_of: Pictured) -> Optional[Shape]:
    """Return the shape of land, or `None` if the picture has none of it. While a list is typed, most tracts stay."""
    picture = picture_of(dict(rows))
    filled = [y for y, row in enumerate(picture) if row]
    if not filled:
        return None
    top, bottom = filled[0], filled[-1] + 1
    cropped = picture[top:bottom]
    return Shape(top, cropped, largest_in(cropped, top), loops_of(cropped, top))


def largest_in(rows: Picture, top: int) -> Box:
    """Return the largest of the rectangles of land whose first row is `top` rows down."""
    boxes = boxes_of(rows)[:_BOXES_MOST]
    best = max(boxes, key=lambda box: (min(box.width, box.height), box.width * box.height))
    return best._replace(y=best.y + top)


class Room:
    """Where names can be written: what is free of a picture, in places."""

    def __init__(self, size: int, taken: Sequence[Box]) -> None:
        self._width = size
        self._all = (1 << size) - 1
        self._free = [self._all] * size
        self._tracts = [0] * size
        self._shared = [0] * size
        for box in taken:
            self.take(box)

    def take(self, box: Box) -> None:
        """Take a rectangle, as far as it is in the picture."""
        left, right = max(0, box.x), min(self._width, box.x + box.width)
        bits = ((1 << max(0, right - left)) - 1) << left
        for y in range(max(0, box.y), min(len(self._free), box.y + box.height)):
            self._free[y] &= ~bits

    def occupy(self, shape: Shape) -> None:
        """Say that this land is that of a tract, so that the names of others are not beside their land, but in this."""
        for y, row in enumerate(shape.rows, shape.top):
            self._shared[y] |= self._tracts[y] & row
            self._tracts[y] |= row

    def alone(self, shape: Shape) -> Shape:
        """Return the land of a tract that is in no other one, or all of it, if it has none."""
        rows = [row & ~self._shared[y] for y, row in enumerate(shape.rows, shape.top)]
        if rows == shape.rows or not any(rows):
            return shape
        return shape._replace(rows=rows, largest=largest_in(rows, shape.top))

    def find_beside(self, shape: Shape, width: int, height: int) -> Optional[Box]:
        """Return a rectangle of this size that is free of tracts, and touches the largest rectangle of land."""
        box = shape.largest
        top, bottom = max(0, box.y - height), min(len(self._free), box.y + box.height + height)
        left, right = max(0, box.x - width), min(self._width, box.x + box.width + width)
        across = ((1 << (right - left)) - 1) << left
        around = zip(self._free[top:bottom], self._tracts[top:bottom])
        return _fitting([free & across & ~tracts for free, tracts in around], top, box, width, height)

    def find(self, shape: Shape, width: int, height: int) -> Optional[Box]:
        """Return a free rectangle of this size in land, the nearest to the middle of its largest rectangle."""
        if len(shape.rows) < height:
            return None
        rows = [free & land for free, land in zip(self._free[shape.top :], shape.rows)]
        return _fitting(rows, shape.top, shape.largest, width, height)


def _fitting(rows: Picture, top: int, around: Box, width: int, height: int) -> Optional[Box]:
    """Return a rectangle of this size in a picture whose first row is `top` rows down: the nearest to the middle of
    a box."""
    # Beside a tract among others, nothing is free.
    if not any(rows):
        return None
    wanted = (around.x + (around.width - width) / 2, around.y + (around.height - height) / 2)
    best: Optional[Box] = None
    least = float("inf")
    for index in range(len(rows) - height + 1):
        y = top + index
        if abs(y - wanted[1]) >= least:
            continue
        fitting = rows[index]
        for row in rows[index + 1 : index + height]:
            fitting &= row
        length = 1
        while fitting and length < width:
            step = min(length, width - length)
            fitting &= fitting >> step
            length += step
        x = _nearest(fitting, wanted[0])
        if x is not None and abs(y - wanted[1]) + abs(x - wanted[0]) / 4 < least:
            least = abs(y - wanted[1]) + abs(x - wanted[0]) / 4
            best = Box(x, y, width, height)
    return best


def tracts_drawn(
    outlines: Sequence[Outline], picture_of: Pictured, size: int, place: float, taken: Tuple[Box, ...]
) -> Drawn:
    """Return the outlines and names of tracts on a square of `size` places, in which names keep clear of `taken`.

    The groups are in places. A name without room on paper is not displayed, but can be on a screen that enlarges it.
    """
    shown: List[Tract] = []
    left, left_out = _PATHS_MOST, 0
    for outline in outlines:
        if left < 0:
            left_out += any(picture_of(outline.rows))
            continue
        shape = _shape_of(tuple(outline.rows.items()), picture_of)
        if shape is None:
            continue
        left -= len(shape.loops)
        if left < 0:
            left_out += 1
            continue
        shown.append(Tract(outline.name, outline.acres, outline.place, shape))
    return Drawn(list(_groups(tuple(shown), size, place, taken)), left_out)


@functools.lru_cache(maxsize=4)
def _groups(tracts: Tuple[Tract, ...], size: int, place: float, taken: Tuple[Box, ...]) -> Tuple[str, ...]:
    """Return the outlines and the names of tracts.

    While a description is typed, it is refused at most of its keys, and no outline changes from one key to the next.
    """
    if not tracts:
        return ()
    room = Room(size, taken)
    for tract in tracts:
        room.occupy(tract.shape)
    attributes: Dict[str, str] = {"class": "outlines"}
    paths = group(map(_path, tracts), fill="none", stroke="#1d4e89", stroke_width=0.45 / place, **attributes)
    names = group(
        [_name(tract, room, place) for tract in tracts],
        font_size=SIZE / place,
        font_weight="bold",
        font_style="italic",
        text_anchor="middle",
        fill="#1d4e89",
        stroke="#fff",
        stroke_width=0.6 / place,
        stroke_linejoin="round",
        paint_order="stroke",
        **{"class": "halo names"},
    )
    return paths, names


def _path(tract: Tract) -> str:
    # With a thousand tracts, `element` would take as long as all the rest of the drawing.
    acres = "" if tract.acres is None else f' data-acres="{attribute(tract.acres)}"'
    return f'<path d="{tract.shape.loops}" data-tract="{tract.place}" data-name="{attribute(tract.name[:80])}"{acres}/>'


def _name(tract: Tract, room: Room, place: float) -> str:
    """Return the name of a tract, at the free place that is the nearest to its middle."""
    words, shape = shortened(tract.name), tract.shape
    width, height = size_of(words, place)
    alone = room.alone(shape)
    best = alone.largest
    found = room.find(alone, width, height) or room.find_beside(shape, width, height)
    at = found or Box(best.x + (best.width - width) // 2, best.y + (best.height - height) // 2, width, height)
    shown = ' display="none"'
    x = at.x + at.width / 2
    if found is not None:
        room.take(found)
        shown = ""
        # A name beside its land is written away from it, however large its letters are on a screen.
        if at.x + at.width <= shape.largest.x:
            x, shown = at.x + at.width - 0.5, ' text-anchor="end"'
        elif at.x >= shape.largest.x + shape.largest.width:
            x, shown = at.x + 0.5, ' text-anchor="start"'
    place_of = f'x="{number(x)}" y="{number(at.y + at.height / 2)}" dy=".35em"'
    return f'<text {place_of} data-of="{tract.place}"{shown}>{escaped(words)}</text>'


def shortened(name: str) -> str:
    """Return a name as it is drawn: a long one is cut.

    >>> shortened("The heirs of Jeremiah Johnson"), shortened("A")
    ('The heirs of Jere ..', 'A')
    """
    words = " ".join(fit(name).split())
    return words if len(words) <= NAME_MOST else words[: NAME_MOST - 3].rstrip() + " .."


def size_of(words: str, place: float) -> Tuple[int, int]:
    """Return the width and the height that a name takes, in places."""
    return max(1, round(len(words) * _WIDE * SIZE / place + 0.5)), max(1, round(SIZE / place))


def _nearest(bits: int, wanted: float) -> Optional[int]:
    """Return the set bit that is the nearest to a number."""
    if bits == 0:
        return None
    middle = max(0, int(wanted))
    below, above = bits & ((2 << middle) - 1), bits >> (middle + 1)
    candidates = []
    if below:
        candidates.append(below.bit_length() - 1)
    if above:
        candidates.append(middle + (above & -above).bit_length())
    return min(candidates, key=lambda each: abs(each - wanted))
