"""Hatching, which shades land so that it is legible in black and white, with a pale color for screens.

Land in small pieces gets a finer hatching and a thinner outline, so that it is never a black dot, and a ring around
each of a few such pieces, so that they are found.
"""
from __future__ import annotations

from typing import Iterator, List, NamedTuple, Sequence

from .layout import TOWNSHIP, Box
from .markup import element, group, number
from .pieces import pieces_of
from .places import OUTLINED_MOST, Picture, boxes_of, outline_of, picture_of_boxes, strokes_of

#: The distance between the lines of a hatching, in millimeters.
_SPACING = 1.6

#: How much finer the hatching of small pieces is, and how much heavier its lines are then.
_FINER = 0.25
_HEAVIER = 1.8

#: A piece is small if no rectangle in it is wider and higher than this, in millimeters.
_SMALL = 3.0

#: The most small pieces that get a ring, and its radius, in millimeters.
_RINGS_MOST = 12
_RING = 2.4


class Hatching(NamedTuple):
    """A hatching: the path of a tile's lines, and the color of the ground."""

    path: str
    color: str


#: The hatchings, in the order in which they are used. Land beyond the last one begins with the first again.
HATCHINGS = (
    Hatching("M-.4.4 .4-.4M-.4 2 2-.4M1.2 2 2 1.2", "#b58900"),
    Hatching("M-.4 1.2 .4 2M-.4-.4 2 2M1.2-.4 2 .4", "#268bd2"),
    Hatching("M-.4.4 .4-.4M-.4 2 2-.4M1.2 2 2 1.2M-.4 1.2 .4 2M-.4-.4 2 2M1.2-.4 2 .4", "#2aa198"),
    Hatching("M0 .8H1.6", "#dc322f"),
    Hatching("M.8 0V1.6", "#6c71c4"),
    Hatching("M0 .8H1.6M.8 0V1.6", "#859900"),
)


class Pieces(NamedTuple):
    """The rectangles of land, by whether the piece to which they belong is small."""

    large: List[Box]
    small: List[List[Box]]


def hatching_at(index: int) -> int:
    """Return which hatching the shade at an index gets."""
    return index % len(HATCHINGS)


def pattern(index: int, name: str, place: float, is_fine: bool = False) -> str:
    """Return the definition of a hatching, for land whose places have sides of `place` millimeters."""
    hatching = HATCHINGS[index]
    width, scale = (0.17 * _HEAVIER, _FINER) if is_fine else (0.17, 1.0)
    ground = element("rect", width=_SPACING, height=_SPACING, fill=hatching.color, fill_opacity=0.2)
    lines = element("path", d=hatching.path, fill="none", stroke="currentColor", stroke_width=width)
    return element(
        "pattern",
        ground,
        lines,
        id=name,
        width=_SPACING,
        height=_SPACING,
        patternUnits="userSpaceOnUse",
        patternTransform=f"scale({number(scale / place)})",
    )


def pieces_by_size(picture: Picture, place: float) -> Pieces:
    """Return the land of a picture, by the size of its pieces."""
    boxes = boxes_of(picture)
    if len(boxes) > OUTLINED_MOST:
        # So many rectangles are small ones.
        return Pieces([], [boxes])
    large: List[Box] = []
    small: List[List[Box]] = []
    for piece in pieces_of(boxes):
        if any(min(box.width, box.height) * place > _SMALL for box in piece):
            large.extend(piece)
        else:
            small.append(piece)
    return Pieces(large, small)


def shaded(picture: Picture, pieces: Pieces, width: int, name: str, place: float) -> str:
    """Return the land of a picture, shaded by the hatching with this name, and that of its small pieces."""
    parts = list(_strokes(pieces.large))
    outlined = len(pieces.large) + sum(map(len, pieces.small)) <= OUTLINED_MOST
    if pieces.large and outlined:
        line = (0.5 if width == TOWNSHIP else 0.9) / place
        of_large = picture_of_boxes(pieces.large, width) if pieces.small else picture
        parts.append(_outline(of_large, width, line, "outline"))
    small = [box for piece in pieces.small for box in piece]
    fine = list(_strokes(small))
    if small and outlined:
        fine.append(_outline(picture_of_boxes(small, width), width, 0.1 / place, "outline fine"))
    if len(pieces.small) <= _RINGS_MOST:
        fine.extend(_ring(piece, place) for piece in pieces.small)
    return "\n".join(
        filter(
            None,
            [
                group(parts, fill="none", stroke=f"url(#{name})"),
                group(fine, fill="none", stroke=f"url(#{name}-fine)"),
            ],
        )
    )


def _strokes(boxes: Sequence[Box]) -> Iterator[str]:
    for height, path in strokes_of(boxes):
        yield element("path", d=path, stroke_width=height * 1.0)


def _outline(picture: Picture, width: int, line: float, kind: str) -> str:
    return element(
        "path",
        d=outline_of(picture, width),
        stroke="currentColor",
        stroke_width=line,
        stroke_linecap="square",
        **{"class": kind},
    )


def _ring(piece: Sequence[Box], place: float) -> str:
    """Return a ring around a small piece."""
    left, top = min(box.x for box in piece), min(box.y for box in piece)
    right, bottom = max(box.x + box.width for box in piece), max(box.y + box.height for box in piece)
    radius = max(right - left, bottom - top) * 0.71 + _RING / place / 2
    return element(
        "circle",
        cx=(left + right) / 2,
        cy=(top + bottom) / 2,
        r=radius,
        stroke="currentColor",
        stroke_width=0.2 / place,
        **{"class": "ring"},
    )
