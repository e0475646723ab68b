"""Transparent shapes over the lines, lots, and sections of a drawing, which the page makes buttons of."""
from __future__ import annotations

import functools
from typing import List, Optional, Tuple

from .frame import Frame
from .layout import ACROSS, LOT, SECTION, Line, box_of, lines, lots_of
from .markup import element, group
from .plan import Plan
from .plan_lines import loops_at
from .subject import Figures, Subject

#: Half the width of the strip along a line, in places.
_STRIP = 1.5


def targets_of(frame: Frame, subject: Subject, section: Optional[int] = None) -> str:
    """Return the shapes over a township, or over a section alone.

    Each has the attribute `data-section`, `data-lot`, or `data-line`, and those of land `data-acres`, if its acreage is
    known. Lots are above their sections, and lines above both.
    """
    if section is None:
        parts = _sections() + (_lots() if subject.plan is None else _lots_on(subject.plan))
    else:
        parts = _section_alone(section, subject.plan)
    shapes = [shape % _acres(subject.figures, named) for shape, named in parts]
    return group(
        [*shapes, *(_lines() if section is None else ())],
        transform=frame.transform(),
        fill="none",
        stroke="none",
        pointer_events="all",
        **{"class": "targets"},
    )


#: A shape, in which `%s` is where its acreage goes, and the section, and the lot, that it is.
Shape = Tuple[str, Tuple[int, Optional[int]]]


def _acres(figures: Optional[Figures], named: Tuple[int, Optional[int]]) -> str:
    """Return the attribute for the acreage of a section or a lot, if it is known."""
    section, lot = named
    if figures is None:
        return ""
    acres = figures.sections[section] if lot is None else figures.lots.get((section, lot))
    return "" if acres is None else f' data-acres="{acres}"'


def _shape(x: int, y: int, size: int, data: str, named: Tuple[int, Optional[int]]) -> Shape:
    return f'<rect x="{x}" y="{y}" width="{size}" height="{size}" {data}%s/>', named


@functools.lru_cache(maxsize=1)
def _sections() -> List[Shape]:
    found = []
    for section in range(1, ACROSS * ACROSS + 1):
        box = box_of(section)
        found.append(_shape(box.x, box.y, SECTION, f'data-section="{section}"', (section, None)))
    return found


@functools.lru_cache(maxsize=1)
def _lots() -> List[Shape]:
    found: List[Shape] = []
    for section in range(1, ACROSS * ACROSS + 1):
        corner = box_of(section)
        found.extend(_lots_at(section, corner.x, corner.y))
    return found


def _lots_at(section: int, x: int, y: int) -> List[Shape]:
    """Return the lots of a section whose northwest corner is at a place."""
    return [
        _shape(x + box.x, y + box.y, LOT, f'data-lot="{section}.{lot.number}"', (section, lot.number))
        for lot, box in lots_of(section)
    ]


@functools.lru_cache(maxsize=16)
def _lots_on(plan: Plan) -> List[Shape]:
    """Return the lots of a plat with lots of its own."""
    found: List[Shape] = []
    for section in range(1, ACROSS * ACROSS + 1):
        corner = box_of(section)
        found.extend(_lots_of_plan(plan, section, corner.x, corner.y))
    return found


def _lots_of_plan(plan: Plan, section: int, x: int, y: int) -> List[Shape]:
    """Return the lots of a section whose northwest corner is at a place, each as the outline of all its land."""
    return [
        (f'<path d="{loops_at(picture, x, y)}" data-lot="{section}.{lot.number}"%s/>', (section, lot.number))
        for lot, picture in plan.sections[section].lots.items()
    ]


def _section_alone(section: int, plan: Optional[Plan]) -> List[Shape]:
    lots = _lots_at(section, 0, 0) if plan is None else _lots_of_plan(plan, section, 0, 0)
    return [_shape(0, 0, SECTION, f'data-section="{section}"', (section, None)), *lots]


@functools.lru_cache(maxsize=1)
def _lines() -> List[str]:
    return [_line(line) for line in lines()]


def _line(line: Line) -> str:
    """Return a strip along a line, which keeps clear of the corners at its ends, and of lots beside it.

    `data-out` says to which side of the line all of the strip is, if the line is on the boundary: the strip is then
    outside the township.
    """
    start, end = 2, SECTION - 2
    row, column = line.y // SECTION, line.x // SECTION
    if line.north:
        outside = -1 if column == 0 else 1 if column == ACROSS else 0
        start = LOT + 1 if row == 0 and not outside else start
    else:
        outside = -1 if row == 0 else 1 if row == ACROSS else 0
        start = LOT + 1 if column == 0 and not outside else start
    across = {-1: -2 * _STRIP, 0: -_STRIP, 1: 0.0}[outside]
    long, wide = end - start, 2 * _STRIP
    x, y = (line.x + across, line.y + start) if line.north else (line.x + start, line.y + across)
    width, height = (wide, long) if line.north else (long, wide)
    return element(
        "rect", x=x * 1.0, y=y * 1.0, width=width * 1.0, height=height * 1.0, data_line=line.index, data_out=outside
    )
