"""The lots of a plat with lots of its own, on the sheet of a township."""
from __future__ import annotations

import functools
from typing import Dict, List, Optional, Tuple

from .frame import Frame
from .layout import LOT, SECTION, TOWNSHIP, Box, Lot, box_of
from .markup import element
from .plan import Plan, free_of_township
from .plan_labels import Label, boxes_taken, further_labels, lot_labels, no_land_labels
from .plan_lines import between, loops_at, lot_sides
from .sheet import NARROW, SMALLEST, centered, halo
from .subject import Figures
from .title_block import grouped

#: What a note says of land that is not there.
NO_LAND_NOTE = "Where it is gray, the plat has no land."

#: The lines between parts of a section, by the class of the group: the first one, and the distance between them.
_LINES = (("sixteenths", 8, 16), ("finer", 4, 8), ("finest", 2, 4))

#: The number and the figure of a section, in its middle.
_SECTION_LABEL = Box(SECTION // 2 - 6, SECTION // 2 - 3, 12, 10)

#: The columns and rows of a lot's number with its acreage below, and of the number alone; and of the words on land that
#: is not there, on one line and on two.
_SIZES = ((LOT, 5), (3, 3))
_NO_LAND_SIZES = ((10, 3), (6, 6))
_NO_LAND = (("No land",), ("No", "land"))


@functools.lru_cache(maxsize=16)
def taken_on(plan: Plan) -> Tuple[Box, ...]:
    """Return the places that the numbers and figures of sections and lots take."""
    found: List[Box] = []
    for section, labels in _labels_on(plan).items():
        corner = box_of(section)
        inside = [_SECTION_LABEL, *boxes_taken([label for _, label in labels], _SIZES)]
        found += [box._replace(x=corner.x + box.x, y=corner.y + box.y) for box in inside]
    return tuple(found)


@functools.lru_cache(maxsize=16)
def lines_on(plan: Plan, frame: Frame) -> str:
    """Return the lines of the township, except for those between sections and around it."""
    free = free_of_township(plan)
    parts = []
    for kind, first, apart in _LINES:
        moves = between(free, range(first, TOWNSHIP, apart))
        parts.append(frame.path(moves, 0.1, kind, display="none"))
    quarters = between(free, range(SECTION // 2, TOWNSHIP, SECTION))
    parts.append(frame.path(quarters, 0.12, "quarters", stroke_dasharray="1.6 1.2"))
    sides = "".join(lot_sides(each, *box_of(section)[:2]) for section, each in plan.sections.items())
    parts.append(frame.path(sides, 0.15, "lot-sides"))
    return "\n".join(parts)


@functools.lru_cache(maxsize=16)
def no_land_on(plan: Plan, frame: Frame) -> str:
    """Return the land that is not there, as it is filled, or nothing if there is none."""
    corners = {section: box_of(section) for section in plan.sections}
    loops = "".join(loops_at(each.no_land, *corners[section][:2]) for section, each in plan.sections.items())
    return filled(loops, frame)


def filled(loops: str, frame: Frame) -> str:
    """Return land that is not there, as it is filled."""
    if not loops:
        return ""
    shape = element("path", d=loops, transform=frame.transform(), fill="currentColor", fill_opacity=0.2)
    return element("g", shape, **{"class": "no-land-there"})


def numbers_on(plan: Plan, figures: Optional[Figures], above: float, apart: float, frame: Frame) -> Tuple[str, str]:
    """Return the number of each lot, so many lines above its middle, and its acreage, so many lines below that.

    A lot without room for its acreage has its number alone. The number of one without room for that is not displayed,
    but is on a screen that enlarges the drawing.
    """
    known_acres = {} if figures is None else figures.lots
    numbers: List[str] = []
    acres: List[str] = []
    for section, labels in _labels_on(plan).items():
        corner = box_of(section)
        for lot, label in further_labels(plan.sections[section], labels, (_SECTION_LABEL,), _SIZES[1:]):
            x, y = frame.x(corner.x + label.x), frame.y(corner.y + label.y)
            numbers.append(centered(str(lot.number), x, y, **_shown(label)))
        for lot, label in labels:
            x, y = frame.x(corner.x + label.x), frame.y(corner.y + label.y)
            known = known_acres.get((lot.section, lot.number))
            below = 0.0 if known is None or label.size else -above
            numbers.append(centered(str(lot.number), x, y, below, **_shown(label, label.size < len(_SIZES))))
            if known is not None and label.size == 0:
                acres.append(centered(grouped(known), x, y, apart - above, LOT * frame.place - 0.6, **_shown(label)))
    words = ((numbers, "lot-numbers"), (acres, "lot-acres"))
    first, second = (halo(each, 0.5, SMALLEST, kind, font_family=NARROW) for each, kind in words)
    return first, second


@functools.lru_cache(maxsize=16)
def no_land_words(plan: Plan, frame: Frame) -> str:
    """Return the words on land that is not there, where there is room for them."""
    words: List[str] = []
    for section, each in plan.sections.items():
        corner = box_of(section)
        for label in no_land_labels(each, (_SECTION_LABEL,), _NO_LAND_SIZES):
            x, y = frame.x(corner.x + label.x), frame.y(corner.y + label.y)
            lines = _NO_LAND[label.size]
            first = (1 - len(lines)) / 2
            words += [centered(line, x, y, first + place, **_shown(label)) for place, line in enumerate(lines)]
    return halo(words, 0.5, SMALLEST, "lot-numbers", font_style="italic")


def small_lots(plan: Plan) -> int:
    """Return the number of lots whose acreage the sheet does not show."""
    return sum(label.size > 0 for labels in _labels_on(plan).values() for _, label in labels)


@functools.lru_cache(maxsize=16)
def _labels_on(plan: Plan) -> Dict[int, List[Tuple[Lot, Label]]]:
    """Return where the labels of the lots of each section are in it."""
    return {section: list(lot_labels(each, (_SECTION_LABEL,), _SIZES)) for section, each in plan.sections.items()}


def _shown(label: Label, is_shown: bool = True) -> Dict[str, str]:
    """Return the attributes of the text of a label."""
    return {"data_room": label.room} if is_shown else {"data_room": label.room, "display": "none"}
