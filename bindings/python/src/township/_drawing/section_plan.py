"""The lots of a plat with lots of its own, on the sheet of a section."""
from __future__ import annotations

import functools
from decimal import Decimal
from typing import Dict, Iterator, List, Mapping, NamedTuple, Optional, Sequence, Tuple

from .frame import Frame
from .layout import LOT, SECTION, Box, Lot
from .markup import number
from .pieces import loops_of
from .plan import Plan
from .plan_labels import Label, Size, boxes_taken, further_labels, lot_labels, no_land_labels
from .plan_lines import between, lot_sides
from .sheet import NARROW, SMALLEST, centered, halo
from .subject import Figures
from .title_block import grouped
from .township_plan import filled

class _Style(NamedTuple):
    """How the number and the acreage of a lot are written: by the room that they have."""

    #: The columns and rows that they take.
    size: Size
    name: str
    acres: str
    #: The sizes of the two, in millimeters, and how far the lines are from the middle.
    name_size: float
    acres_size: float
    above: float
    below: float
    is_narrow: bool = False


#: The styles, from the largest. In a single column, figures are squeezed.
_STYLES = (
    _Style((6, 3), "Lot {}", "{} acres", 5.0, 3.6, 0.35, 1.3),
    _Style((3, 2), "Lot {}", "{}", 3.3, 3.0, 0.5, 0.7),
    _Style((2, 1), "{}", "{}", SMALLEST, SMALLEST, 0.5, 0.55, is_narrow=True),
    _Style((1, 1), "{}", "{}", SMALLEST, SMALLEST, 0.5, 0.55, is_narrow=True),
)
_SIZES = tuple(style.size for style in _STYLES)

#: The first style in which the number of a lot is written again, in another piece of it.
_AGAIN = 1

#: The words on land that is not there, with their size, and the columns and rows that they take.
_NO_LAND = (("No land", 5.0), ("No land", 2.7), ("None", SMALLEST))
_NO_LAND_SIZES = ((6, 2), (3, 1), (1, 1))

#: How wide a figure in a column of its own is, in places.
_SQUEEZED = 0.88


def taken_in(plan: Plan, section: int) -> Tuple[Box, ...]:
    """Return the places that the names and figures of lots and quarter-quarter sections take."""
    lots = boxes_taken([label for _, label in _labels_in(plan, section)], _SIZES)
    return (*lots, *(Box(x + 1, y + 3, LOT - 2, 2) for x, y in free_squares(plan, section)))


def free_squares(plan: Plan, section: int) -> Iterator[Tuple[int, int]]:
    """Yield the northwest corner of each quarter-quarter section of which no part is in a lot, or is not there."""
    free = plan.sections[section].free
    for x in range(0, SECTION, LOT):
        bits = ((1 << LOT) - 1) << x
        for y in range(0, SECTION, LOT):
            if all(row & bits == bits for row in free[y : y + LOT]):
                yield x, y


def lines_in(plan: Plan, section: int, divisions: Sequence[Tuple[int, float, str]], frame: Frame) -> Iterator[str]:
    """Yield the lines between the parts of each size, of which none is in a lot (see `section_sheet`), and the sides of
    lots. Tracts are drawn over them."""
    free = plan.sections[section].free
    for step, width, dashes in divisions:
        # Other lines are between larger parts.
        lines = range(step, SECTION, step if step == SECTION // 2 else 2 * step)
        moves = between(free, lines)
        yield frame.path(moves, width, f"division-{step}", stroke_dasharray=_in_places(dashes, frame))
    yield frame.path(lot_sides(plan.sections[section]), 0.5, "lot-sides")


def _in_places(dashes: str, frame: Frame) -> str:
    """Return the lengths of dashes in places."""
    return dashes if dashes == "none" else " ".join(f"{float(each) / frame.place:.3g}" for each in dashes.split())


def no_land_in(plan: Plan, section: int, frame: Frame) -> str:
    """Return the land that is not there, as it is filled, or nothing if there is none."""
    return filled(loops_of(plan.sections[section].no_land), frame)


def numbers_in(plan: Plan, section: int, figures: Optional[Figures], frame: Frame) -> Iterator[str]:
    """Yield the numbers and the acreage of lots, and the words on land that is not there."""
    acres = {} if figures is None else figures.lots
    for index, style in enumerate(_STYLES):
        labels = [each for each in _labels_in(plan, section) if each[1].size == index]
        yield from _written(labels, style, acres, frame)
        again = [each for each in _further_labels_in(plan, section) if each[1].size == index - _AGAIN]
        yield from _written(again, style, {}, frame)
    yield from _no_land_words(plan, section, frame)


def _written(
    labels: Sequence[Tuple[Lot, Label]], style: _Style, acres: Mapping[Tuple[int, int], Optional[Decimal]], frame: Frame
) -> Iterator[str]:
    """Yield the numbers and the acreage of lots in one style."""
    names: List[str] = []
    figures: List[str] = []
    for lot, label in labels:
        x, y = frame.x(label.x), frame.y(label.y)
        known = acres.get((lot.section, lot.number))
        above = 0.0 if known is None else style.above
        names.append(centered(style.name.format(lot.number), x, y, -above, data_room=label.room))
        if known is not None:
            squeezed = _squeezed(frame) if style.size[0] == 1 else {}
            words = style.acres.format(grouped(known))
            figures.append(centered(words, x, y, style.below, data_room=label.room, **squeezed))
    rim, font = (0.5, {"font_family": NARROW}) if style.is_narrow else (0.9, {})
    yield halo(names, rim, style.name_size, "lot-names", **font, **({"font_weight": "bold"} if font else {}))
    yield halo(figures, rim, style.acres_size, "lot-acres", **font)


def _squeezed(frame: Frame) -> Dict[str, str]:
    """Return the attributes of a figure that is squeezed into one column."""
    return {"textLength": number(_SQUEEZED * frame.place), "lengthAdjust": "spacingAndGlyphs"}


def _no_land_words(plan: Plan, section: int, frame: Frame) -> Iterator[str]:
    """Yield the words on land that is not there."""
    labels = list(no_land_labels(plan.sections[section], (), _NO_LAND_SIZES))
    for index, (words, size) in enumerate(_NO_LAND):
        shown = [
            centered(words, frame.x(label.x), frame.y(label.y), data_room=label.room)
            for label in labels
            if label.size == index
        ]
        yield halo(shown, 0.9, size, "lot-names", font_style="italic")


@functools.lru_cache(maxsize=64)
def _labels_in(plan: Plan, section: int) -> Tuple[Tuple[Lot, Label], ...]:
    """Return where the labels of the lots of a section are."""
    return tuple(lot_labels(plan.sections[section], (), _SIZES))


@functools.lru_cache(maxsize=64)
def _further_labels_in(plan: Plan, section: int) -> Tuple[Tuple[Lot, Label], ...]:
    """Return where the numbers of lots in several pieces are written again. The first size is that of the style
    `_AGAIN`."""
    return tuple(further_labels(plan.sections[section], _labels_in(plan, section), (), _SIZES[_AGAIN:]))
