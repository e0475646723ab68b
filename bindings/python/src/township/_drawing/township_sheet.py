"""The sheet of a township."""
from __future__ import annotations

import functools
from typing import Iterator, List, Optional, Tuple

from .frame import Frame
from .layout import ACROSS, LOT, SECTION, TOWNSHIP, Box, Line, box_of, lines, lots_of
from .markup import element
from .places import picture_of_township
from .plan import Plan
from .sheet import (
    NARROW,
    SMALLEST,
    WIDTH,
    Shading,
    centered,
    chains,
    document,
    halo,
    heading,
    north_arrow,
    weight_of,
)
from .subject import Figures, Subject
from .targets import targets_of
from .title_block import grouped, title_block
from .township_plan import NO_LAND_NOTE, lines_on, no_land_on, no_land_words, numbers_on, small_lots, taken_on

#: The side of a place and of the township, in millimeters, and where its northwest corner is.
PLACE = 0.86
SIDE = PLACE * TOWNSHIP
LEFT = (WIDTH - SIDE) / 2
TOP = 27.0
_FRAME = Frame(LEFT, TOP, PLACE)

#: What a screen shows of the sheet: the township, the figures along it, and the north arrow.
_VIEW = Box(1, 21, 184, 173)

_SECTIONS = range(1, ACROSS * ACROSS + 1)
_NOTE = "At the end of each closing line: its last quarter mile, in chains (20.00 if regular)."

#: Lines between a lot's number and its acreage, which are above its middle if a tract's name can be below.
_APART = 1.0


def township_sheet(subject: Subject, targets: bool) -> str:
    """Return the drawing of a township, with its land."""
    shading = Shading(subject, picture_of_township, TOWNSHIP, SIDE)
    plan = subject.plan
    tracts = shading.tracts(LEFT, TOP, _taken() if plan is None else taken_on(plan))
    parts = [
        heading(_long_name(subject), "Plat of the township, by sections and lots"),
        north_arrow(WIDTH - 7.5, TOP + 20),
        *([] if plan is None else [no_land_on(plan, _FRAME)]),
        *shading.land(LEFT, TOP),
        _lines() if plan is None else lines_on(plan, _FRAME) + "\n" + _section_lines(),
        *tracts.parts[:1],
        *_numbers(subject),
    ]
    total, notes = None, []
    if tracts.left_out:
        notes.append(f"{tracts.left_out} tracts are not outlined.")
    if subject.figures is not None:
        total = subject.figures.total
        notes.append(subject.figures.note)
        if subject.figures.closing_quarters:
            closing = list(_closing_quarters(subject.figures))
            parts.append(halo(closing, 0.5, 2.5, "closing"))
            notes.append(_NOTE)
    notes += _notes_on(subject)
    parts.append(title_block(subject, shading, ("Township", total), TOP + SIDE + 5, notes))
    if targets:
        parts.append(targets_of(_FRAME, subject))
    name = f"Plat of {subject.township}"
    return document(subject, name, _described(subject), shading.definitions(), parts, _VIEW)


def _notes_on(subject: Subject) -> List[str]:
    """Return the notes on the lots of a plat with lots of its own, and on land that is not there."""
    plan, notes = subject.plan, []
    if plan is not None and plan.has_no_land():
        notes.append(NO_LAND_NOTE)
    if plan is not None and subject.figures is not None and small_lots(plan):
        notes.append("The acreage of small lots is on the sheets of their sections.")
    return notes


@functools.lru_cache(maxsize=1)
def _taken() -> Tuple[Box, ...]:
    """Return the places that the numbers and figures of sections and lots take."""
    found = []
    for section in _SECTIONS:
        corner = box_of(section)
        middle = SECTION // 2
        found.append(Box(corner.x + middle - 5, corner.y + middle - 3, 10, 10))
        for _, lot in lots_of(section):
            found.append(Box(corner.x + lot.x, corner.y + lot.y, LOT, 5))
    return tuple(found)


def _long_name(subject: Subject) -> str:
    """Return the designation in words, as plats have it."""
    number_, north_south, range_, east_west = subject.township
    sides = {"N": "North", "S": "South", "E": "East", "W": "West"}
    return f"Township {number_} {sides[north_south]}, Range {range_} {sides[east_west]}"


def _described(subject: Subject) -> str:
    """Return what the drawing shows, in words."""
    lots = "with the lots along the north and west boundaries" if subject.plan is None else "with the lots of the plat"
    words = [f"Schematic drawing of 36 sections, {lots}."]
    for shade in subject.shades:
        figures = ", ".join(f"{grouped(acres)} ({account})" for account, acres in shade.acres)
        words.append(f"{shade.label}: {shade.words[:500]} {figures}".strip())
    return " ".join(words)


@functools.lru_cache(maxsize=1)
def _lines() -> str:
    """Return the lines that every drawing of a township has."""
    return "\n".join([*_finer_lines(), _quarter_lines(), _lot_lines(), _section_lines()])


def _finer_lines() -> Iterator[str]:
    """Yield the lines between quarter-quarter sections, and those that divide these in turn.

    They are displayed only where a screen enlarges the drawing.
    """
    for step, kind in ((8, "sixteenths"), (4, "finer"), (2, "finest")):
        moves = "".join(f"M0 {each}H{TOWNSHIP}M{each} 0V{TOWNSHIP}" for each in range(step, TOWNSHIP, 2 * step))
        yield _FRAME.path(moves, 0.1, kind, display="none")


def _quarter_lines() -> str:
    """Return the lines that divide each section into quarters."""
    middles = range(SECTION // 2, TOWNSHIP, SECTION)
    moves = "".join(f"M0 {each}H{TOWNSHIP}M{each} 0V{TOWNSHIP}" for each in middles)
    return _FRAME.path(moves, 0.12, "quarters", stroke_dasharray="1.6 1.2")


def _lot_lines() -> str:
    """Return the sides of the lots that are not section lines: those inside their sections."""
    moves = []
    for section in _SECTIONS:
        corner = box_of(section)
        for _, lot in lots_of(section):
            x, y = corner.x + lot.x, corner.y + lot.y
            moves.append(f"M{x} {y + LOT}h{LOT}v-{LOT}")
    return _FRAME.path("".join(moves), 0.15, "lot-sides")


def _section_lines() -> str:
    """Return the section lines, and the boundary of the township."""
    inner = range(SECTION, TOWNSHIP, SECTION)
    moves = "".join(f"M0 {each}H{TOWNSHIP}M{each} 0V{TOWNSHIP}" for each in inner)
    boundary = f"M0 0H{TOWNSHIP}V{TOWNSHIP}H0Z"
    return _FRAME.path(moves, 0.3, "section-lines") + "\n" + _FRAME.path(boundary, 0.8, "boundary")


def _numbers(subject: Subject) -> Iterator[str]:
    """Yield the number and the acreage of each section and of each lot."""
    yield _section_numbers()
    figures, plan = subject.figures, subject.plan
    if figures is None:
        yield _lot_numbers(0.0) if plan is None else "\n".join(_lots_on(plan, None, 0.0))
        return
    # Below them, there is room for the name of a tract.
    above = _APART if subject.outlines else _APART / 2
    numbers, acres = _lots(figures, above) if plan is None else _lots_on(plan, figures, above)
    yield numbers
    sections = [
        centered(grouped(each), *_middle_of(section), 2.0)
        for section, each in figures.sections.items()
        if each is not None
    ]
    yield halo(sections, 0.9, SMALLEST, "section-acres", font_style="italic")
    yield acres


def _lots(figures: Figures, above: float) -> Tuple[str, str]:
    """Return the numbers of the standard lots, so many lines above their middle, and their acreage."""
    acres = [
        centered(grouped(each), *_middle_of(section, lot), _APART - above, LOT * PLACE - 0.6)
        for (section, lot), each in figures.lots.items()
        if each is not None
    ]
    return _lot_numbers(above), halo(acres, 0.5, SMALLEST, "lot-acres", font_family=NARROW)


def _lots_on(plan: Plan, figures: Optional[Figures], above: float) -> Tuple[str, str]:
    """Return the same for a plat with lots of its own, and the words on land that is not there."""
    numbers, acres = numbers_on(plan, figures, above, _APART, _FRAME)
    return numbers, "\n".join(filter(None, [acres, no_land_words(plan, _FRAME)]))


@functools.lru_cache(maxsize=1)
def _section_numbers() -> str:
    return halo([centered(str(section), *_middle_of(section)) for section in _SECTIONS], 0.9, 5.4, "section-numbers")


@functools.lru_cache(maxsize=3)
def _lot_numbers(above: float) -> str:
    """Return the numbers of all lots, so many lines above their middle."""
    numbers = [
        centered(str(lot.number), *_middle_of(section, lot.number), -above)
        for section in _SECTIONS
        for lot, _ in lots_of(section)
    ]
    return halo(numbers, 0.5, SMALLEST, "lot-numbers", font_family=NARROW)


@functools.lru_cache(maxsize=128)
def _middle_of(section: int, lot: int = 0) -> Tuple[float, float]:
    """Return the middle of a section, or of one of its lots, on the sheet."""
    corner = box_of(section)
    for each, box in lots_of(section):
        if each.number == lot:
            return _FRAME.x(corner.x + box.x + LOT / 2), _FRAME.y(corner.y + box.y + LOT / 2)
    return _FRAME.x(corner.x + SECTION / 2), _FRAME.y(corner.y + SECTION / 2)


def _closing_quarters(figures: Figures) -> Iterator[str]:
    """Yield the last quarter mile of each closing line, at its end outside the township."""
    for line in lines():
        if line.closes:
            yield _closing_quarter(line, figures.closing_quarters[line.index])


@functools.lru_cache(maxsize=1024)
def _closing_quarter(line: Line, quarter: int) -> str:
    if line.north:
        x, y, anchor = _FRAME.x(line.x), _FRAME.y(0) - 1.8, "middle"
    else:
        x, y, anchor = _FRAME.x(0) - 1.8, _FRAME.y(line.y) + 0.9, "end"
    return element("text", chains(quarter), x=x, y=y, text_anchor=anchor, font_weight=weight_of(quarter))
