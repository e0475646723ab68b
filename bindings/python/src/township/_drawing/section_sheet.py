"""The sheet of one section."""
from __future__ import annotations

import functools
from typing import Callable, Iterator, Optional, Tuple

from .frame import Frame
from .layout import LOT, SECTION, Box, closing_of, lots_of
from .markup import element, number
from .places import Picture, picture_of_section
from .plan import Plan
from .section_plan import free_squares, lines_in, no_land_in, numbers_in, taken_in
from .sheet import WIDTH, Shading, centered, chains, document, halo, heading, north_arrow, weight_of
from .subject import Figures, Rows, Subject
from .targets import targets_of
from .title_block import grouped, title_block
from .township_plan import NO_LAND_NOTE

#: The side of a place and of the section, in millimeters, and where its northwest corner is.
PLACE = 5.0
SIDE = PLACE * SECTION
LEFT = (WIDTH - SIDE) / 2
TOP = 31.0
_FRAME = Frame(LEFT, TOP, PLACE)

#: The lines that divide a section, from the finest: the places between them, their width, and their dashes.
_DIVISIONS = (
    (1, 0.05, "0.15 0.6"),
    (2, 0.06, "0.6 0.6"),
    (4, 0.08, "2 0.8"),
    (8, 0.15, "none"),
    (16, 0.35, "none"),
)
#: The distance, in millimeters, of the texts along a closing line from it.
_APART = 1.8
#: What a screen shows of the sheet: the section, the figures along it, and the north arrow.
_VIEW = Box(9, 21, 180, 176)
_NOTE = "Along each closing line: its last quarter mile, in chains (20.00 if regular)."


def section_sheet(subject: Subject, section: int, targets: bool) -> str:
    """Return the drawing of a section, with the land in it."""
    shading = Shading(subject, _pictured(section), SECTION, SIDE)
    plan = subject.plan
    tracts = shading.tracts(LEFT, TOP, _taken(section) if plan is None else taken_in(plan, section))
    parts = [
        heading(f"Section {section}", str(subject.township)),
        north_arrow(WIDTH - 6, TOP + 16),
        *([] if plan is None else [no_land_in(plan, section, _FRAME)]),
        *shading.land(LEFT, TOP),
        *_divisions(section, plan),
        _boundary(),
        *tracts.parts,
        *(_lots(subject.figures, section) if plan is None else numbers_in(plan, section, subject.figures, _FRAME)),
        halo(list(_aliquot_names(section, plan)), 0.9, 2.7, "aliquot-names"),
    ]
    total, notes = None, []
    if tracts.left_out:
        notes.append(f"{tracts.left_out} tracts are not outlined.")
    if subject.figures is not None:
        total = subject.figures.sections[section]
        notes.append(subject.figures.note)
        if subject.figures.closing_quarters and _closes(section):
            closing = list(_closing_quarters(subject.figures, section))
            parts.append(halo(closing, 0.5, 3.4, "closing"))
            notes.append(_NOTE)
    if plan is not None and plan.has_no_land(section):
        notes.append(NO_LAND_NOTE)
    parts.append(title_block(subject, shading, (f"Section {section}", total), TOP + SIDE + 6, notes))
    if targets:
        parts.append(targets_of(_FRAME, subject, section))
    name = f"Section {section} of {subject.township}"
    return document(subject, name, _described(subject, section), shading.definitions(), parts, _VIEW)


@functools.lru_cache(maxsize=36)
def _pictured(section: int) -> Callable[[Rows], Picture]:
    """Return the function that returns the picture of land in a section."""
    return lambda rows: picture_of_section(rows.get(section, ()))


def _taken(section: int) -> Tuple[Box, ...]:
    """Return the places that the names and figures of lots and quarter-quarter sections take."""
    lots = {(box.x, box.y) for _, box in lots_of(section)}
    return tuple(
        Box(x + 1, y + 2, LOT - 2, 4) if (x, y) in lots else Box(x + 1, y + 3, LOT - 2, 2)
        for x in range(0, SECTION, LOT)
        for y in range(0, SECTION, LOT)
    )


def _described(subject: Subject, section: int) -> str:
    """Return what the drawing shows, in words."""
    words = [f"Schematic drawing of section {section}, divided down to the smallest parts."]
    words += [f"{shade.label}: {shade.words[:500]}" for shade in subject.shades]
    return " ".join(words)


def _divisions(section: int, plan: Optional[Plan]) -> Iterator[str]:
    """Return the lines between parts of all sizes."""
    if plan is not None:
        return lines_in(plan, section, _DIVISIONS, _FRAME)
    return (_division(*division, section) for division in _DIVISIONS)


def _division(step: int, width: float, dashes: str, section: int) -> str:
    """Return the lines between parts of one size. Lots are not divided."""
    taken = {(box.x, box.y) for _, box in lots_of(section)}
    moves = []
    for each in range(step, SECTION, step):
        if step != SECTION // 2 and each % (2 * step) == 0:
            continue  # A line between larger parts.
        cell = each - each % LOT
        for along in range(0, SECTION, LOT):
            inside = each % LOT != 0
            if not (inside and (cell, along) in taken):
                moves.append(f"M{number(_FRAME.x(each))} {number(_FRAME.y(along))}v{number(PLACE * LOT)}")
            if not (inside and (along, cell) in taken):
                moves.append(f"M{number(_FRAME.x(along))} {number(_FRAME.y(each))}h{number(PLACE * LOT)}")
    return element(
        "path",
        d="".join(moves),
        fill="none",
        stroke="currentColor",
        stroke_width=width,
        stroke_dasharray=dashes,
        **{"class": f"division-{step}"},
    )


def _boundary() -> str:
    """Return the boundary of the section."""
    box = {"x": LEFT, "y": TOP, "width": SIDE, "height": SIDE}
    return element("rect", **box, fill="none", stroke="currentColor", stroke_width=0.8, **{"class": "boundary"})


def _lots(figures: Optional[Figures], section: int) -> Iterator[str]:
    """Yield the lots: their sides, and their numbers and acreage."""
    lots = list(lots_of(section))
    moves = "".join(f"M{number(_FRAME.x(box.x))} {number(_FRAME.y(box.y))}h40v40h-40z" for _, box in lots)
    if lots:
        yield element("path", d=moves, fill="none", stroke="currentColor", stroke_width=0.5, **{"class": "lot-sides"})
    middles = [(lot, _FRAME.x(box.x + LOT / 2), _FRAME.y(box.y + LOT / 2)) for lot, box in lots]
    yield halo([centered(f"Lot {lot.number}", x, y, -0.35) for lot, x, y in middles], 0.9, 5.0, "lot-names")
    if figures is not None:
        known = [(figures.lots[lot.section, lot.number], x, y) for lot, x, y in middles]
        acres = [centered(f"{grouped(each)} acres", x, y, 1.3) for each, x, y in known if each is not None]
        yield halo(acres, 0.9, 3.6, "lot-acres")


def _aliquot_names(section: int, plan: Optional[Plan]) -> Iterator[str]:
    """Yield the name of each quarter-quarter section that is not a lot."""
    for x, y in _regular_squares(section) if plan is None else free_squares(plan, section):
        yield centered(_aliquot_name(x, y), _FRAME.x(x + LOT / 2), _FRAME.y(y + LOT / 2))


def _regular_squares(section: int) -> Iterator[Tuple[int, int]]:
    """Yield the northwest corner of each quarter-quarter section that is not a standard lot."""
    taken = {(box.x, box.y) for _, box in lots_of(section)}
    for x in range(0, SECTION, LOT):
        for y in range(0, SECTION, LOT):
            if (x, y) not in taken:
                yield x, y


def _aliquot_name(x: int, y: int) -> str:
    """Return the name of the quarter-quarter section at a place.

    >>> _aliquot_name(0, 24)
    'SW1/4SW1/4'
    """
    steps = [("S" if y & side else "N") + ("E" if x & side else "W") for side in (LOT, 2 * LOT)]
    return "".join(f"{step}1/4" for step in steps)


def _closes(section: int) -> bool:
    return any(closing_of(section, side) for side in "NESW")


def _closing_quarters(figures: Figures, section: int) -> Iterator[str]:
    """Yield the last quarter mile of each closing line of the section, along it."""
    for side in "NESW":
        line = closing_of(section, side)
        if line is None:
            continue
        quarter = figures.closing_quarters[line.index]
        weight = weight_of(quarter)
        if line.north:
            x = _FRAME.x(SECTION) + 1.9 + _APART if side == "E" else _FRAME.x(0) - _APART
            turn = f"rotate(-90 {number(x)} {number(_FRAME.y(LOT / 2))})"
            yield element("text", chains(quarter), x=x, y=_FRAME.y(LOT / 2), font_weight=weight, transform=turn)
        else:
            y = _FRAME.y(SECTION) + 2.4 + _APART if side == "S" else _FRAME.y(0) - _APART
            yield element("text", chains(quarter), x=_FRAME.x(LOT / 2), y=y, font_weight=weight)
