"""Where the lots of a lot table with land are, and where its plat has no land. A drawing without it has standard lots."""
from __future__ import annotations

import functools
from typing import Dict, List, NamedTuple, Optional, Tuple

from .. import _library
from .._lot_map import NO_LAND, rows_by_mark
from .layout import ACROSS, SECTION, TOWNSHIP, Lot, box_of
from .places import Picture, picture_of_section

_SECTIONS = range(1, ACROSS * ACROSS + 1)

#: A row of a section of which there is all.
_WHOLE = (1 << SECTION) - 1


class SectionPlan(NamedTuple):
    """The lots of a section, and the land that is not there, as pictures of the section."""

    lots: Dict[Lot, Picture]
    no_land: Picture

    @property
    def free(self) -> Picture:
        """The land that is in no lot."""
        rows = [_WHOLE] * SECTION
        for picture in (*self.lots.values(), self.no_land):
            rows = [row & ~taken for row, taken in zip(rows, picture)]
        return rows

    @property
    def is_there(self) -> bool:
        """Whether the plat has any land of the section."""
        return any(row != _WHOLE for row in self.no_land)


class Plan:
    """The sections of a plat. Two plans are the same only if they are one object, so that drawings can remember them."""

    def __init__(self, sections: Dict[int, SectionPlan]) -> None:
        self.sections = sections

    def lots(self) -> List[Lot]:
        """Return all lots, by section and number."""
        return [lot for section in self.sections.values() for lot in section.lots]

    def has_no_land(self, section: Optional[int] = None) -> bool:
        """Return whether there is land that the plat does not have: in a section, or anywhere."""
        plans = self.sections.values() if section is None else [self.sections[section]]
        return any(any(plan.no_land) for plan in plans)


def plan_of(parts: _library.Lots) -> Optional[Plan]:
    """Return the plan of a lot table, or `None` if its lots are the standard ones."""
    return _plan_of(bytes(parts)) if parts.mapped else None


@functools.lru_cache(maxsize=16)
def _plan_of(data: bytes) -> Plan:
    parts = _library.Lots.from_buffer_copy(data)
    return Plan({section: _section_plan(parts, section) for section in _SECTIONS})


def _section_plan(parts: _library.Lots, section: int) -> SectionPlan:
    pictures = {number: picture_of_section(rows) for number, rows in sorted(rows_by_mark(parts, section).items())}
    no_land = pictures.pop(NO_LAND, [0] * SECTION)
    return SectionPlan({Lot(section, number): picture for number, picture in pictures.items()}, no_land)


def on_township(section: int, picture: Picture) -> Tuple[int, Picture]:
    """Return the first row of a section in its township, and the picture of the section at its column there."""
    box = box_of(section)
    return box.y, [row << box.x for row in picture]


def free_of_township(plan: Plan) -> Picture:
    """Return the land of a township that is in no lot, as a picture of 192 rows."""
    found = [0] * TOWNSHIP
    for section, each in plan.sections.items():
        top, picture = on_township(section, each.free)
        for y, row in enumerate(picture, top):
            found[y] |= row
    return found
