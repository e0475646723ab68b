"""Readings for which no plat is known: those that depend on its lots assume the standard ones."""
from __future__ import annotations

from ctypes import byref
from typing import Optional

from . import _library
from ._parts import Part, parts_of
from ._readings import MANNERS, Reading, Readings
from ._refused import Refused, failure_of
from ._spelling import township_in_heading
from ._text import encoded
from ._township import codes_of

#: The township of a description without a heading. The standard lots are the same in each.
_ANY_TOWNSHIP = (1, _library.NORTH, 1, _library.EAST)


def with_standard_lots(found: Readings) -> Readings:
    """Return readings for which no plat is known. Each says whether it assumes the standard lots."""
    return found.measured(reading_with_standard_lots)


def reading_with_standard_lots(reading: Reading) -> Reading:
    """Return a reading for which no plat is known. It says whether it assumes the standard lots."""
    return reading._replace(assumes_standard_lots=_depends_on_lots(reading))


def _depends_on_lots(reading: Reading) -> bool:
    """Return whether the land of a reading depends on the lots of the plat.

    A canonical description was made with the standard lots. Any other description depends on them if its land includes
    a lot or a whole section.
    """
    if reading.manner != MANNERS[_library.CHANGED]:
        return True
    land = _land_of(encoded(reading.text))
    return land is not None and any(part.lot is not None or _is_section(part) for part in parts_of(land))


def _land_of(given: bytes) -> Optional[_library.Land]:
    """Return the land of a reading in a regular township, or `None` if it is refused there.

    A text that is a description already is its own reading, even if a regular township refuses it.
    """
    land = _library.Land()
    answer = _library.land_read(byref(_designation_of(given)), given, len(given), byref(land))
    if answer.verdict not in (_library.ACCEPTED, _library.REFUSED):
        raise failure_of(answer.verdict)
    return land if answer.verdict == _library.ACCEPTED else None


def _designation_of(given: bytes) -> _library.Designation:
    """Return the township in the heading of a description, or any township if it has no heading."""
    try:
        return _library.Designation(*codes_of(township_in_heading(given)))
    except Refused:
        return _library.Designation(*_ANY_TOWNSHIP)


def _is_section(part: Part) -> bool:
    return part.columns == part.rows == _library.PLACES_ACROSS
