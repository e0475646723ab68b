"""Differences between the acreage that a plat gives for its lots and the acreage that a lot table returns."""
from __future__ import annotations

from ctypes import byref
from decimal import Decimal
from typing import List, NamedTuple

from . import _library
from ._figures import acres_of_hundredths
from ._lot_list import lots_in
from ._lots import Lots
from ._refused import failure_of
from ._township import township_of


class Difference(NamedTuple):
    """A lot whose computed acreage differs from the one returned on the approved plat."""

    #: The section's number, and the lot's.
    section: int
    lot: int
    #: The acreage on the printed plat, which is computed from the field notes and rounded.
    computed: Decimal
    #: The acreage in the lot table.
    returned: Decimal
    #: The returned acreage less the computed one.
    by: Decimal


def differences_of(plat: _library.Plat, lots: Lots) -> List[Difference]:
    """Return the lots whose acreage differs, in order."""
    if township_of(plat) != lots.township:
        raise failure_of(_library.OTHER_TOWNSHIP, township_of(plat), lots.township)
    if lots.has_land:
        # Field notes make a plat with the standard lots.
        raise failure_of(_library.OTHER_PLAT, lots.township)
    figures = _library.PlatFigures()
    answer = _library.figures(byref(plat), byref(figures))
    if answer.verdict != _library.ACCEPTED:
        raise failure_of(answer.verdict)
    differences = []
    for (section, lot), returned in lots_in(lots._parts):
        computed = figures.lots[section - 1][lot - 1]
        # 0 is the figure of a lot that the table lacks.
        if returned not in (0, computed):
            acres = map(acres_of_hundredths, (computed, returned, returned - computed))
            differences.append(Difference(section, lot, *acres))
    return differences
