"""Drawings in answers."""
from __future__ import annotations

from decimal import Decimal
from typing import Optional, Sequence, Tuple

from .._drawing import Outline, Shade, Subject, svg_of
from .._drawing.of_plat import TABLE, shade_of, shown_on, subject_of
from .._land import Land
from .._plat import Plat
from .basis import BY_LOTS, Basis
from .given import Given
from .refusals import Json
from .sectionlines import designation_in

#: The fields of a request that ask for a drawing.
FIELDS = frozenset({"draw", "section", "targets"})


def drawing(
    given: Given, basis: Basis, lands: Sequence[Tuple[str, Land]] = (), outlines: Sequence[Outline] = ()
) -> Json:
    """Return the drawing of lands with their labels, and of tracts with their names, if the request asks for it."""
    section = given.section()
    targets = given.flag("targets")
    if not given.flag("draw"):
        return {}
    shades = [_shade_of(basis, label, land, section) for label, land in lands]
    subject = subject_of(basis.plat, *shades, lots=basis.lots, is_measured=basis.is_measured)
    return {"svg": svg_of(subject._replace(outlines=outlines), section, targets)}


def without_figures(given: Given, notes: str) -> Json:
    """Return the drawing of a township whose field notes are refused, if they say which it is: it has no figures."""
    section, targets, wants = given.section(), given.flag("targets"), given.flag("draw")
    designation = designation_in(notes)
    if not wants or designation is None:
        return {}
    return {"svg": svg_of(Subject(designation), section, targets)}


def _shade_of(basis: Basis, label: str, land: Land, section: Optional[int]) -> Shade:
    """Return the shade of land. Its acreage by the lot table comes first, if there is one that has its lots."""
    shade = shade_of(basis.reads, land, label, section)
    if not isinstance(basis.reads, Plat):
        return shade
    acres = shade.acres if basis.is_measured else ()
    by_lots = basis.acres(shown_on(land, section)).get(BY_LOTS)
    return shade._replace(acres=acres if by_lots is None else ((TABLE, Decimal(by_lots)), *acres))
