"""Acreage in the United States rectangular survey.

A township's field notes make a plat. For a legal description by lots and aliquot parts, the plat gives the
exact acreage of the land, rounded once, or the numbered refusal of the first error, with its location.

>>> import township
>>> plat = township.Plat.open("samples/b1.csv")
>>> plat.acres("sec. 5, lots 1 and 2, S1/2NE1/4.")
Decimal('161.00')
>>> try:
...     plat.acres("sec. 5, N1/2.")
... except township.Refused as refused:
...     print(refused.number, refused.at, refused)
66 8 description:1:9: this part includes lots; name the lots instead
"""
from __future__ import annotations

from . import _library
from ._account import Account
from ._differences import Difference
from ._explanation import OtherPlace
from ._field_notes import Notes
from ._figures import Section
from ._ignored import Phrases
from ._land import Land
from ._lands import Lands
from ._lots import Lots
from ._lots_places import PlatLot
from ._many import Answers
from ._note import Note
from ._part_readings import PartReadings, suggest_parts
from ._parts import Part
from ._plat import Plat
from ._plats import LocatedTract, MissingPlat, Plats, PlatsReport
from ._readings import Change, Reading, Readings, Unread
from ._refused import Refusal, Refused, failure_of
from ._report import LotsOverlap, LotsReport, Overlap, Report, Tract, TractAnswer
from ._rounding import rounded
from ._split import TownshipText, split
from ._suggested import suggest
from ._township import EastWest, NorthSouth, Township
from ._version import __version__
from ._written import text_by

__all__ = [
    "Account",
    "Answers",
    "Change",
    "Difference",
    "EastWest",
    "Land",
    "Lands",
    "LocatedTract",
    "Lots",
    "LotsOverlap",
    "LotsReport",
    "MissingPlat",
    "NorthSouth",
    "Note",
    "Notes",
    "OtherPlace",
    "Overlap",
    "Part",
    "PartReadings",
    "Phrases",
    "Plat",
    "PlatLot",
    "Plats",
    "PlatsReport",
    "Reading",
    "Readings",
    "Refusal",
    "Refused",
    "Report",
    "Section",
    "Township",
    "TownshipText",
    "Tract",
    "TractAnswer",
    "Unread",
    "__version__",
    "rounded",
    "split",
    "suggest",
    "suggest_parts",
    "version",
]

for _public in (
    *(Answers, Change, Difference, Land, Lands, LocatedTract, Lots, LotsOverlap, LotsReport, MissingPlat, Note, Notes),
    *(OtherPlace, Overlap, Part, PartReadings, Phrases, Plat, PlatLot, Plats, PlatsReport, Reading, Readings, Refusal),
    *(Refused, Report, Section, Township, TownshipText, Tract, TractAnswer, Unread),
):
    # Tracebacks and pickles name each class as users import it.
    _public.__module__ = __name__
del _public


def version() -> str:
    """Return the version of the library, such as `1.0.0`. `__version__` is that of the package.

    >>> township.version().count(".")
    2
    """
    answer, text = text_by(_library.version)
    if answer.verdict != _library.ACCEPTED:
        raise failure_of(answer.verdict)
    return text
