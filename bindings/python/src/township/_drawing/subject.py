"""What is drawn: a township, the figures of its plat, shaded land, and tracts."""
from __future__ import annotations

from decimal import Decimal
from typing import TYPE_CHECKING, Mapping, NamedTuple, Optional, Sequence, Tuple

from .._township import Township

if TYPE_CHECKING:
    from .plan import Plan

#: Land: for each section that has any, 32 rows from the south. Bit k of a row is the place in column k from the east.
Rows = Mapping[int, Sequence[int]]


class Figures(NamedTuple):
    """The figures that a drawing shows. An acreage that is not known is `None`, and is left out."""

    #: The acreage of each lot, by section and lot.
    lots: Mapping[Tuple[int, int], Optional[Decimal]]
    #: The acreage of each section, by its number.
    sections: Mapping[int, Optional[Decimal]]
    #: The acreage of the township.
    total: Optional[Decimal]
    #: The last quarter mile of each section line, by line index, in thousandths of a chain; or nothing, if there are no
    #: field notes.
    closing_quarters: Sequence[int]
    #: What the note at the foot says of the figures: what they are based on.
    note: str = ""


class Shade(NamedTuple):
    """Land that is shaded, with what the title block says of it."""

    rows: Rows
    #: What this land is, such as `Land` or `Only in the first description`.
    label: str
    #: The canonical description, without the heading, on one line.
    words: str
    #: The acreage by each account, with the account's name. Empty if there is no plat.
    acres: Tuple[Tuple[str, Decimal], ...] = ()


class Outline(NamedTuple):
    """A tract, which gets an outline and its name."""

    rows: Rows
    name: str
    #: The acreage that is its figure, if there is one.
    acres: Optional[str] = None
    #: Its place in the list of tracts.
    place: int = 0


class Subject(NamedTuple):
    """What a drawing shows."""

    township: Township
    #: The figures of the plat, or `None` if the land is drawn without a plat.
    figures: Optional[Figures] = None
    #: The land that is shaded, each shade with a hatching of its own.
    shades: Sequence[Shade] = ()
    #: The tracts that are outlined.
    outlines: Sequence[Outline] = ()
    #: Where the lots are, and where the plat has no land; or `None` for the standard lots.
    plan: Optional[Plan] = None
