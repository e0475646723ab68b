"""What the records of a list look like."""
from __future__ import annotations

from typing import NamedTuple

#: A field longer than this has lost its closing quotation mark. The longest description that is accepted has
#: 65,536 bytes.
FIELD_MOST = 1 << 20


class Shape(NamedTuple):
    """What the records of a list look like."""

    #: The number of fields of the heading.
    width: int
    #: The index of the column of descriptions.
    column: int
    #: The character between fields.
    separator: str
    #: What says how many fields a record has.
    by: str = "the heading"
