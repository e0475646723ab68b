"""A list with columns that are not CSV, such as a sheet of a workbook."""
from __future__ import annotations

from typing import Iterator, List, NamedTuple

from .records import Record


class HeadedRows(NamedTuple):
    """A sheet, or a table, whose heading has been read."""

    heading: List[str]
    #: Where the heading is, for messages: the file, and in a workbook the sheet and the row.
    place: str
    records: Iterator[Record]
