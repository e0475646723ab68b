"""The tracts of a list as it was written: CSV, or cells pasted from a spreadsheet, read as `batch` reads lists."""
from __future__ import annotations

import csv
import io
from typing import Iterator, List, NamedTuple, Optional, Tuple

from .._batch.chunks import Chunks
from .._batch.columns import index_in
from .._batch.decoding import MARK
from .._batch.lines import Lines
from .._batch.records import Record, Records
from .._batch.separators import headed
from .._batch.shape import Shape
from .._readings import Reading, readings_of
from .._text import encoded
from .fieldplaces import FieldPlaces, Place

#: The columns that are used. A list without a heading has both of them, in this order, or descriptions alone.
_NAME, _DESCRIPTION = "name", "description"


class Listed(NamedTuple):
    """A tract of a list."""

    name: str
    description: str
    #: The line on which its record begins, counted from 1. `None` if the request gives records.
    line: Optional[int] = None
    #: What is wrong with the record itself, so that its description is not read; or nothing.
    fault: str = ""
    #: Where its description is in the list, if it can be replaced there.
    place: Optional[Place] = None


class _Columns(NamedTuple):
    """Where a record has the name and the description of its tract."""

    name: Optional[int]
    description: int
    is_headed: bool


def tracts_in(text: str, most: int) -> List[Listed]:
    """Return the tracts of a list: one more than `most` at most, which is enough to refuse it.

    >>> tracts_in("name;description\\nA;sec. 14, NE1/4.\\n", 9)
    [Listed(name='A', description='sec. 14, NE1/4.', line=2, fault='', place=Place(start=19, end=34))]
    """
    # The mark is no part of the list, but a character of the text.
    marks = len(MARK) if text.startswith(MARK) else 0
    columns, shape, records = _records_in(text[marks:])
    places = FieldPlaces(text[marks:], shape)
    found: List[Listed] = []
    for record in records:
        place = places.description(record)
        moved = None if place is None else Place(place.start + marks, place.end + marks)
        found.append(_listed(record, columns, len(found), moved))
        if len(found) > most:
            break
    return found


def _records_in(text: str) -> Tuple[_Columns, Shape, Iterator[Record]]:
    """Return where the records of a list have what is used, what they look like, and the records themselves."""
    pieces = io.StringIO(text, newline="")
    found = headed(Lines(pieces.read), _DESCRIPTION)
    column = index_in(found.heading, _DESCRIPTION)
    if column is not None:
        columns = _Columns(index_in(found.heading, _NAME), column, is_headed=True)
        shape = Shape(len(found.heading), column, found.separator)
        return columns, shape, Records(Chunks(pieces.read, found.unread, found.line + 1), shape)
    # Semicolons are between sections, too: only a heading says that they separate fields. Cells have tabs between them.
    separator = "\t" if "\t" in text.lstrip().partition("\n")[0] else ","
    width = min(_width_of_first(text, separator), 2)
    columns = _Columns(0 if width > 1 else None, width - 1, is_headed=False)
    shape = Shape(width, width - 1, separator, "a tract" if width > 1 else "the first record")
    return columns, shape, Records(Chunks(lambda: "", text, 1), shape)


def _width_of_first(text: str, separator: str) -> int:
    """Return the number of fields of the first record: 1 if there is none, or if it is not well formed."""
    rows = csv.reader(io.StringIO(text, newline=""), delimiter=separator, strict=True)
    try:
        return len(next((row for row in rows if any(row)), [""]))
    except csv.Error:
        return 1


def _listed(record: Record, columns: _Columns, index: int, place: Optional[Place]) -> Listed:
    """Return the tract of a record. One that has no name is called by its number."""
    name = "" if columns.name is None else record.fields[columns.name]
    shown, description = name or str(index + 1), record.fields[columns.description]
    fault = record.fault
    if not (fault or columns.is_headed or not name) and _names_land(name, description):
        fault = (
            f"line {record.line} may be a description alone, with a separator in it: put the description in "
            "quotation marks, and begin the list with the heading name,description"
        )
    # A part of a description is never shown as if it were one.
    return Listed(shown, "" if fault else description, record.line, fault, None if fault else place)


def _names_land(name: str, description: str) -> bool:
    """Return whether what should be a name may belong to the description after it."""
    given = encoded(name)
    readings = [*readings_of(given), *readings_of(encoded(f"{name}, {description}"))]
    return ";" in name or not all(_leaves_out(reading, len(given)) for reading in readings)


def _leaves_out(reading: Reading, size: int) -> bool:
    """Return whether a reading leaves out so many bytes at the beginning of the text, as a label."""
    return any(change.rule == "label" and (change.start, change.end) == (0, size) for change in reading.changes)
