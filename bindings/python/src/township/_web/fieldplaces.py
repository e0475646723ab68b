"""Where the descriptions of a list are in its text, so that a reading can be picked in place of one."""
from __future__ import annotations

import re
from typing import List, NamedTuple, Optional

from .._batch.lines import LINE_END
from .._batch.records import Record
from .._batch.shape import Shape


class Place(NamedTuple):
    """A range of the characters of a text, counted from 0."""

    start: int
    end: int


class FieldPlaces:
    """The places of the fields of a list with a certain shape."""

    def __init__(self, text: str, shape: Shape) -> None:
        self._text = text
        self._shape = shape
        self._lines: List[int] = [0, *(found.end() for found in LINE_END.finditer(text))]
        # A quoted field, or one without quotation marks around it; and what ends it.
        self._field = re.compile(rf'(?:"(?:[^"]|"")*"|[^{re.escape(shape.separator)}\r\n]*)')

    def description(self, record: Record) -> Optional[Place]:
        """Return where the description of a record is, with its quotation marks if it has any.

        >>> shape = Shape(2, 1, ";")
        >>> FieldPlaces('A;"x"\\n', shape).description(Record(["A", "x"], 1))
        Place(start=2, end=5)

        Return `None` if it is not there as the reader of the list read it.
        """
        if record.fault:
            return None
        start, column = self._lines[record.line - 1], self._shape.column
        for _ in range(column):
            end = self._end_of_field(start)
            if self._text[end : end + 1] != self._shape.separator:
                return None
            start = end + 1
        end = self._end_of_field(start)
        return Place(start, end) if _unquoted(self._text[start:end]) == record.fields[column] else None

    def _end_of_field(self, start: int) -> int:
        """Return where the field ends that begins at a place."""
        found = self._field.match(self._text, start)
        if found is None:
            raise AssertionError("a field can be empty")
        return found.end()


def _unquoted(field: str) -> str:
    return field[1:-1].replace('""', '"') if field.startswith('"') else field
