"""Chunks whose records are read and written by the `csv` module."""
from __future__ import annotations

import csv
from typing import Any, List, Mapping, NamedTuple, Optional, Sequence

from .added import Added
from .chunks import Chunk
from .lines import lines_in
from .records import Record, Unfinished, records_of
from .shape import FIELD_MOST, Shape
from .written import csv_text


class ReadRows(NamedTuple):
    """The records of a chunk, or of a part of a workbook."""

    #: Their fields, as many as the heading has.
    fields: List[List[Any]]
    separator: str
    #: The faults of the records that have one, by their index.
    faults: Mapping[int, str] = {}
    #: The line of a record that does not end in the chunk, if there is one.
    unfinished: Optional[int] = None

    @property
    def number(self) -> int:
        """The number of records."""
        return len(self.fields)

    def column(self, index: int) -> Sequence[Any]:
        """Return the fields of a column."""
        return [fields[index] for fields in self.fields]

    def csv(self, added: Added) -> str:
        """Return the records with the fields that are added to them."""
        return csv_text(list(map(list.__add__, self.fields, added.all_fields())), self.separator)


def read_rows(chunk: Chunk, shape: Shape) -> ReadRows:
    """Return the records of a chunk, as `records_of` yields them."""
    rows = _even_rows(chunk, shape)
    if rows is not None:
        return ReadRows(rows, shape.separator)
    records: List[Record] = []
    unfinished = None
    try:
        records.extend(records_of(chunk, shape))
    except Unfinished as error:
        unfinished = error.line
    return rows_of(records, shape.separator)._replace(unfinished=unfinished)


def rows_of(records: Sequence[Record], separator: str) -> ReadRows:
    """Return records that have been read one at a time."""
    faults = {index: record.fault for index, record in enumerate(records) if record.fault}
    return ReadRows([record.fields for record in records], separator, faults)


def _even_rows(chunk: Chunk, shape: Shape) -> Optional[List[List[str]]]:
    """Return the records of a chunk if there is nothing wrong with any of them, or else `None`."""
    csv.field_size_limit(FIELD_MOST)
    try:
        rows = list(filter(any, csv.reader(lines_in(chunk.text), delimiter=shape.separator, strict=True)))
    except csv.Error:
        return None
    return rows if set(map(len, rows)) <= {shape.width} else None
