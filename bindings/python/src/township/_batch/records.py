"""The records of a list."""
from __future__ import annotations

import csv
from typing import Any, Iterator, List, NamedTuple, Optional, Sequence

from .chunks import Chunk, Chunks
from .lines import lines_in
from .shape import FIELD_MOST, Shape
from .written import csv_text


class Record(NamedTuple):
    """A record, with as many fields as the heading."""

    fields: List[Any]
    #: The line on which it begins, counted from 1.
    line: int
    #: What is wrong with the record itself, so that its description is not answered; or nothing.
    fault: str = ""


class Unfinished(Exception):
    """The last record of a chunk does not end in it."""

    def __init__(self, line: int) -> None:
        super().__init__(line)
        #: The line on which the record begins.
        self.line = line


class _Lines:
    """Lines that remember those of the current record, and can give some of them again."""

    def __init__(self, lines: Iterator[str]) -> None:
        self._lines = lines
        self._again: List[str] = []
        self.taken: List[str] = []
        #: Whether a line was asked for after the last one.
        self.ended = False

    def __iter__(self) -> "_Lines":
        return self

    def __next__(self) -> str:
        line = self._again.pop() if self._again else next(self._lines, "")
        if not line:
            self.ended = True
            raise StopIteration
        self.taken.append(line)
        return line

    def give_again(self) -> str:
        """Give all lines of the current record again but the first, which is returned."""
        first, *others = self.taken
        self._again.extend(reversed(others))
        self.ended = False
        return first


def records_of(chunk: Chunk, shape: Shape) -> Iterator[Record]:
    """Yield the records of a chunk. Records without any text are skipped. Raise `Unfinished` if the last one goes on.

    If the quotation marks of a record are not well formed, its first line alone is a record with a fault. The
    text of the line is then in the column of descriptions, and the next record begins on the next line.
    """
    csv.field_size_limit(FIELD_MOST)
    lines = _Lines(lines_in(chunk.text))
    line = chunk.line
    while True:
        lines.taken.clear()
        reader = csv.reader(lines, delimiter=shape.separator, strict=True)
        try:
            for row in reader:
                if not any(row):
                    pass
                elif len(row) == shape.width:
                    yield Record(row, line)
                else:
                    yield _uneven_record(row, lines.taken[-1], line, shape)
                line += len(lines.taken)
                lines.taken.clear()
            return
        except csv.Error:
            if lines.ended and not chunk.is_last:
                raise Unfinished(line) from None
            fields = [""] * shape.width
            fields[shape.column] = lines.give_again().rstrip("\r\n")
            yield Record(fields, line, f"the quotation marks of line {line} are not well formed")
            line += 1


class Records:
    """The records of a list, one at a time."""

    def __init__(self, chunks: Chunks, shape: Shape) -> None:
        self._chunks = chunks
        self._shape = shape
        self._chunk = Chunk("", 0, False)
        self._records: Iterator[Record] = iter(())

    def __iter__(self) -> "Records":
        return self

    def __next__(self) -> Record:
        record = self._next_of_chunk()
        while record is None:
            self._chunk = next(self._chunks)
            self._records = records_of(self._chunk, self._shape)
            record = self._next_of_chunk()
        return record

    def give_back(self) -> None:
        """Give the records that were not taken back to the chunks."""
        record = self._next_of_chunk()
        if record is not None:
            self._chunks.again(self._chunk, record.line)
            self._records = iter(())

    def _next_of_chunk(self) -> Optional[Record]:
        try:
            return next(self._records, None)
        except Unfinished as unfinished:
            self._chunks.again(self._chunk, unfinished.line)
            return None


def _uneven_record(row: List[str], last_line: str, line: int, shape: Shape) -> Record:
    """Return the record of a row that has not as many fields as the heading. `last_line` is its last line."""
    width, column = shape.width, shape.column
    fields = fitted(row, width, shape.separator)
    # In some rows, Excel leaves out the fields at the end that are empty.
    if len(row) < width and _has_whole(row, column, last_line):
        return Record(fields, line)
    count = "1 field" if len(row) == 1 else f"{len(row)} fields"
    fault = f"line {line} has {count}, but {shape.by} has {width}"
    if len(row) > width:
        fault += "; put a description that contains a separator in quotation marks"
    elif len(row) == column + 1:
        fault += "; put the description in quotation marks if it is whole"
    return Record(fields, line, fault)


def fitted(fields: Sequence[str], width: int, separator: str) -> List[str]:
    """Return as many fields as the heading has. If there are more, the last one contains the rest, as CSV.

    >>> fitted(["7", "sec. 14", " NE1/4", "Ada"], 3, ","), fitted(["7"], 3, ",")
    (['7', 'sec. 14', ' NE1/4,Ada'], ['7', '', ''])
    """
    if len(fields) <= width:
        return [*fields, *[""] * (width - len(fields))]
    rest = csv_text([fields[width - 1 :]], separator).rstrip("\r\n")
    return [*fields[: width - 1], rest]


def _has_whole(row: List[str], column: int, last_line: str) -> bool:
    """Return whether the field with this index is whole: another follows it, or it is quoted.

    Otherwise it could go on in the next line, after a line break that should be in quotation marks.
    """
    after = len(row) - column - 1
    return after > 0 or (after == 0 and last_line.rstrip("\r\n").endswith('"'))
