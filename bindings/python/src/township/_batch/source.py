"""Opens a list: a CSV file, standard input, a workbook, or a Parquet file."""
from __future__ import annotations

import io
import os
from contextlib import closing, contextmanager
from typing import Callable, Iterator, List, NamedTuple, Optional

from .._text import shown
from .cells import text_of
from .chunks import Chunks
from .columns import column_in
from .decoding import Counted, Decoded, is_another_format, mark_of
from .headed import HeadedRows
from .lines import Lines
from .options import STANDARD, Options
from .parquet import is_parquet, parquet_rows
from .records import Record, Records
from .separators import headed
from .shape import Shape
from .stopped import Stopped, reading
from .workbook import is_workbook, workbook_rows

#: The file descriptor of standard input.
_INPUT = 0


class Source(NamedTuple):
    """A list whose heading has been read."""

    heading: List[str]
    #: What the records look like. The answers have the same separator.
    shape: Shape
    #: The byte order mark at the beginning, which a file of answers has as well, or nothing.
    mark: str
    records: Iterator[Record]
    #: The chunks that contain the records. A workbook and a Parquet file have none.
    chunks: Optional[Chunks]
    #: The file and the line of the heading, for messages.
    place: str
    #: The number of bytes of the list, if it is known, and a function that returns how many of them are read.
    size: Optional[int]
    position: Callable[[], int]


@contextmanager
def source_of(options: Options) -> Iterator[Source]:
    """Open the list, and read its heading."""
    if is_workbook(options.list):
        with workbook_rows(options.list, options.sheet) as rows:
            yield _table(options, rows)
        return
    if is_parquet(options.list):
        with parquet_rows(options.list) as rows:
            yield _table(options, rows)
        return
    name = "standard input" if options.list == STANDARD else options.list
    with reading(name):
        file = _opened(options.list)
        size = os.fstat(file.fileno()).st_size or None
        counted = Counted(file)
    if is_another_format(counted):
        raise Stopped(
            f"township: {shown(name)}: this is not CSV; save the list as CSV, or as a workbook whose name "
            "ends in .xlsx, or as a Parquet file whose name ends in .parquet"
        )
    with closing(counted):
        read = _reader_of(name, Decoded(counted, options.encoding))
        found = headed(Lines(read), options.column)
        place = f"{shown(name)}:{max(found.line, 1)}"
        shape = Shape(
            width=len(found.heading),
            column=column_in(found.heading, options.column, "--column", place),
            separator=found.separator,
        )
        chunks = Chunks(read, found.unread, found.line + 1)
        yield Source(
            heading=found.heading,
            shape=shape,
            mark=mark_of(counted),
            records=Records(chunks, shape),
            chunks=chunks,
            place=place,
            size=size,
            position=lambda: counted.position,
        )


def _opened(name: str) -> io.FileIO:
    """Open a file, or standard input, which stays open when the result is closed."""
    if name == STANDARD:
        return open(_INPUT, "rb", buffering=0, closefd=False)
    return open(name, "rb", buffering=0)


def _table(options: Options, rows: HeadedRows) -> Source:
    """Return a workbook, or a Parquet file, as a list. Only in a workbook are cells more than texts."""
    heading, place, records = rows
    if options.output is None or not is_workbook(options.output):
        records = (record._replace(fields=list(map(text_of, record.fields))) for record in records)
    shape = Shape(len(heading), column_in(heading, options.column, "--column", place), ",")
    return Source(heading, shape, "", records, None, place, size=None, position=lambda: 0)


def _reader_of(name: str, text: Decoded) -> Callable[[], str]:
    """Return a function that reads more of a file, reporting any failure to read it."""

    def read() -> str:
        with reading(name):
            return text.read()

    return read
