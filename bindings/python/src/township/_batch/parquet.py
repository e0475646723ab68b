"""Lists in Parquet files, for which the package `pyarrow` is needed."""
from __future__ import annotations

from contextlib import contextmanager
from typing import Any, Iterator, List

from .._text import shown
from .cells import text_of
from .headed import HeadedRows
from .records import Record
from .stopped import Stopped, decoding, reading

_SUFFIX = ".parquet"

#: The number of records that are read at a time.
_ROWS = 1000


def is_parquet(name: str) -> bool:
    """Return whether a file name is that of a Parquet file."""
    return name.lower().endswith(_SUFFIX)


@contextmanager
def parquet_rows(name: str) -> Iterator[HeadedRows]:
    """Open a Parquet file. Its columns have names, which are the heading."""
    parquet = _pyarrow_for(name)
    with reading(name), open(name, "rb") as file:
        with decoding(name, "this is not a Parquet file"):
            table = parquet.ParquetFile(file)
        heading = list(map(text_of, table.schema_arrow.names))
        records = (Record(row, number) for number, row in enumerate(_rows_of(name, table), start=1))
        yield HeadedRows(heading, shown(name), records)


def _pyarrow_for(name: str) -> Any:
    """Return the module that reads Parquet files, or stop if it is not installed."""
    try:
        from pyarrow import parquet
    except ImportError:
        raise Stopped(
            f"township: {shown(name)}: a Parquet file takes the Python package pyarrow; or save the list as CSV"
        ) from None
    return parquet


def _rows_of(name: str, table: Any) -> Iterator[List[Any]]:
    """Yield the rows of a table."""
    with decoding(name, "the Parquet file is damaged"):
        for batch in table.iter_batches(batch_size=_ROWS):
            columns = [column.to_pylist() for column in batch.columns]
            yield from map(list, zip(*(map(_cell, column) for column in columns)))


def _cell(value: Any) -> Any:
    """Return a value as the cell of a workbook would contain it: bytes are a text, whose encoding is not stated."""
    return value.decode("utf-8", "surrogateescape") if isinstance(value, bytes) else value
