"""Records as a CSV file has them. Each ends with a line feed."""
from __future__ import annotations

import csv
import io
from typing import Any, Sequence, TextIO

_CRLF = "\r\n"


def csv_text(rows: Sequence[Sequence[Any]], separator: str) -> str:
    """Return records as a CSV file has them."""
    text = io.StringIO(newline="")
    csv.writer(text, delimiter=separator, lineterminator="\n").writerows(rows)
    if "\r" in text.getvalue():
        # A field with a carriage return must be quoted, and a writer that ends records so does not do that.
        text = io.StringIO(newline="")
        writer_to(text, separator).writerows(rows)
    return text.getvalue()


def writer_to(file: TextIO, separator: str) -> Any:
    """Return a `csv.writer` to a file."""
    return csv.writer(_LineFeeds(file), delimiter=separator, lineterminator=_CRLF)


class _LineFeeds:
    """Ends each record with a line feed.

    The `csv` module itself ends records with CRLF, because it quotes a field that contains a carriage return
    only if the record terminator contains one.
    """

    def __init__(self, sink: TextIO) -> None:
        self._write = sink.write

    def write(self, record: str) -> int:
        return self._write(record[: -len(_CRLF)] + "\n")
