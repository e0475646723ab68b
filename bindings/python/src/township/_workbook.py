"""Lot tables in workbooks of Excel (`.xlsx`), for which the package `openpyxl` is needed."""
from __future__ import annotations

import csv
import io
import os
import re
import warnings
from contextlib import closing
from typing import Any, Iterator, List

from . import _library
from ._text import Path

_SUFFIX = ".xlsx"

_MISSING = (
    "a workbook takes the Python package openpyxl (on Debian, python3-openpyxl); or save the sheet as CSV, and read that"
)

_LINE_BREAKS = re.compile(r"[\r\n]+")


def is_workbook(path: Path) -> bool:
    """Return whether a file name is that of a workbook."""
    return os.fsdecode(path).lower().endswith(_SUFFIX)


def table_of_workbook(path: Path) -> bytes:
    """Return the first sheet of a workbook as a text (CSV), in which each row is on the line with its number.

    A number is written with all its digits, so one with more than two decimals is no acreage. Raise `OSError` if the
    file is not a workbook that can be read, or if `openpyxl` is not installed.
    """
    try:
        import openpyxl
    except ImportError:
        raise OSError(_MISSING) from None
    # It warns of what it does not read, such as the lists of values that cells offer.
    warnings.filterwarnings("ignore", category=UserWarning, module="openpyxl")
    try:
        with closing(openpyxl.load_workbook(os.fsdecode(path), read_only=True, data_only=True)) as book:
            return _text_of(_rows_of(book))
    except (OSError, MemoryError):
        raise
    except Exception as error:
        # A file that is damaged raises more than the package documents: errors of zip, XML, and its own.
        raise OSError("this is not a workbook, or it is damaged") from error


def _rows_of(book: Any) -> Iterator[List[str]]:
    """Yield the texts of the cells of each row of the first sheet."""
    # The package for lists has the texts of cells; its other modules read lot tables.
    from ._batch.cells import text_of

    for sheet in book.worksheets[:1]:
        # Some programs write a wrong size, outside which cells would not be read.
        sheet.reset_dimensions()
        for row in sheet.iter_rows(values_only=True):
            yield [_LINE_BREAKS.sub(" ", text_of(cell)) for cell in row]


def _text_of(rows: Iterator[List[str]]) -> bytes:
    """Return rows as CSV, up to the first that makes it too large for a lot table."""
    text = io.StringIO()
    writer = csv.writer(text, lineterminator="\n")
    empty = 0
    for cells in rows:
        if not any(cells):
            empty += 1
            continue
        text.write("\n" * empty)
        empty = 0
        writer.writerow(cells)
        if text.tell() > _library.LOTS_TEXT_MOST:
            break
    return text.getvalue().encode()
