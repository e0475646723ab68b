"""Lists in workbooks of Excel (`.xlsx`), for which the package `openpyxl` is needed."""
from __future__ import annotations

import warnings
from contextlib import closing, contextmanager
from typing import Any, Iterator, List, NamedTuple, Optional, Sequence

from .._text import shown
from .cells import text_of
from .decoding import OLD_WORKBOOK
from .headed import HeadedRows
from .records import Record, fitted
from .stopped import Stopped, decoding, reading

_SUFFIX = ".xlsx"


def is_workbook(name: str) -> bool:
    """Return whether a file name is that of a workbook."""
    return name.lower().endswith(_SUFFIX)


def openpyxl_for(name: str) -> Any:
    """Return the package `openpyxl`, or stop if it is not installed. `name` is the workbook's."""
    try:
        import openpyxl
    except ImportError:
        raise Stopped(
            f"township: {shown(name)}: a workbook takes the Python package openpyxl (on Debian, "
            "python3-openpyxl); or save the list as CSV"
        ) from None
    # It warns of what it does not read, such as the lists of values that cells offer.
    warnings.filterwarnings("ignore", category=UserWarning, module="openpyxl")
    return openpyxl


class Row(NamedTuple):
    """A row of a sheet that is not empty, without the empty cells at its end."""

    cells: List[Any]
    #: Its number, counted from 1.
    number: int


@contextmanager
def workbook_rows(name: str, title: Optional[str] = None) -> Iterator[HeadedRows]:
    """Open a workbook, and read the heading of a sheet.

    If there is no title, it is the sheet that is shown when the workbook is opened.
    """
    openpyxl = openpyxl_for(name)
    with reading(name), open(name, "rb") as file:
        if file.read(len(OLD_WORKBOOK)) == OLD_WORKBOOK:
            fault = "it has a password, or is an old workbook (.xls); save it as .xlsx without a password"
            raise Stopped(f"township: cannot read {shown(name)}: {fault}")
    with decoding(name, "this is not a workbook"):
        book = openpyxl.load_workbook(name, read_only=True, data_only=True)
    with closing(book):
        sheet = _sheet_of(book, name, title)
        rows = _rows_of(name, sheet)
        heading = next(rows, Row([], 1))
        records = (_record(row, len(heading.cells)) for row in rows)
        place = f"{shown(name)}, sheet `{shown(sheet.title)}`, row {heading.number}"
        yield HeadedRows(list(map(text_of, heading.cells)), place, records)


def _rows_of(name: str, sheet: Any) -> Iterator[Row]:
    """Yield the rows of a sheet."""
    with decoding(name, "the workbook is damaged"):
        # Some programs write a wrong size, outside which cells would not be read.
        sheet.reset_dimensions()
        for number, row in enumerate(sheet.iter_rows(values_only=True), start=1):
            cells = _without_end(row)
            if cells:
                yield Row(cells, number)


def _sheet_of(book: Any, name: str, title: Optional[str]) -> Any:
    """Return the sheet with a title, or stop if there is none.

    If no title is given, return the sheet that is shown when the workbook is opened or, if that is a chart,
    the first of cells.
    """
    sheets = book.worksheets
    if not sheets:
        raise Stopped(f"township: {shown(name)}: there is no sheet of cells in this workbook")
    if title is None:
        return book.active if book.active in sheets else sheets[0]
    found = [sheet for sheet in sheets if sheet.title.casefold() == title.casefold()]
    if not found:
        titles = ", ".join(f"`{shown(sheet.title)}`" for sheet in sheets)
        fault = f"there is no sheet `{shown(title)}`; the sheets are: {titles}"
        raise Stopped(f"township: {shown(name)}: {fault}")
    return found[0]


def _without_end(row: Sequence[Any]) -> List[Any]:
    """Return a row without the empty cells at its end."""
    cells = list(row)
    while cells and cells[-1] in (None, ""):
        cells.pop()
    return cells


def _record(row: Row, width: int) -> Record:
    """Return the record of a row, whose last cells may be empty."""
    cells, number = row
    if len(cells) <= width:
        return Record(cells + [None] * (width - len(cells)), number)
    rest = fitted(list(map(text_of, cells[width - 1 :])), 1, ",")
    fault = f"row {number} has {len(cells)} cells, but the heading has {width}"
    return Record(cells[: width - 1] + rest, number, fault)
