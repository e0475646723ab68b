"""Answers in a workbook of Excel (`.xlsx`), for which the package `openpyxl` is needed."""
from __future__ import annotations

import io
from contextlib import contextmanager, suppress
from decimal import Decimal
from typing import Any, Iterator, Sequence

from .._text import shown
from .cells import without_midnight
from .stopped import Stopped, writing
from .workbook import openpyxl_for

#: What Excel allows: the rows of a sheet, and the characters of a cell.
ROWS_MOST = 1_048_576
CHARACTERS_MOST = 32_767


class WorkbookSink:
    """Writes records to a new workbook, which is saved when it is closed."""

    def __init__(self, name: str) -> None:
        openpyxl = openpyxl_for(name)
        with writing(name):
            # If the file cannot be written, this is the time to say so, and not when all is answered.
            open(name, "ab").close()
        self._name = name
        self._book = openpyxl.Workbook(write_only=True)
        self._sheet = self._book.create_sheet("answers")
        self._cell = openpyxl.cell.WriteOnlyCell
        self._illegal = openpyxl.cell.cell.ILLEGAL_CHARACTERS_RE
        self._rows = 0
        self._is_broken = False

    def write(self, fields: Sequence[Any]) -> None:
        """Write a record, each number as a number."""
        if self._rows == ROWS_MOST:
            raise Stopped(
                f"township: {shown(self._name)}: a workbook has at most {ROWS_MOST:,} rows; write the "
                "answers to a CSV file"
            )
        self._rows += 1
        cells = [self._cell_of(field) for field in fields]
        with self._making():
            self._sheet.append(cells)

    @contextmanager
    def _making(self) -> Iterator[None]:
        """Report any failure in the block to write the sheet, which is in a temporary file until the end."""
        try:
            yield
        except MemoryError:
            raise
        except Exception as error:
            # Which exception it is depends on the package by which `openpyxl` writes XML.
            self._is_broken = True
            # What is not closed would be closed with a traceback when Python ends.
            with suppress(Exception):
                self._sheet.close()
            raise Stopped(
                f"township: cannot write {shown(self._name)}: its temporary file cannot be written; the "
                "environment variable TMPDIR can name a folder that has more space"
            ) from error

    def _cell_of(self, field: Any) -> Any:
        if isinstance(field, str):
            cell = self._cell(self._sheet, value=self._text_of(field))
            # A text that begins with `=` is not a formula.
            cell.data_type = "s"
            return cell
        cell = self._cell(self._sheet, value=without_midnight(field))
        if isinstance(field, Decimal):
            cell.number_format = "0.00"
        return cell

    def _text_of(self, field: str) -> str:
        """Return a text that a cell can contain: no part of a description, which may be other land."""
        # Some control characters are not allowed.
        text = str(self._illegal.sub(lambda found: ascii(found.group())[1:-1], field))
        text = text.encode("utf-8", "backslashreplace").decode()
        if len(text) > CHARACTERS_MOST:
            return f"[{len(field):,} characters: too long for a cell]"
        return text

    def close(self) -> None:
        """Save the workbook."""
        if self._is_broken:
            return
        # In memory first: a zip file that cannot be written would be closed with a traceback as well.
        saved = io.BytesIO()
        with self._making():
            self._book.save(saved)
        with writing(self._name):
            with open(self._name, "wb") as file:
                file.write(saved.getbuffer())
