"""Where the answers go: standard output, or a file."""
from __future__ import annotations

from typing import Any, Optional, Protocol, Sequence, TextIO

from .stopped import writing
from .workbook import is_workbook
from .workbook_sink import WorkbookSink
from .written import writer_to

#: The file descriptor of standard output.
_OUTPUT = 1


class Sink(Protocol):
    """Writes records."""

    def write(self, fields: Sequence[Any]) -> None:
        """Write a record."""
        ...

    def close(self) -> None:
        """Write everything that has not been written yet."""
        ...


def sink_for(name: Optional[str], separator: str, mark: str = "", append: bool = False) -> Sink:
    """Return the sink for a file, or for standard output if there is no name.

    A new CSV file begins with the byte order mark, if there is one. Standard output does not: other programs
    read it.
    """
    if name is not None and is_workbook(name):
        return WorkbookSink(name)
    return CsvSink(name, separator, "" if name is None else mark, append)


class CsvSink:
    """Writes records as UTF-8, preserving other bytes of the list. Each record ends with a line feed."""

    def __init__(self, name: Optional[str], separator: str, mark: str = "", append: bool = False) -> None:
        self._name = name or ""
        with writing(self._name):
            self._file: TextIO = open(
                _OUTPUT if name is None else name,
                "a" if append else "w",
                encoding="utf-8",
                errors="surrogateescape",
                newline="",
                closefd=name is not None,
            )
            if not append:
                self._file.write(mark)
        self._write = writer_to(self._file, separator).writerow

    def write(self, fields: Sequence[Any]) -> None:
        """Write a record."""
        try:
            self._write(fields)
        except OSError as error:
            with writing(self._name):
                raise error

    def write_text(self, text: str) -> None:
        """Write records that are CSV already, and whatever was written before them.

        Nothing is kept back until more answers are there: whoever writes the list may be waiting for these.
        """
        with writing(self._name):
            self._file.write(text)
            self._file.flush()

    def close(self) -> None:
        """Write everything that has not been written yet."""
        with writing(self._name):
            self._file.close()
