"""Goes on where an earlier output ends."""
from __future__ import annotations

import codecs
import csv
import os
from typing import Iterator, List, Sequence

from .._text import shown
from .answers import Answers
from .cells import text_of
from .records import Record
from .shape import FIELD_MOST
from .stopped import Stopped, reading, writing

_MARK = codecs.BOM_UTF8

#: The number of records that are answered again, to see that the options and the field notes are the same.
_CHECKED = 1000


class Earlier:
    """The records that an earlier output contains. Nothing is changed in it until it is seen to be one."""

    def __init__(self, name: str, heading: Sequence[str], separator: str) -> None:
        self._name = name
        self._separator = separator
        self._rows: Iterator[List[str]] = iter(())
        #: The size of the file, and of its records that were written whole.
        self._size = self._end = 0
        #: Whether the output has its heading.
        self.begun = False
        csv.field_size_limit(FIELD_MOST)
        with reading(name):
            if os.path.exists(name):
                self._size = os.path.getsize(name)
                self._end = _end_of_records(name)
                self._rows = self._read()
                self.begun = self._check_heading(list(heading))

    def _read(self) -> Iterator[List[str]]:
        """Yield the records that were written whole."""
        try:
            with reading(self._name):
                yield from csv.reader(_lines(self._name, self._end), delimiter=self._separator, strict=True)
        except csv.Error:
            raise Stopped(f"township: {shown(self._name)}: this is not the output of a batch") from None

    def _check_heading(self, heading: List[str]) -> bool:
        """Return whether there is a whole heading. Stop if it, or what there is of it, is another list's."""
        found = next(self._rows, None)
        if found == heading:
            return True
        if found is None:
            begun: List[str] = next(csv.reader(_lines(self._name, self._size), delimiter=self._separator), [])
            if _is_beginning(begun, heading):
                return False
        raise Stopped(f"township: {shown(self._name)}:1: the heading is not that of this list's answers")

    def skip(self, records: Iterator[Record], answers: Answers, width: int) -> None:
        """Skip the records of the list that were answered before, each with `width` fields, and count them.

        Stop if the output is not one of this list, or if one of the first records has another answer now.
        """
        for number, row in enumerate(self._rows, start=2):
            record = next(records, None)
            if record is None or record.fields != row[:width]:
                raise self._stopped(f"record {number} is not an answer to this list")
            if number >= _CHECKED:
                answers.count_earlier(record, row[width:])
            elif list(map(text_of, answers.added_to(record))) != row[width:]:
                raise self._stopped(f"record {number} was answered with other options or field notes")
        self._cut_unfinished()

    def _stopped(self, fault: str) -> Stopped:
        again = "without --resume, the output is written anew"
        return Stopped(f"township: {shown(self._name)}: {fault}; {again}")

    def _cut_unfinished(self) -> None:
        """Cut off a record at the end of the file that was not written whole."""
        if self._end != self._size:
            with writing(self._name):
                os.truncate(self._name, self._end)


def _end_of_records(name: str) -> int:
    """Return the number of bytes of a file's records that were written whole: with their line feeds."""
    end = position = quotes = 0
    with open(name, "rb") as file:
        for line in file:
            position += len(line)
            quotes += line.count(b'"')
            # A line feed in quotation marks does not end a record.
            if quotes % 2 == 0 and line.endswith(b"\n"):
                end = position
    return end


def _lines(name: str, size: int) -> Iterator[str]:
    """Yield the lines of a file up to a size, without its byte order mark, which may be cut off."""
    position = 0
    with open(name, "rb") as file:
        for line in file:
            if position + len(line) > size or _MARK.startswith(line):
                return
            yield line.removeprefix(b"" if position else _MARK).decode("utf-8", "surrogateescape")
            position += len(line)


def _is_beginning(begun: List[str], heading: List[str]) -> bool:
    """Return whether fields are the first ones of a heading; the last of them may be cut off."""
    *whole, last = begun or [""]
    count = len(whole)
    return count < len(heading) and whole == heading[:count] and heading[count].startswith(last)
