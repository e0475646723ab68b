"""The section lines of field notes as they are written, with their places: what the page's inputs show and replace.

The library reads the notes. Here only the fields of each record are found, so that an input can show them even if the
notes are refused.
"""
from __future__ import annotations

import re
from typing import Dict, Iterator, List, NamedTuple, Optional

from .._batch.decoding import MARK
from .._field_notes import index_of, names
from .._spelling import township_named
from .._township import Township
from .refusals import Json

#: A field, quoted or not, and what ends it.
_FIELD = re.compile(r'(?:"((?:[^"]|"")*)"|([^,]*))(,|$)')

#: The first refusal that is about a section line, not about a record.
_FIRST_OF_LINE = 11

#: The number of sections along a side of the township, and of the section lines that run north.
_SIDE, _NORTH = 6, 42


class Line(NamedTuple):
    """A section line, for a row of the page."""

    #: Its index among the section lines.
    place: int
    #: `N` or `W`.
    direction: str
    #: Where it is, in words.
    where: str
    #: The beginning of its record, as in `N,4,5`.
    name: str
    #: Whether it takes up what is left over.
    closes: bool


class _Field(NamedTuple):
    """A field of a record: its text, and its place in the notes."""

    text: str
    start: int
    end: int


def section_lines() -> List[Line]:
    """Return the 84 section lines, by their index."""
    return [_line(index, name) for index, name in enumerate(names())]


def written(notes: str) -> Json:
    """Return the designation and the distances in field notes as they are written, each with its place.

    Places count Unicode code points from 0. What a replacement of a line takes is from the quarter corner's distance to
    the end of the record.
    """
    found: Json = {"township": None, "lines": (lines := [])}
    for fields in _records(notes):
        if fields[0].text == "T" and found["township"] is None:
            found["township"] = {
                "fields": [field.text for field in fields[1:5]],
                "start": fields[0].start,
                "end": fields[-1].end,
            }
        index = _index_of(fields)
        if index is not None and len(fields) > 3:
            lines.append(
                {
                    "line": index,
                    "distances": [field.text for field in fields[3:5]],
                    "start": fields[3].start,
                    "end": fields[-1].end,
                }
            )
    return found


def designation_in(notes: str) -> Optional[Township]:
    """Return the township that field notes name, if they name one."""
    for fields in _records(notes):
        if fields[0].text == "T":
            number, north_south, number_of_range, east_west = ([each.text for each in fields[1:]] + [""] * 4)[:4]
            try:
                return township_named(f"T. {number} {north_south}., R. {number_of_range} {east_west}.")
            except ValueError:
                return None
    return None


def line_refused(notes: str, number: int, at: int) -> Optional[int]:
    """Return the index of the section line that a refusal of field notes is about, if it is about one."""
    if number >= _FIRST_OF_LINE:
        return at
    records = list(_records(notes))
    return _index_of(records[at - 1]) if 1 <= at <= len(records) else None


def _records(notes: str) -> Iterator[List[_Field]]:
    """Yield the fields of each record. Empty lines are none."""
    start = 0
    for line in notes.split("\n"):
        text = line.removesuffix("\r")
        offset = start
        if start == 0 and text.startswith(MARK):
            text, offset = text[1:], 1
        if text:
            yield [_field(found, offset) for found in _fields_in(text)]
        start += len(line) + 1


def _fields_in(record: str) -> Iterator["re.Match[str]"]:
    for found in _FIELD.finditer(record):
        yield found
        if not found[3]:
            return


def _field(found: "re.Match[str]", offset: int) -> _Field:
    quoted, plain, end = found.groups()
    text = plain if quoted is None else quoted.replace('""', '"')
    return _Field(text, offset + found.start(), offset + found.end() - len(end))


def _index_of(fields: List[_Field]) -> Optional[int]:
    """Return the index of the section line that a record is for."""
    return index_of(",".join(field.text for field in fields[:3])) if len(fields) >= 3 else None


def _line(index: int, name: str) -> Line:
    direction, first, second = name.split(",")
    across = _SIDE + 1 if direction == "N" else _SIDE
    row, column = divmod(index % _NORTH, across)
    closes = row == 0 if direction == "N" else column == _SIDE - 1
    where = f"between sections {first} and {second}"
    if not second:
        is_first = column == 0 if direction == "N" else row == 0
        sides: Dict[str, str] = {"N": "east" if is_first else "west", "W": "north" if is_first else "south"}
        where = f"{sides[direction]} boundary of section {first}"
    return Line(index, direction, where, name, closes)
