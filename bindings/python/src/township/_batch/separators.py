"""Finds the heading of a list, and the character that separates its fields.

Spreadsheets write commas, semicolons, or tabs, depending on the country and the format; a first line such as
`sep=;` says so. Without it, the separator is the first of the three that gives the heading the wanted column.
"""
from __future__ import annotations

import csv
import itertools
import re
from typing import Iterable, Iterator, List, NamedTuple

from .columns import index_in
from .lines import Lines

_SEPARATORS = (",", ";", "\t")
_SEP_LINE = re.compile(r'"?sep=([^"\r\n])"?[\r\n]*', re.IGNORECASE)


class Headed(NamedTuple):
    """A list whose heading has been read."""

    heading: List[str]
    separator: str
    #: What has been read after the heading.
    unread: str
    #: The number of lines up to the end of the heading.
    line: int


def headed(lines: Lines, column: str) -> Headed:
    """Read the heading of a list, in which a column with this name is wanted."""
    before = 0
    separators: Iterable[str] = _SEPARATORS
    rest: Iterator[str] = lines
    for first in lines:
        said = _SEP_LINE.fullmatch(first)
        if said is None:
            rest = itertools.chain([first], lines)
        else:
            separators, before = said.group(1), 1
        break
    read: List[str] = []
    tried = [_heading_by(separator, read, rest) for separator in separators]
    best = max(tried, key=lambda each: (index_in(each.heading, column) is not None, len(each.heading)))
    unread = "".join(read[best.line :]) + lines.unread
    return best._replace(unread=unread, line=best.line + before)


def _heading_by(separator: str, read: List[str], lines: Iterator[str]) -> Headed:
    """Read a heading by a separator, from the lines that were read before and then from the rest.

    Empty lines before it are skipped. If there is none, it is empty.
    """
    reader = csv.reader(_read_again(read, lines), delimiter=separator, strict=True)
    heading: List[str] = []
    try:
        heading = next((row for row in reader if row), [])
    except csv.Error:
        # This is not the separator: with it, a quoted field does not end at one.
        pass
    return Headed(heading, separator, "", reader.line_num)


def _read_again(read: List[str], lines: Iterator[str]) -> Iterator[str]:
    """Yield the lines that were read before, then the others, which are kept for the next time."""
    yield from list(read)
    for line in lines:
        read.append(line)
        yield line
