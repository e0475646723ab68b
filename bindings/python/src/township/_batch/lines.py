"""The lines of a text, which end with a line feed, a carriage return, or both."""
from __future__ import annotations

import io
import re
from typing import Callable, List

LINE_END = re.compile(r"\r\n?|\n")


def lines_in(text: str) -> "io.StringIO":
    """Return the lines of a text, with their ends."""
    return io.StringIO(text, newline="")


def line_count(text: str) -> int:
    """Return the number of line ends in a text.

    >>> line_count("a\\nb\\rc\\r\\nd")
    3
    """
    returns = text.count("\r")
    return text.count("\n") + (returns - text.count("\r\n") if returns else 0)


def from_line(text: str, count: int) -> str:
    """Return a text without its first lines, as many as `count`.

    >>> from_line("a\\rb\\r\\nc", 2)
    'c'
    """
    lines: List[str] = list(lines_in(text))
    return "".join(lines[count:])


class Lines:
    """The lines of a text that arrives in pieces."""

    def __init__(self, read: Callable[[], str]) -> None:
        """`read` returns the next piece, and nothing at the end."""
        self._read = read
        self._text = ""
        self._at = 0

    def __iter__(self) -> "Lines":
        return self

    def __next__(self) -> str:
        end = self._line_end()
        while not end:
            more = self._read()
            if not more:
                end = len(self._text)
                break
            self._text, self._at = self.unread + more, 0
            end = self._line_end()
        line, self._at = self._text[self._at : end], end
        if not line:
            raise StopIteration
        return line

    @property
    def unread(self) -> str:
        """What has arrived after the lines that were given."""
        return self._text[self._at :]

    def _line_end(self) -> int:
        """Return where the next line ends, or 0 if that has not arrived."""
        found = LINE_END.search(self._text, self._at)
        # A line feed may follow a carriage return.
        if found is None or (found.end() == len(self._text) and found.group() == "\r"):
            return 0
        return found.end()
