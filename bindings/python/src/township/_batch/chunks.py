"""Divides a list into chunks of records, before the records are read.

A line end is in a field if the number of quotation marks before it is odd; so a chunk ends at one where it is even.
Some quotation marks in lists mean nothing, though. If reading shows that the last record of a chunk is not whole, the
chunks are divided again from the line on which it begins.
"""
from __future__ import annotations

from typing import Callable, Iterable, NamedTuple, Optional

from .lines import LINE_END, from_line, line_count

#: The number of characters of a chunk, unless a record is longer.
SIZE = 1 << 16

#: With more characters than this, a chunk ends even where the number of quotation marks is odd. One that was not
#: closed would otherwise make the rest of the list a single chunk.
_MOST = 1 << 21


class Chunk(NamedTuple):
    """Lines of a list, which begin with a record."""

    text: str
    #: The number of the first line, counted from 1.
    line: int
    #: Whether these are the last lines of the list.
    is_last: bool


class Chunks:
    """The chunks of a list, from a piece of it that was read before, and then from a function that reads more.

    A chunk contains what has arrived; or, if `is_full` is set, as many characters as `size`.
    """

    def __init__(self, read: Callable[[], str], unread: str, line: int) -> None:
        self._read = read
        self._text = unread
        #: Where the next chunk begins in the text, and on which line of the list.
        self._at = 0
        self._line = line
        #: Whether the text ends the list.
        self._ended = False
        #: The number of characters after which the next chunk has to end.
        self._after = 0
        #: The number of characters that have to be read before an end is looked for again.
        self._wanted = 0
        self.size = SIZE
        self.is_full = False

    def __iter__(self) -> "Chunks":
        return self

    def __next__(self) -> Chunk:
        end = self._end()
        while end is None:
            more = self._read()
            self._ended = not more
            self._text, self._at = self._text[self._at :] + more, 0
            end = self._end()
        text, line = self._text[self._at : end], self._line
        if not text:
            raise StopIteration
        self._at = end
        self._after = self._wanted = 0
        self._line += line_count(text)
        return Chunk(text, line, self._ended and end == len(self._text))

    def again(self, chunk: Chunk, line: int, later: Iterable[Chunk] = ()) -> None:
        """Yield the lines of a chunk from this one on, and the chunks after it, again: as a longer chunk."""
        rest = from_line(chunk.text, line - chunk.line)
        self._text = "".join([rest, *(each.text for each in later), self._text[self._at :]])
        self._at = 0
        self._line = line
        self._after = len(rest)

    def _end(self) -> Optional[int]:
        """Return where the next chunk ends in the text, or `None` if more of it has to be read."""
        length = len(self._text) - self._at
        if self._ended and length <= self.size:
            return len(self._text)
        if not self._ended and length < (max(self.size, self._wanted) if self.is_full else self._wanted):
            return None
        # A carriage return at the end may be followed by a line feed.
        known = len(self._text) - (not self._ended and self._text.endswith("\r"))
        after = self._at + self._after
        end = self._end_within(known, after)
        if end > after:
            return end
        # Looking again takes as long as the text is.
        self._wanted = 2 * length if length > self.size else 0
        return len(self._text) if self._ended else None

    def _end_within(self, known: int, after: int) -> int:
        """Return an end of the next chunk, for which so much of the text is known. It is not after `after` if there
        is none."""
        goal = self._at + self.size
        if not self.is_full and known < goal + self.size:
            goal = known
        end = _last_end(self._text, self._at, min(goal, known))
        if end <= after:
            end = _next_end(self._text, self._at, max(goal, after + 1), known)
        if end <= after and known - self._at > _MOST:
            end = _line_end_before(self._text, self._at, known)
        return end


def _last_end(text: str, start: int, stop: int) -> int:
    """Return the last line end before `stop` with an even number of quotation marks before it, or else the start."""
    end = _line_end_before(text, start, stop)
    is_odd = text.count('"', start, end) % 2
    while is_odd:
        before = _line_end_before(text, start, text.rfind('"', start, end))
        is_odd ^= text.count('"', before, end) % 2
        end = before
    return end


def _next_end(text: str, start: int, place: int, stop: int) -> int:
    """Return the first line end at or after a place with an even number of quotation marks before it.

    Return the start if there is none before `stop`.
    """
    end = _line_end_after(text, place - 1, stop)
    is_odd = text.count('"', start, end) % 2
    while end and is_odd:
        mark = text.find('"', end, stop)
        after = _line_end_after(text, mark, stop) if mark >= 0 else 0
        is_odd ^= text.count('"', end, after) % 2
        end = after
    return end or start


def _line_end_before(text: str, start: int, stop: int) -> int:
    """Return the last line end that begins before `stop`, or else the start."""
    end = max(text.rfind("\n", start, stop), text.rfind("\r", start, stop)) + 1
    if not end:
        return start
    return end + 1 if text[end - 1] == "\r" and text[end : end + 1] == "\n" else end


def _line_end_after(text: str, place: int, stop: int) -> int:
    """Return the first line end at or after a place, or 0 if there is none before `stop`."""
    found = LINE_END.search(text, place, stop)
    return found.end() if found else 0
