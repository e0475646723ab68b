"""The parts of an explanation or of a note, as the library gives them."""
from __future__ import annotations

from ctypes import byref
from typing import Callable, List, NamedTuple, Optional, Tuple

from . import _library
from ._written import text_by

_PROGRAM = "township: "


class OtherPlace(NamedTuple):
    """Another place that an explanation names: where the same land, name, or line was given before.

    >>> description = "sec. 14, NE1/4 and N1/2."
    >>> try:
    ...     plat.acres(description)
    ... except township.Refused as refusal:
    ...     other = refusal.other
    >>> other
    OtherPlace(record=None, start=9, end=14)
    >>> description[other.start : other.end]
    'NE1/4'
    """

    #: Its record in a list of tracts or in field notes, counted from 1. None in a description.
    record: Optional[int]
    #: Where it begins in the input: a byte of the UTF-8 text, counted from 0.
    start: int
    #: Where it ends: the first byte after it.
    end: int


class Explained(NamedTuple):
    """The parts of an explanation or of a note."""

    #: The name of the input, and the line and column that are given, such as `description:1:20`.
    location: str = ""
    #: What is wrong, or noted, on one line.
    sentence: str = ""
    #: How to correct it, or related facts, one line each.
    hints: Tuple[str, ...] = ()
    #: A description that can be read, with all faults repaired.
    repair: Optional[str] = None
    #: The bytes of the input that are underlined.
    start: Optional[int] = None
    end: Optional[int] = None
    other: Optional[OtherPlace] = None

    @property
    def message(self) -> str:
        """The location and the sentence."""
        return f"{self.location}: {self.sentence}"


def explained_by(
    call: Callable[..., _library.Answer], *given: object
) -> Tuple[_library.Answer, str, Explained]:
    """Call a function that explains. Return its answer, the text, and the parts, which are empty if it is."""
    answer, text, parts = _parts_by(call, *given)
    return answer, text, _explained(text.encode(), parts)


def sentence_by(call: Callable[..., _library.Answer], *given: object) -> Tuple[_library.Answer, str]:
    """Call a function that explains. Return its answer and the sentence alone, which takes much less time."""
    answer, text, parts = _parts_by(call, *given)
    return answer, _sentence(text.encode(), parts)


def _parts_by(
    call: Callable[..., _library.Answer], *given: object
) -> Tuple[_library.Answer, str, _library.Explanation]:
    parts = _library.Explanation()

    def explain(*arguments: object) -> _library.Answer:
        return call(*arguments, byref(parts))

    answer, text = text_by(explain, *given)
    return answer, text, parts


def _explained(text: bytes, parts: _library.Explanation) -> Explained:
    """Return the parts of a text. Each is an offset and a length in it."""
    is_underlined = parts.shown == _library.SHOWN_BYTES
    other = None
    if parts.has_other:
        other = OtherPlace(parts.other_record or None, parts.other_start, parts.other_end)
    return Explained(
        location=_location_in(text[: parts.sentence].decode()),
        sentence=_sentence(text, parts),
        hints=_hints(_lines(text, parts.hints, parts.hints_length), parts.continued),
        repair=_part(text, parts.repair, parts.repair_length) or None,
        start=parts.start if is_underlined else None,
        end=parts.end if is_underlined else None,
        other=other,
    )


def _location_in(head: str) -> str:
    """Return the location in what is before a sentence, such as `township: notes:12: `."""
    return (head[len(_PROGRAM) :] if head.startswith(_PROGRAM) else head).rstrip().rstrip(":")


def _sentence(text: bytes, parts: _library.Explanation) -> str:
    return " ".join(_lines(text, parts.sentence, parts.sentence_length))


def _part(text: bytes, start: int, length: int) -> str:
    return text[start : start + length].decode()


def _lines(text: bytes, start: int, length: int) -> List[str]:
    """Return the lines of a part, without their indentation."""
    return [line.strip() for line in _part(text, start, length).split("\n") if line]


def _hints(lines: List[str], continued: int) -> Tuple[str, ...]:
    """Return the hints in some lines. A line continues the one before if its bit is set."""
    hints: List[str] = []
    for index, line in enumerate(lines):
        if hints and continued >> index & 1:
            hints[-1] += f" {line}"
        else:
            hints.append(line)
    return tuple(hints)
