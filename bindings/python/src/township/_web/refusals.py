"""Refusals and notes, as JSON."""
from __future__ import annotations

from typing import Dict, Optional, Tuple

from .._note import Note
from .._refused import Refused
from .._text import encoded

#: A JSON object.
Json = Dict[str, object]


def refused_json(refused: Refused, of: str, text: Optional[str] = None) -> Json:
    """Return a refusal of the text with this name. `start` and `end` say where in the text, if it is given."""
    found: Json = {
        "of": of,
        "number": refused.number,
        "at": refused.at,
        "line": refused.line,
        "column": refused.column,
        "sentence": refused.sentence,
        "explanation": refused.explanation,
    }
    if refused.inner is not None:
        found["inner"] = {"number": refused.inner.number, "at": refused.inner.at}
    if text is not None:
        found["start"], found["end"] = _range(text, refused.start, refused.end)
    return found


def note_json(note: Note, text: str) -> Json:
    """Return a note on a place of a text."""
    start, end = _range(text, note.start, note.end)
    return {
        "line": note.line,
        "column": note.column,
        "sentence": note.sentence,
        "start": start,
        "end": end,
    }


def _range(text: str, start: Optional[int], end: Optional[int]) -> Tuple[Optional[int], Optional[int]]:
    """Return where bytes begin and end in a text, as characters (Unicode code points), counted from 0.

    At the end of the text there are none, and the next character, if there is one, is marked instead.
    """
    if start is None or end is None:
        return None, None
    given = encoded(text)
    first, last = (len(given[:offset].decode("utf-8", "surrogateescape")) for offset in (start, end))
    return first, max(last, min(first + 1, len(text)))
