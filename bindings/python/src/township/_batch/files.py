"""Files of field notes and of lot tables. Each begins with its own heading, by which a file is recognized."""
from __future__ import annotations

import re
from typing import Callable, Optional, Tuple, TypeVar, Union

from .. import _library
from .._ignored import Phrases
from .._lots import Lots
from .._plat import Plat
from .._refused import Refused
from .._text import shown
from .stopped import Status, Stopped, reading

#: What acreage is computed by: the plat that field notes make, or a lot table.
Basis = Union[Plat, Lots]

_Made = TypeVar("_Made", Plat, Lots)

#: The numbers of refusals by which a text is not seen to be field notes, or a lot table: it is too large, is empty, or
#: has another heading.
_NOT_NOTES = (
    _library.REFUSAL_NOTES_TOO_LARGE,
    _library.REFUSAL_NOTES_EMPTY,
    _library.REFUSAL_NOTES_HEADING,
)
_NOT_LOTS = (
    _library.REFUSAL_LOTS_TOO_LARGE,
    _library.REFUSAL_LOTS_EMPTY,
    _library.REFUSAL_LOTS_HEADING,
)

#: The first words of the headings, as a spreadsheet may have spoiled them. They only decide what is explained.
_MEANT_AS_NOTES = re.compile(rb"[^a-z\n]*lines?\b", re.IGNORECASE)
_MEANT_AS_LOTS = re.compile(rb"[^a-z\n]*sec(tion|tions)?\b", re.IGNORECASE)

_NEITHER = (
    "this is neither field notes nor a lot table: field notes begin with `line,between,and,quarter,corner`, and a lot "
    "table begins with `section,lot,acres`"
)


class Unrecognized(Stopped):
    """A file is neither field notes nor a lot table, and does not seem to be meant as one."""


def plat_in(file: str) -> Plat:
    """Return the plat of the field notes in a file, or stop."""
    return _made_of(Plat.open, file, Lots.open, "this file is a lot table")


def lots_in(file: str) -> Lots:
    """Return the lot table in a file, or stop."""
    return _made_of(Lots.open, file, Plat.open, "this file contains field notes")


def phrases_in(file: str) -> Phrases:
    """Return the phrases in a file, one on each line, or stop."""
    with reading(file):
        try:
            return Phrases.open(file)
        except Refused as refused:
            raise _stopped(_message(refused)) from refused


def basis_in(file: str) -> Basis:
    """Return the plat of field notes or the lot table in a file, or stop. The library recognizes the heading."""
    with reading(file), open(file, "rb") as opened:
        # One byte more than the limit is enough for a refusal.
        text = opened.read(max(_library.NOTES_MOST, _library.LOTS_TEXT_MOST) + 1)
    notes, table = _tried(text, file)
    for made in (notes, table):
        if not isinstance(made, Refused):
            return made
    explained = _explained(notes, table, text)
    if explained is None:
        raise Unrecognized(f"township: {shown(file)}:1: {_NEITHER}", Status.REFUSED)
    raise _stopped(explained)


def is_meant_as_lots(text: bytes) -> bool:
    """Return whether a text begins as a lot table does, perhaps as a spreadsheet spoiled it."""
    return _MEANT_AS_LOTS.match(text) is not None


def _tried(text: bytes, file: str) -> Tuple[Union[Plat, Refused], Union[Lots, Refused]]:
    """Return what a text is as field notes, and as a lot table."""
    name = shown(file).encode("utf-8", "backslashreplace")
    notes: Union[Plat, Refused]
    table: Union[Lots, Refused]
    try:
        notes = Plat._of_notes(text, name)
    except Refused as refused:
        notes = refused
    try:
        table = Lots._read(text, name)
    except Refused as refused:
        table = refused
    return notes, table


def _explained(notes: object, table: object, text: bytes) -> Optional[str]:
    """Return the refusal of what a text was meant to be, if that can be seen."""
    is_notes = isinstance(notes, Refused) and (notes.number not in _NOT_NOTES or _MEANT_AS_NOTES.match(text))
    is_table = isinstance(table, Refused) and (table.number not in _NOT_LOTS or _MEANT_AS_LOTS.match(text))
    for meant, refused in ((is_notes, notes), (is_table, table)):
        if meant and isinstance(refused, Refused):
            return _message(refused)
    return None


def _made_of(make: Callable[[str], _Made], file: str, make_other: Callable[[str], Basis], other: str) -> _Made:
    """Return what is made of a file, or stop. If it is the other kind of file, the message says so."""
    with reading(file):
        try:
            return make(file)
        except Refused as refused:
            hint = f"\n  {other}" if _is_made(make_other, file) else ""
            raise _stopped(_message(refused) + hint) from refused


def _is_made(make: Callable[[str], Basis], file: str) -> bool:
    try:
        make(file)
    except Refused:
        return False
    return True


def _message(refused: Refused) -> str:
    return refused.explanation.rstrip("\n") or f"township: {refused}"


def _stopped(message: str) -> Stopped:
    return Stopped(message, Status.REFUSED)
