"""The refusals of lot tables, and of land by them, with the explanations of the library."""
from __future__ import annotations

from ctypes import byref
from typing import List

from . import _library
from ._explanation import explained_by
from ._note import Note, notes_of
from ._refused import Refused, exception_of, failure_of, without_bytes

#: The number of the refusal of land with a lot that the table lacks.
LACKING = _library.REFUSAL_LOTS_LACKING


def table_exception(answer: _library.Answer, table: bytes, source: bytes) -> Exception:
    """Return the exception for a lot table that is not accepted. `source` is what the explanation calls it."""
    return exception_of(answer, _library.explain_lots_parts, table, len(table), source=source)


def plain_exception(answer: _library.Answer, plain: bytes, source: bytes) -> Exception:
    """Return the exception for the plain table of a lot table, which is different from the table.

    Its lines are those of the table, but its bytes are not, so none of them are given.
    """
    exception = table_exception(answer, plain, source)
    if not isinstance(exception, Refused):
        return exception
    return without_bytes(exception)


def described_exception(answer: _library.Answer, lots: _library.Lots, given: bytes, source: bytes) -> Exception:
    """Return the exception for a description that is not accepted on the plat of a lot table."""
    explain = _library.lots_explain_description_parts
    return exception_of(answer, explain, byref(lots), given, len(given), source=source)


def table_notes(lots: _library.Lots, given: bytes, source: bytes) -> List[Note]:
    """Return the notes on a description on the plat of a lot table. Raise the exception if it is not accepted."""
    asked = (byref(lots), given, len(given), source, len(source))
    answer, text, explained = explained_by(_library.lots_explain_description_parts, *asked)
    if answer.verdict != _library.ACCEPTED:
        raise described_exception(answer, lots, given, source)
    return notes_of(answer, text, explained)


def lacking_exception(answer: _library.Answer, lots: _library.Lots, source: bytes) -> Exception:
    """Return the exception for land, or a description, with a lot that the table lacks."""
    asked = (byref(lots), answer.at, source, len(source))
    shown, text, explained = explained_by(_library.explain_lacking_parts, *asked)
    if shown.verdict != _library.REFUSED:
        return failure_of(shown.verdict)
    return Refused(answer.number, answer.at, None, None, text, None, source.decode(), explained)
