"""Reports on lists of tracts."""
from __future__ import annotations

import ctypes
from decimal import Decimal
from typing import Callable, Iterable, List, NamedTuple, Optional, Tuple, Type, TypeVar, Union

from . import _library
from ._figures import acres_of_hundredths
from ._land import Land
from ._refused import LIST, Refusal, exception_of, inner_refusal, refusal_of
from ._text import Text, encoded

#: The land of a tract: a description, or land as a value.
Described = Union[Text, Land]

T = TypeVar("T")


class Tract(NamedTuple):
    """A tract in a report, with its acreage."""

    name: str
    acres: Decimal


class Report(NamedTuple):
    """The report on a list of tracts. Each figure is an exact area, rounded independently."""

    #: The tracts, in the order of the list.
    tracts: Tuple[Tract, ...]
    #: The acreage of all tracts together.
    total: Decimal
    #: The acreage of all other land in the township.
    remaining: Decimal


class LotsReport(NamedTuple):
    """The report on a list of tracts by a lot table. Each figure is an exact area, rounded independently."""

    #: The tracts, in the order of the list.
    tracts: Tuple[Tract, ...]
    #: The acreage of all tracts together.
    total: Decimal


class TractAnswer(NamedTuple):
    """The answer to a tract of a list, whatever is wrong with the others: its acreage or its refusal."""

    #: The name, which is empty if the record is not a tract's (81).
    name: str
    #: The acreage. None if the tract is refused.
    acres: Optional[Decimal]
    #: The refusal, with the number 81, 82, or 83. None if the tract is accepted.
    refusal: Optional[Refusal]
    #: For refusal 83, the refusal of the tract's description. None otherwise.
    inner: Optional[Refusal]


class Overlap(NamedTuple):
    """Two tracts of a list that overlap, by their indexes: the tract with index k is record k + 2."""

    #: The index of the earlier tract.
    first: int
    #: The index of the later one.
    second: int
    #: The acreage of the land in both.
    acres: Decimal


class LotsOverlap(NamedTuple):
    """Two tracts of a list that overlap, by their indexes: the tract with index k is record k + 2."""

    #: The index of the earlier tract.
    first: int
    #: The index of the later one.
    second: int
    #: The acreage by the lot table of the land in both. None if the table lacks one of its lots.
    acres: Optional[Decimal]


def accepted(
    found: Tuple[_library.Answer, T], exception: Callable[[_library.Answer, bytes], Exception], given: bytes
) -> T:
    """Return the result of a call on a list of tracts. Raise the exception for the list if it is not accepted."""
    answer, result = found
    if answer.verdict != _library.ACCEPTED:
        raise exception(answer, given)
    return result


def exception_of_list(answer: _library.Answer, plat: object, given: bytes) -> Exception:
    """Return the exception for a list of tracts that is not accepted on a plat."""
    return exception_of(answer, _library.explain_list_parts, plat, given, len(given), source=LIST)


def report_on(parts: object, given: bytes) -> Tuple[_library.Answer, Report]:
    """Return the library's answer to a list of tracts, and its report, which is empty if it is not accepted."""
    tracts = (_library.Tract * _library.TRACTS_MOST)()
    totals = _library.Totals()
    answer = _library.account(parts, given, len(given), tracts, len(tracts), ctypes.byref(totals))
    shown = tuple(map(_tract_of, tracts[: answer.length]))
    return answer, Report(shown, acres_of_hundredths(totals.total), acres_of_hundredths(totals.remaining))


def report_by(lots: object, given: bytes) -> Tuple[_library.Answer, LotsReport]:
    """Return the library's answer to a list of tracts by a lot table, and its report, which is empty if it is not
    accepted."""
    tracts = (_library.Tract * _library.TRACTS_MOST)()
    answer = _library.lots_report(lots, given, len(given), tracts, len(tracts))
    shown = tuple(map(_tract_of, tracts[: answer.length]))
    return answer, LotsReport(shown, acres_of_hundredths(answer.hundredths))


def answers_on(parts: object, given: bytes) -> Tuple[_library.Answer, Tuple[TractAnswer, ...]]:
    """Return the library's answer to a list of tracts, and the answers to its tracts."""
    return _each(_library.report_each, parts, given)


def answers_by(lots: object, given: bytes) -> Tuple[_library.Answer, Tuple[TractAnswer, ...]]:
    """Return the same by a lot table."""
    return _each(_library.lots_report_each, lots, given)


def _each(
    call: Callable[..., _library.Answer], parts: object, given: bytes
) -> Tuple[_library.Answer, Tuple[TractAnswer, ...]]:
    answers = (_library.TractAnswer * _library.TRACTS_MOST)()
    answer = call(parts, given, len(given), answers, len(answers))
    return answer, tuple(map(_answer_of, answers[: answer.length]))


def _answer_of(given: _library.TractAnswer) -> TractAnswer:
    """Return the answer to a tract."""
    name, answer = given.name.decode("ascii"), given.answer
    if answer.verdict == _library.ACCEPTED:
        return TractAnswer(name, acres_of_hundredths(answer.hundredths), None, None)
    return TractAnswer(name, None, refusal_of(answer), inner_refusal(answer))


#: The room for overlaps in a first call.
_USUAL_OVERLAPS = 64

#: The record of the first tract of a list.
FIRST_TRACT = 2


def overlaps_on(parts: object, given: bytes) -> Tuple[_library.Answer, Tuple[Overlap, ...]]:
    """Return the library's answer to a list of tracts, and the overlaps of its tracts."""
    answer, overlaps = _all_overlaps(_library.overlaps, _library.Overlap, parts, given)
    return answer, tuple(Overlap(*_pair_of(each), acres_of_hundredths(each.hundredths)) for each in overlaps)


def overlaps_by(lots: object, given: bytes) -> Tuple[_library.Answer, Tuple[LotsOverlap, ...]]:
    """Return the same by a lot table."""
    answer, overlaps = _all_overlaps(_library.lots_overlaps, _library.LotsOverlap, lots, given)
    return answer, tuple(LotsOverlap(*_pair_of(each), _acres_of(each)) for each in overlaps)


def _all_overlaps(
    call: Callable[..., _library.Answer], kind: Type[T], parts: object, given: bytes
) -> Tuple[_library.Answer, List[T]]:
    """Return the library's answer to a list of tracts, and its overlaps, in a second call if there are many."""
    overlaps = (kind * _USUAL_OVERLAPS)()  # type: ignore[operator]
    answer = call(parts, given, len(given), overlaps, len(overlaps))
    if answer.verdict == _library.NO_ROOM:
        overlaps = (kind * answer.length)()
        answer = call(parts, given, len(given), overlaps, len(overlaps))
    return answer, overlaps[: answer.length]


def _pair_of(overlap: Union[_library.Overlap, _library.LotsOverlap]) -> Tuple[int, int]:
    """Return the indexes of two tracts that overlap."""
    return overlap.first - FIRST_TRACT, overlap.second - FIRST_TRACT


def _acres_of(overlap: _library.LotsOverlap) -> Optional[Decimal]:
    """Return the acreage of an overlap by a lot table, unless the table lacks one of its lots."""
    return None if overlap.lacking else acres_of_hundredths(overlap.hundredths)


def _tract_of(tract: _library.Tract) -> Tract:
    """Return a tract. Names are ASCII."""
    return Tract(tract.name.decode("ascii"), acres_of_hundredths(tract.hundredths))


def list_of(tracts: Iterable[Tuple[Text, Described]]) -> bytes:
    """Return the list of tracts (CSV) with these names and descriptions. Every field is quoted.

    Land is described by its canonical text. Raise `ValueError` if that is too long for a description: it would be
    refused like one that is wrong.
    """
    records = [b"name,description"]
    for name, given in tracts:
        records.append(_quoted(name) + b"," + _quoted(_text_of(given) if isinstance(given, Land) else given))
    return b"\n".join(records) + b"\n"


def _text_of(land: Land) -> str:
    """Return the canonical text of land that is in a list of tracts."""
    text = land.text
    if len(text) > _library.DESCRIPTION_MOST:
        raise ValueError(
            f"this land has so many parts that its text is longer than {_library.DESCRIPTION_MOST:,} bytes, the limit "
            "of a description in a list of tracts; Plats has no such limit"
        )
    return text


def _quoted(field: Text) -> bytes:
    """Return a field in quotes, with each quote inside it doubled."""
    return b'"' + encoded(field).replace(b'"', b'""') + b'"'
