"""What readings do, in words: the phrases of a text, and what each is in a reading."""
from __future__ import annotations

import re
from bisect import bisect_left, bisect_right
from typing import Iterable, Iterator, List, NamedTuple, Optional, Sequence, Set, Tuple

from ._readings import SET_ASIDE, Change, Reading

#: Rules that leave out a phrase, which is no part of what is around it.
_LEFT_OUT = {"mark", "repeated", "moved section", "moved heading", "meridian", "acreage", "label", SET_ASIDE}

#: What a phrase that is written elsewhere is, by the rules of its changes.
_MOVED = {
    ("moved section",): "the section",
    ("moved heading",): "township and range",
    ("moved heading", "moved section"): "section, township, and range",
}

#: What is said of a reading that is not the changed text itself, by its manner.
MANNERS_SAID = {
    "lots named": "the aliquot part includes lots, which are named in its place",
    "remainder": "this is the land that is left without the exception",
}

_NOTHING = "is left out: it means nothing here"

#: Why a mark is another one.
_REASONS = {"comma": ": a part of the same section follows", "semicolon": ": another section follows"}

#: Sections, in the plural.
_SECTIONS = re.compile(r"\s*sec(?:tion)?s\b", re.IGNORECASE)

#: What ends a word.
_WORD = re.compile(rb"[\s,;:]")

#: What ends a phrase of the text, besides what is left out.
_ENDS = re.compile(rb"[,;:\n]")


class Phrase(NamedTuple):
    """A phrase of the text, and what it is in a reading."""

    text: str
    #: What it is, and why, such as `is a comma: a part of the same section follows`.
    meaning: str


class _Piece(NamedTuple):
    """Bytes of the text, and the changes in them."""

    start: int
    end: int
    changes: List[Change]


def tidy(description: str) -> str:
    """Return a description of the same land on one line, in the usual characters.

    >>> tidy("sec. 14:  NE¼NE¼ , SW¼")
    'sec. 14, NE1/4NE1/4, SW1/4.'
    """
    plain = description.replace("¼", "1/4").replace("½", "1/2").replace(":", ",")
    words = re.sub(r"[ \t\r\n\f\v]+", " ", plain).strip(" ").rstrip(".")
    return re.sub(r" ?([,;]) ?", r"\1 ", words).rstrip(" ") + "."


def phrases_of(given: bytes, changes: Sequence[Change]) -> List[Phrase]:
    """Return the phrases of a text that changes make something else, from left to right."""
    rows = list(_rows(given, [change for change in changes if change.rule in _LEFT_OUT]))
    # Where a section, or a township and range, is written that is left out elsewhere.
    moved_to = {change.start for change in changes if change.rule == "copied"}
    kept = [
        change
        for change in changes
        if change.rule not in _LEFT_OUT and not (change.start == change.end and change.start in moved_to)
    ]
    found = [phrase for row in rows for phrase in _left_out(given, row)]
    for piece in _pieces(given, rows, kept):
        before = " ".join(_shown(given[piece.start : piece.end]).split())
        after = " ".join(_changed(given, piece).split())
        if before != after:
            meaning = f"is {after}{_reason(before, piece.changes)}" if after else _NOTHING
            found.append((piece.start, Phrase(before, meaning)))
    return [phrase for _, phrase in sorted(found)]


def condition_of(given: bytes, reading: Reading, others: Sequence[Reading]) -> Optional[str]:
    """Return the condition of a reading among others, if all of them differ in one of two ways.

    White space may be within a part, or between two parts; or an `of` may be for one part, or for both.
    """
    shared = _made_by_all(others)
    deciding = {change.rule for each in others for change in _deciding(each, shared)}
    own = _deciding(reading, shared)
    if deciding == {"copied step"}:
        return "if the `of` is for both parts" if own else "as it is written"
    between = [change for change in own if change.rule == "comma"]
    if not deciding or not deciding <= {"comma", "one part"}:
        return None
    if not between:
        return "as it is written"
    if len(between) < len(own):
        after = " and ".join(_shown(_WORD.split(given[: change.start])[-1]) for change in between)
        return f"if only the space after {after} separates two parts"
    return "if the space separates two parts" if len(own) == 1 else "if each space separates two parts"


def shared_of(readings: Sequence[Reading]) -> List[Change]:
    """Return the changes that all readings make."""
    shared = _made_by_all(readings)
    return [change for change in readings[0].changes if _is_shared(change, shared)]


def _deciding(reading: Reading, shared: Set[Change]) -> List[Change]:
    """Return the changes that not all readings make."""
    return [change for change in reading.changes if not _is_shared(change, shared)]


def _made_by_all(readings: Sequence[Reading]) -> Set[Change]:
    """Return the changes that all readings of a text make in the same way."""
    first, *others = (set(each.changes) for each in readings)
    return first.intersection(*others)


def _is_shared(change: Change, shared: Set[Change]) -> bool:
    """Return whether all readings of a text make a change. Each leaves out what the caller says is not land."""
    return change.rule == SET_ASIDE or change in shared


def _rows(given: bytes, changes: Iterable[Change]) -> Iterator[List[Change]]:
    """Yield what is left out, in rows between which there is more than white space."""
    row: List[Change] = []
    for change in changes:
        if row and given[row[-1].end : change.start].strip():
            yield row
            row = []
        row.append(change)
    if row:
        yield row


def _left_out(given: bytes, row: Sequence[Change]) -> Iterator[Tuple[int, Phrase]]:
    """Yield the phrases of a row, each with its place, but for those that are assumed to mean nothing."""
    moved = [change for change in row if change.rule.startswith("moved")]
    if moved:
        text = _shown(given[moved[0].start : moved[-1].end])
        meaning = f"is {_MOVED[tuple(sorted({change.rule for change in moved}))]}"
        if _SECTIONS.match(text):
            meaning = "is several sections: the land is written for each of them"
        yield moved[0].start, Phrase(" ".join(text.split()).strip(",; "), meaning)
    if all(change.rule == "mark" for change in row):
        for change in row:
            yield change.start, Phrase(" ".join(_shown(given[change.start : change.end]).split()), _NOTHING)


def _pieces(given: bytes, rows: Sequence[Sequence[Change]], changes: Sequence[Change]) -> Iterator[_Piece]:
    """Yield the pieces of the text between its marks, and between what is left out, that have changes."""
    ends = {0, len(given)}
    for row in rows:
        ends |= {row[0].start, row[-1].end}
    for mark in _ENDS.finditer(given):
        ends |= {mark.start(), mark.end()}
    places = sorted(ends)
    starts = [change.start for change in changes]
    for start, end in zip(places, places[1:]):
        beginning = changes[bisect_left(starts, start) : bisect_right(starts, end)]
        inside = [change for change in beginning if change.end <= end]
        # What is written at the end of a piece is not also written at the beginning of the next one.
        inside = [change for change in inside if change.start < change.end or start < change.start]
        if inside and given[start:end].strip():
            yield _Piece(start, end, inside)


def _changed(given: bytes, piece: _Piece) -> str:
    """Return what changes make of a piece."""
    at, made = piece.start, ""
    for change in piece.changes:
        made += _shown(given[at : change.start]) + change.written
        at = change.end
    return made + _shown(given[at : piece.end])


def _reason(before: str, changes: Sequence[Change]) -> str:
    """Return why a piece is something else, if that does not show."""
    return _REASONS.get(changes[0].rule, "") if len(before) == 1 else ""


def _shown(part: bytes) -> str:
    """Return bytes of the text as a terminal can show them."""
    text = part.decode("utf-8", "backslashreplace")
    return "".join(each if each.isprintable() or each in "\t\r\n" else ascii(each)[1:-1] for each in text)
