"""The fields that are added to records."""
from __future__ import annotations

import itertools
from dataclasses import dataclass, field
from typing import Any, Dict, Iterable, Iterator, List, Optional, Sequence, Tuple, Union

from .._account import Account
from .._full import FullAnswers
from .._ignored import Phrases
from .._phrases import tidy
from .._plat import Plat
from .._readings import Readings
from .added import Added
from .cells import text_of
from .columns import ADDED, SUGGESTED
from .files import Basis
from .plain import PlainRows
from .plats import MISSING, Found, Plats
from .records import Record
from .rows import ReadRows, rows_of

#: The records of a piece of a list.
Rows = Union[PlainRows, ReadRows]


@dataclass
class Counts:
    """The numbers of records that are accepted, and of those that are not."""

    accepted: int = 0
    refused: int = 0
    #: The number of descriptions with bytes that are not valid in the encoding of the list.
    undecoded: int = 0
    #: The numbers of records for whose township there is no file, by the sentence that says so.
    missing: Dict[str, int] = field(default_factory=dict)

    @property
    def all(self) -> int:
        """The number of records."""
        return self.accepted + self.refused

    def add(self, other: Counts) -> None:
        """Add the numbers of other records."""
        self.accepted += other.accepted
        self.refused += other.refused
        self.undecoded += other.undecoded
        for sentence, number in other.missing.items():
            self.add_missing(sentence, number)

    def add_missing(self, sentence: str, number: int) -> None:
        """Add records for whose township there is no file."""
        self.missing[sentence] = self.missing.get(sentence, 0) + number


class Answers:
    """Answers records, and counts them."""

    def __init__(self, plats: Plats, column: int, account: Account, ignore: Optional[Phrases] = None) -> None:
        """Answer records by these plats; also with their readings, if there are phrases to ignore, or an empty list."""
        self.plats = plats
        self._column = column
        self._account = account
        self._ignore = ignore
        self.counts = Counts()

    @property
    def columns(self) -> Sequence[int]:
        """The indexes of the columns that are used."""
        return [self._column, *self.plats.columns]

    def count_earlier(self, record: Record, added: Sequence[str]) -> None:
        """Count a record that was answered before."""
        rows = rows_of([record], "")
        self.find_first_meridian(rows)
        if self.plats.names_files and added[len(ADDED) : len(ADDED) + 1] == [MISSING]:
            for sentence in self._missing_in(rows):
                self.counts.add_missing(sentence, 1)
        if added[:1] != [""]:
            self.counts.accepted += 1
        else:
            self.counts.refused += 1

    def _missing_in(self, rows: Rows) -> List[str]:
        """Return the sentences on the townships of a record for which there is no file."""
        fields, = self._plat_fields(rows)
        return [self.plats.plat_of(*fields).fault]

    def find_first_meridian(self, rows: Rows) -> None:
        """Look for the first meridian in records that are not answered here."""
        for index, fields in enumerate(self._plat_fields(rows)):
            if not self.plats.awaits_first_meridian():
                return
            if index not in rows.faults:
                self.plats.plat_of(*fields)

    def added_to(self, record: Record) -> List[Any]:
        """Return the fields that are added to a record, in the order of the columns that are added."""
        return self.added_to_all(rows_of([record], "")).fields_of(0)

    def added_to_all(self, rows: Rows) -> Added:
        """Return the fields that are added to records."""
        added = self._nothing_added(rows.number)
        for index, fault in rows.faults.items():
            self._put_unanswered(Found(None, fault=fault), [index], added)
        self._answer_rows(rows, self._descriptions(rows), added)
        return added

    def _nothing_added(self, number: int) -> Added:
        """Return the fields of so many records, before any of them is answered."""
        files = [""] * number if self.plats.names_files else None
        return Added([0] * number, [""] * number, files)

    def _descriptions(self, rows: Rows) -> Sequence[str]:
        """Return the descriptions of records."""
        descriptions = rows.column(self._column)
        return list(map(_description, descriptions)) if isinstance(rows, ReadRows) else descriptions

    def _answer_rows(self, rows: Rows, descriptions: Sequence[str], added: Added) -> None:
        """Answer the records without a fault, and count them."""
        for found, indexes in self._by_plat(rows):
            self._answer_by(found, descriptions, indexes, added)

    def _answer_by(self, found: Found, descriptions: Sequence[str], indexes: Sequence[int], added: Added) -> None:
        """Answer the records with these indexes by what is found for them, if anything is, and count them."""
        if found.by is None:
            self._put_unanswered(found, indexes, added)
        else:
            self._answer(found.by, found.file, descriptions, indexes, added)

    def _put_unanswered(self, found: Found, indexes: Sequence[int], added: Added) -> None:
        """Put the reason why records are not answered, and count them."""
        added.put_fault(indexes, found)
        self.counts.refused += len(indexes)
        if found.file == MISSING:
            self.counts.add_missing(found.fault, len(indexes))
        if self._ignore is not None:
            for index in indexes:
                added.extend(index, [None] * len(SUGGESTED))

    def _by_plat(self, rows: Rows) -> Iterator[Tuple[Found, Sequence[int]]]:
        """Yield the plats of the records without a fault, or the reasons that there are none, and the indexes."""
        if not (self.plats.columns or rows.faults):
            yield self.plats.plat_of(), range(rows.number)
            return
        indexes: Dict[Tuple[Any, ...], List[int]] = {}
        for index, fields in enumerate(self._plat_fields(rows)):
            if index not in rows.faults:
                indexes.setdefault(fields, []).append(index)
        for fields, found in indexes.items():
            yield self.plats.plat_of(*fields), found

    def _plat_fields(self, rows: Rows) -> Iterable[Tuple[Any, ...]]:
        """Return what the plat of each record depends on."""
        columns = self.plats.columns
        return zip(*map(rows.column, columns)) if columns else itertools.repeat((), rows.number)

    def _answer(
        self, by: Basis, file: str, descriptions: Sequence[str], indexes: Sequence[int], added: Added
    ) -> None:
        """Answer the descriptions with these indexes on a plat, or by a lot table, and count them."""
        chosen = [descriptions[index] for index in indexes]
        answers = self._full_answers(by, chosen)
        added.put(indexes, answers.hundredths, answers.texts(on_one_line=True), file)
        for place in answers.noted:
            added.put_note(indexes[place], answers.sentence(place))
        for place in answers.refused:
            added.put_refusal(indexes[place], *answers.refusal(place), answers.sentence(place))
            self.counts.undecoded += is_undecoded(chosen[place])
        self.counts.refused += len(answers.refused)
        self.counts.accepted += len(chosen) - len(answers.refused)
        if self._ignore is not None:
            for index, description in zip(indexes, chosen):
                added.extend(index, suggested_fields(self._readings(by, description, self._ignore)))

    def _full_answers(self, by: Basis, descriptions: Sequence[str]) -> FullAnswers:
        """Return the answers to descriptions. Only on a plat is there a choice of accounts."""
        return by._full_answers(descriptions, self._account) if isinstance(by, Plat) else by._full_answers(descriptions)

    def _readings(self, by: Basis, description: str, ignore: Phrases) -> Readings:
        """Return the readings of a description. Only on a plat is there a choice of accounts."""
        if isinstance(by, Plat):
            return by.suggest(description, self._account, ignore)
        return by.suggest(description, ignore)


def suggested_fields(readings: Readings) -> List[Any]:
    """Return the fields on the readings of a description. Only if it has one reading does that have fields, and only if
    it has none is something unread."""
    if len(readings) != 1:
        return [None, len(readings), None, None, why_none(readings)]
    reading, = readings
    assumed = "; ".join(dict.fromkeys(reading.assumptions)) or None
    return [tidy(reading.text), 1, assumed, reading.acres, None]


def is_undecoded(description: str) -> bool:
    """Return whether a description has bytes that are not valid in the encoding of the list."""
    return any("\udc80" <= each <= "\udcff" for each in description)


def why_none(readings: Readings) -> Optional[str]:
    """Return why a description has no reading, in words, or `None` if nothing is known."""
    reason = [f"not expressible: {readings.reason}"] if readings.reason else []
    return "; ".join([*reason, *map(str, readings.unread)]) or None


def _description(cell: Any) -> str:
    """Return the description in a cell of a workbook, or in a field."""
    return cell if isinstance(cell, str) else text_of(cell)
