"""The fields that are added to records."""
from __future__ import annotations

import functools
from decimal import Decimal
from typing import Any, Dict, List, NamedTuple, Optional, Sequence

from .._figures import acres_of_hundredths
from .columns import ADDED
from .plats import Found

_CACHED = 1 << 14

#: The index of the note among the fields.
_NOTE = ADDED.index("note")

#: The acreage of some hundredths, as a number and as a text. The same few acreages are common: they are made once.
acres_of = functools.lru_cache(_CACHED)(acres_of_hundredths)
acres_text_of = functools.lru_cache(_CACHED)(lambda hundredths: str(acres_of_hundredths(hundredths)))


class Located(NamedTuple):
    """The answer to a description of land in several townships that is accepted."""

    acres: Decimal
    canonical: str
    #: The note on the first place that can be read in two ways, if there is one.
    note: Optional[str]
    #: The files by which it is answered, and the acreage in each township.
    files: str
    figures: str


class Added:
    """The fields that are added to some records.

    Nearly all descriptions are accepted, and have an acreage and a canonical description, and nothing else.
    """

    def __init__(
        self,
        hundredths: List[int],
        canonical: List[str],
        files: Optional[List[str]] = None,
        figures: Optional[List[str]] = None,
    ) -> None:
        self.hundredths = hundredths
        self.canonical = canonical
        #: The file by which each is answered. `None` if the answers do not name files.
        self.files = files
        #: The acreage of each in each township. `None` if the answers do not name townships.
        self.figures = figures
        #: All fields of the other records, by their index.
        self.others: Dict[int, List[Any]] = {}

    def put(self, indexes: Sequence[int], hundredths: List[int], canonical: List[str], file: str) -> None:
        """Put these at the indexes, which are in order. All of them are answered by a file."""
        self._put_file(indexes, file)
        if len(indexes) == len(self.hundredths):
            self.hundredths, self.canonical = hundredths, canonical
            return
        for index, number, text in zip(indexes, hundredths, canonical):
            self.hundredths[index] = number
            self.canonical[index] = text

    def _put_file(self, indexes: Sequence[int], file: str) -> None:
        if self.files is not None:
            for index in indexes:
                self.files[index] = file

    def put_fault(self, indexes: Sequence[int], found: Found) -> None:
        """Put the reason why the records at the indexes are not answered."""
        self._put_file(indexes, found.file)
        number, at = found.refusal or (None, None)
        for index in indexes:
            self.others[index] = [None, number, at, found.fault, None, None, *self._file_of(index)]

    def _file_of(self, index: int) -> List[Any]:
        """Return the fields of the file and of the acreage in each township, if there are any."""
        return [each[index] or None for each in (self.files, self.figures) if each is not None]

    def put_refusal(self, index: int, number: int, at: int, sentence: str) -> None:
        """Put the refusal of a description."""
        self.others[index] = [None, number, at, sentence, None, None, *self._file_of(index)]

    def put_located(self, index: int, located: Located) -> None:
        """Put the answer to a description that is accepted."""
        for kept, given in ((self.files, located.files), (self.figures, located.figures)):
            if kept is not None:
                kept[index] = given
        fields = [located.acres, None, None, None, located.note, located.canonical]
        self.others[index] = [*fields, *self._file_of(index)]

    def put_figures(self, indexes: Sequence[int], township: str) -> None:
        """Put the acreage in their only township for those that are accepted, if the answers name townships."""
        if self.figures is None:
            return
        for index in indexes:
            fields = self.others.get(index)
            acres = acres_text_of(self.hundredths[index]) if fields is None else fields[0]
            if acres is not None:
                self.figures[index] = f"{township}: {acres}"
                if fields is not None:
                    self.others[index] = [*fields[:-1], self.figures[index]]

    def put_note(self, index: int, note: str) -> None:
        """Put the note on a description that is accepted."""
        fields = self.fields_of(index)
        fields[_NOTE] = note
        self.others[index] = fields

    def extend(self, index: int, fields: Sequence[Any]) -> None:
        """Add further fields to a record."""
        self.others[index] = [*self.fields_of(index), *fields]

    def fields_of(self, index: int) -> List[Any]:
        """Return the fields that are added to a record."""
        fields = self.others.get(index)
        if fields is None:
            acres, canonical = acres_of(self.hundredths[index]), self.canonical[index]
            return [acres, None, None, None, None, canonical, *self._file_of(index)]
        return fields

    def all_fields(self) -> List[List[Any]]:
        """Return the fields that are added to each record."""
        return [self.fields_of(index) for index in range(len(self.hundredths))]
