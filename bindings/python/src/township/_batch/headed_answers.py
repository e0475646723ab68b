"""The answers to descriptions that begin with their townships, of which each can have several."""
from __future__ import annotations

from fractions import Fraction
from itertools import chain
from math import prod
from typing import Any, Dict, List, Optional, Sequence, Tuple

from .. import _library
from .._account import Account
from .._ignored import Phrases
from .._land import Land
from .._lands import Lands, PartRefused, parts_and_lands
from .._lots import Lots
from .._part_readings import parts_read
from .._phrases import tidy
from .._plat import Plat
from .._readings import Reading
from .._refused import Refusal, Refused
from .._rounding import rounded
from .._spelling import township_in_heading
from .._split import SOURCE, TownshipText, split
from .._standard_lots import reading_with_standard_lots
from .._text import encoded
from .._township import Township
from .added import Added, Located
from .answers import Answers, Rows, is_undecoded, why_none
from .columns import SUGGESTED
from .files import Basis
from .plats import MISSING, Found, HeadedPlats

#: What is between the files, the acreages, and the faults of several townships.
_BETWEEN = "; "

#: The refusals of a description that depend on where lots are.
_FOR_LOTS = (_library.REFUSAL_LAND_NO_LOT, _library.REFUSAL_LAND_ON_LOT)

#: The fields of a record in the columns that its plat depends on.
_Fields = Tuple[Any, ...]


class _Unanswered(Exception):
    """A record is not answered."""

    def __init__(self, fault: str, refusal: Optional[Refusal] = None, missing: Sequence[str] = ()) -> None:
        super().__init__(fault, refusal, missing)
        #: Why, in words.
        self.fault = fault
        self.refusal = refusal
        #: The sentences on the townships for which there is no file.
        self.missing = missing


class HeadedAnswers(Answers):
    """Answers records whose descriptions begin with their townships, and counts them.

    The records with one township are answered by its file together, and each record with several by itself.
    """

    def __init__(self, plats: HeadedPlats, column: int, account: Account, ignore: Optional[Phrases] = None) -> None:
        # Here, readings do not depend on what a record is answered by.
        super().__init__(plats, column, account)
        self._headed = plats
        self._ignore_in_parts = ignore

    def _missing_in(self, rows: Rows) -> List[str]:
        """Return the sentences on the townships of a record for which there is no file."""
        fields, = self._plat_fields(rows)
        description, = self._descriptions(rows)
        return _missing(self._found_for([part.township for part in split(encoded(description))], fields))

    def _nothing_added(self, number: int) -> Added:
        """Return the fields of so many records, before any of them is answered."""
        return Added([0] * number, [""] * number, [""] * number, [""] * number)

    def _answer_rows(self, rows: Rows, descriptions: Sequence[str], added: Added) -> None:
        """Answer the records without a fault, and count them."""
        alone: Dict[Tuple[Township, _Fields], List[int]] = {}
        for index, fields in enumerate(self._plat_fields(rows)):
            if index not in rows.faults:
                township = self._only_township(index, fields, descriptions[index], added)
                if township is not None:
                    alone.setdefault((township, fields), []).append(index)
        for (township, fields), indexes in alone.items():
            self._answer_by(self._headed.plat_in(township, *fields), descriptions, indexes, added)
            added.put_figures(indexes, str(township))
        ignore = self._ignore_in_parts
        if ignore is not None:
            for index, fields in enumerate(self._plat_fields(rows)):
                has_fault = index in rows.faults
                added.extend(index, _NO_READINGS if has_fault else self._suggested(descriptions[index], fields, ignore))

    def _only_township(self, index: int, fields: _Fields, description: str, added: Added) -> Optional[Township]:
        """Return the only township of a record. If it has several, or none, answer it."""
        given = encoded(description)
        try:
            parts = _parts_in(given)
            if len(parts) == 1:
                return _township_of(parts[0])
            added.put_located(index, self._located(given, fields))
        except _Unanswered as unanswered:
            file = MISSING if unanswered.missing else ""
            added.put_fault([index], Found(None, file, unanswered.fault, unanswered.refusal))
            self.counts.refused += 1
            self.counts.undecoded += is_undecoded(description)
            for sentence in unanswered.missing:
                self.counts.add_missing(sentence, 1)
            return None
        self.counts.accepted += 1
        return None

    def _located(self, given: bytes, fields: _Fields) -> Located:
        """Return the answer to a description by the files of its townships. Raise `_Unanswered` if there is none."""
        try:
            parts = parts_and_lands(given, lambda township: self._table_of(township, fields))
        except PartRefused as error:
            refused = error.refused
            self._check_lots_of(given, error, fields)
            raise _Unanswered(_sentence_of(refused), Refusal(refused.number, error.at)) from None
        lands = Lands(land for _, land in parts).by_township()
        by = self._by_township(list(lands), fields)
        areas = {township: self._area(by[township], land) for township, land in lands.items()}
        figures = (f"{township}: {rounded(area)}" for township, area in areas.items())
        return Located(
            acres=rounded(sum(areas.values(), Fraction(0))),
            canonical=Lands(lands.values()).on_one_line(),
            note=_first_note([(part, by[land.township]) for part, land in parts]),
            files=_BETWEEN.join(dict.fromkeys(each.file for each in self._found_for(list(lands), fields))),
            figures=_BETWEEN.join(figures),
        )

    def _table_of(self, township: Township, fields: _Fields) -> Optional[Lots]:
        """Return the lot table of a township, if it says where its lots lie."""
        by = self._headed.plat_in(township, *fields).by
        return by if isinstance(by, Lots) and by.has_land else None

    def _check_lots_of(self, given: bytes, error: PartRefused, fields: _Fields) -> None:
        """Raise `_Unanswered` if a part is refused for lots of a township for which there is no plat: nobody knows them."""
        if error.refused.number in _FOR_LOTS:
            found = [self._headed.plat_in(part.township, *fields) for part in split(given) if part.start == error.start]
            for each in found:
                if each.by is None:
                    raise _Unanswered(each.fault, missing=_missing(found)) from None

    def _by_township(self, townships: Sequence[Township], fields: _Fields) -> Dict[Township, Basis]:
        """Return what land in each township is measured by. Raise `_Unanswered` if there is nothing for one."""
        found = self._found_for(townships, fields)
        by = {township: each.by for township, each in zip(townships, found) if each.by is not None}
        if len(by) < len(found):
            faults = dict.fromkeys(each.fault for each in found if each.by is None)
            raise _Unanswered(_BETWEEN.join(faults), missing=_missing(found))
        return by

    def _found_for(self, townships: Sequence[Township], fields: _Fields) -> List[Found]:
        return [self._headed.plat_in(township, *fields) for township in townships]

    def _area(self, by: Basis, land: Land) -> Fraction:
        """Return the area of land. Raise `_Unanswered` if a lot table lacks one of its lots."""
        try:
            return by.area(land, self._account) if isinstance(by, Plat) else by.area(land)
        except Refused as refused:
            fault = f"{land.township}: {refused.sentence}"
            raise _Unanswered(fault, Refusal(refused.number, refused.at)) from None

    def _suggested(self, description: str, fields: _Fields, ignore: Phrases) -> List[Any]:
        """Return the fields on the readings of a description: if each of its parts has one, their text and acreage."""
        try:
            parts = parts_read(encoded(description), ignore, lambda township: self._table_of(township, fields))
        except Refused:
            return _NO_READINGS
        number = prod(len(readings) for _, readings in parts)
        if number != 1:
            unread = filter(None, (why_none(readings) for _, readings in parts if not readings))
            return [None, number, None, None, _BETWEEN.join(unread) or None]
        chosen = [self._with_lots(readings[0], fields) for _, readings in parts]
        text = _BETWEEN.join(tidy(reading.text).rstrip(".") for reading in chosen) + "."
        assumed = _BETWEEN.join(dict.fromkeys(chain.from_iterable(reading.assumptions for reading in chosen)))
        try:
            return [text, 1, assumed or None, self._located(encoded(text), fields).acres, None]
        except _Unanswered:
            return [text, 1, assumed or None, None, None]

    def _with_lots(self, reading: Reading, fields: _Fields) -> Reading:
        """Return a reading that says whether it assumes the standard lots, unless there is a file for its township."""
        try:
            township = township_in_heading(encoded(reading.text))
        except Refused:
            return reading_with_standard_lots(reading)
        is_known = self._headed.plat_in(township, *fields).by is not None
        return reading if is_known else reading_with_standard_lots(reading)


#: The fields on readings if there are none.
_NO_READINGS: List[Any] = [None] * len(SUGGESTED)


def _parts_in(given: bytes) -> List[TownshipText]:
    """Return the parts of a description. Raise `_Unanswered` if it can't be split."""
    try:
        return split(given)
    except Refused as refused:
        raise _Unanswered(_sentence_of(refused), Refusal(refused.number, refused.at)) from None


def _township_of(part: TownshipText) -> Township:
    """Return the township of a part. Raise `_Unanswered` if it does not begin with a heading."""
    try:
        return part.township
    except Refused as refused:
        raise _Unanswered(_sentence_of(refused), Refusal(refused.number, refused.at)) from None


def _sentence_of(refused: Refused) -> str:
    """Return what is wrong, with the township if it is in the part of one."""
    return refused.sentence if refused.source == SOURCE else f"{refused.source}: {refused.sentence}"


def _missing(found: Sequence[Found]) -> List[str]:
    """Return the sentences on the townships for which there is no file."""
    return list(dict.fromkeys(each.fault for each in found if each.file == MISSING))


def _first_note(parts: Sequence[Tuple[TownshipText, Basis]]) -> Optional[str]:
    """Return the note on the first place of all parts that can be read in two ways, with its township."""
    for part, by in parts:
        notes = by.notes(part.text)
        if notes:
            return f"{part.township}: {notes[0].sentence}"
    return None
