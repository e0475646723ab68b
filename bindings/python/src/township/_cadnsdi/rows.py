"""What a row of the attribute table says, or why it cannot be used."""
from __future__ import annotations

import re
from decimal import Decimal, InvalidOperation
from typing import List, NamedTuple, Optional, Union

from .columns import Columns, Marked
from .plss import PLSS_ID_LENGTH, Division, PlssId, Unusable, division_of, plss_id_of
from .quarters import quarter_quarter_of

#: The codes of a section, of a lot, and of an aliquot part, and that of what there is only one of.
SECTION, LOT, ALIQUOT, ONLY = "SN", "L", "A", "0"

#: How a field without a value may be written, besides empty.
_NOTHING = frozenset(("<Null>", "<null>", "NULL", "Null", "null", "None"))

#: The highest number of a lot, the highest of a section, and the largest acreage of a lot in hundredths.
_LOT_MOST = 99
_SECTION_MOST = 36
_HUNDREDTHS_MOST = 99_999

#: How much a decimal number may differ from hundredths, because of how computers store it.
_NOISE = Decimal("0.000001")

_NUMBER = re.compile("[0-9]{1,3}")


class Unused(NamedTuple):
    """A row that cannot be used, as the report lists it."""

    line: int
    plss_id: str
    section: str
    lot: str
    quarter_quarter: str
    acres: str
    note: str
    reason: str


class BadRow(NamedTuple):
    """A row of which it cannot be said what it is about; perhaps its township is known."""

    township: Optional[PlssId]
    listed: Unused


class LotRow(NamedTuple):
    """A row of a lot. Without a fault, the lot is in the quarter-quarter; its acreage may be on another row."""

    township: PlssId
    section: int
    number: int
    quarter_quarter: str
    hundredths: Optional[int]
    #: How the report lists the row. Its reason is empty if the row has no fault.
    listed: Unused


class OtherRow(NamedTuple):
    """A row of land that is in no lot: an aliquot part, or land that the plat does not have."""

    township: PlssId
    section: int
    quarter_quarter: str
    is_there: bool
    listed: Unused


#: What a row says; `None` if it is not about land by lots and aliquot parts.
Said = Union[LotRow, OtherRow, BadRow, None]


class _Values(NamedTuple):
    """The fields of a row that are read, by the keys of their columns."""

    plss_id: str
    division_id: str
    section: str
    section_type: str
    section_duplicate: str
    quarter: str
    quarter_quarter: str
    lot: str
    acres: str
    division: str
    division_type: str
    suffix: str
    note: str


class RowReader:
    """Reads the rows of an attribute table."""

    def __init__(self, columns: Columns, no_land: Optional[Marked]) -> None:
        self._indexes = columns.in_order(_Values._fields)
        self._width = columns.width
        self._has_types = columns.has("division_type")
        self._no_land = no_land

    def said(self, line: int, fields: List[str]) -> Said:
        """Return what the row that ends on a line says."""
        padded = [*fields[: self._width], *[""] * (1 + max(0, self._width - len(fields)))]
        values = _Values(*[_value(padded[index]) for index in self._indexes])
        is_lot = values.lot not in ("", "0") or values.division_type == LOT
        is_marked = self._no_land is not None and padded[self._no_land.column].strip() == self._no_land.text
        if not (is_lot or is_marked or values.division_type == ALIQUOT or not self._has_types):
            return None
        division = division_of(values.division_id)
        township = values.plss_id or values.division_id[:PLSS_ID_LENGTH]
        section = values.section or (division.number if division else "")
        lot = _lot_of(values) if is_lot else ""
        listed = Unused(line, township, section, lot, values.quarter_quarter, values.acres, values.note, "")
        fault = "the row has more fields than the heading" if len(fields) > self._width else ""
        known: Optional[PlssId] = None
        try:
            known = plss_id_of(township)
            _check_fault(fault or (_lot_fault(values) if is_lot else ""))
            number = _section(section, values, division)
            if is_lot:
                return _lot_row(listed, values, known, number)
            place = quarter_quarter_of(values.quarter, values.quarter_quarter)
            return OtherRow(known, number, place, not is_marked, listed)
        except Unusable as unusable:
            # An aliquot part that is not a quarter-quarter does not matter.
            return BadRow(known, listed._replace(reason=str(unusable))) if is_lot or is_marked else None


def _check_fault(fault: str) -> None:
    """Raise `Unusable` if there is a fault."""
    if fault:
        raise Unusable(fault)


def _lot_row(listed: Unused, values: _Values, township: PlssId, section: int) -> LotRow:
    """Return the row of a lot. Raise `Unusable` if its number is not known."""
    number = _lot_number(listed.lot)
    place, hundredths = "", None
    try:
        place = quarter_quarter_of(values.quarter, values.quarter_quarter)
        hundredths = hundredths_of(values.acres)
    except Unusable as unusable:
        listed = listed._replace(reason=str(unusable))
    return LotRow(township, section, number, place, hundredths, listed)


def _value(field: str) -> str:
    """Return the text of a field, without the spaces around it, or nothing if it has no value."""
    text = field.strip()
    return "" if text in _NOTHING else text


def _lot_of(values: _Values) -> str:
    """Return the number of a row's lot, as it is written."""
    return values.lot if values.lot not in ("", "0") else values.division


def _lot_fault(values: _Values) -> str:
    """Return why it cannot be said which lot a row is of, or nothing."""
    lot, number = _lot_of(values), values.division
    if values.division_type == LOT and number and lot.lstrip("0") != number.lstrip("0"):
        return f"the row names two lots, {lot} and {number}"
    if values.suffix:
        return f"the lot has the suffix `{values.suffix}`: in a lot table, lots have only numbers"
    return "" if lot else "the number of the lot is missing"


def _lot_number(text: str) -> int:
    """Return the number of a lot."""
    if not _NUMBER.fullmatch(text) or not 1 <= int(text) <= _LOT_MOST:
        raise Unusable(f"`{text}` is not the number of a lot, 1 to {_LOT_MOST}")
    return int(text)


def _section(text: str, values: _Values, division: Optional[Division]) -> int:
    """Return the number of a section."""
    kind = values.section_type or (division.type if division else SECTION)
    if kind != SECTION:
        raise Unusable(f"the first division is not a section: its type is `{kind}`")
    if (values.section_duplicate or (division.duplicate if division else ONLY)) != ONLY:
        raise Unusable("the section is a duplicate: a lot table cannot say which of several it is")
    if not _NUMBER.fullmatch(text) or not 1 <= int(text) <= _SECTION_MOST:
        raise Unusable(f"`{text}` is not the number of a section, 1 to {_SECTION_MOST}")
    if division and (values.plss_id not in values.division_id or int(division.number) != int(text)):
        raise Unusable(f"`{values.division_id}` is the identifier of another section")
    return int(text)


def hundredths_of(text: str) -> Optional[int]:
    """Return an acreage in hundredths, or `None` if there is none. Raise `Unusable` if it is not an acreage.

    >>> hundredths_of("38.5"), hundredths_of("38.530000000000001"), hundredths_of("0")
    (3850, 3853, None)
    """
    if not text:
        return None
    try:
        acres = Decimal(text)
    except InvalidOperation:
        raise Unusable(f"`{text}` is not an acreage") from None
    if acres == 0:
        return None
    if not acres.is_finite() or not 0 < acres < 1000:
        raise Unusable(f"`{text}` is not 0.01 to 999.99 acres")
    hundredths = int((100 * acres).to_integral_value())
    if abs(acres - Decimal(hundredths) / 100) > _NOISE:
        raise Unusable(f"`{text}` has more than two decimal places")
    if not 1 <= hundredths <= _HUNDREDTHS_MOST:
        raise Unusable(f"`{text}` is not 0.01 to 999.99 acres")
    return hundredths
