"""Reads a lot table by the rules in docs/LOTS-FORMAT.md, without any code of the library.

`table_of(text)` is the table, or raises `Faulty` with its first fault.
"""

import csv
import datetime
import enum
import io
import re
from typing import NamedTuple, Optional

from descriptions import Refused, aliquot_parts_of
from places import QUARTER_QUARTERS, SECTIONS, STANDARD, WHOLE, part

LIMIT = 65_536

HEADING = ["section", "lot", "acres"]
HEADING_WITH_LAND = [*HEADING, "land"]

#: The highest number of a lot, and the most lots of a section and of a township.
NUMBER_MOST = 99
LOTS_MOST = 64
TOWNSHIP_LOTS_MOST = 1024

#: The most quarter-quarters that can be divided among lots and other land.
DIVIDED_MOST = 128

SHORT_NUMBER = re.compile(r"[0-9]{1,2}")
ACRES = re.compile(r"[0-9]{1,3}\.[0-9]{2}")
DATE = re.compile(r"[0-9]{4}-[0-9]{2}-[0-9]{2}")


class Fault(enum.Enum):
    """What can be wrong with a lot table."""

    TOO_LARGE = "the table exceeds 65,536 bytes"
    EMPTY = "there are no records"
    HEADING = "record 1 is not the heading"
    COLUMNS = "a record has the wrong number of fields"
    TOWNSHIP = "record 2 is not a township, or is missing"
    NO_LOT = "the section has no lot with this number, or a number is not written in one or two digits"
    ACRES = "the third field is not acres"
    REPEATED = "an earlier record is for the same lot"
    DATE = "the date of approval is not a date"
    LAND = "the fourth field is not a sequence of aliquot parts"
    TOO_FINE = "an aliquot part is too small"
    SHARED = "a place is in two parts, of the same record or of two"
    TOO_MANY = "a section has more than 64 lots, or the township more than 1,024"
    UNFILLED = "a quarter-quarter with a lot is not made up of lots and of land that is not there"
    DIVIDED = "more than 128 quarter-quarters are divided"


#: The refusal of each fault. If a record has several faults, the one with the lowest number is reported. 100 and 101
#: come after those of all records.
NUMBERS = {
    Fault.TOO_LARGE: 86,
    Fault.EMPTY: 87,
    Fault.HEADING: 88,
    Fault.COLUMNS: 89,
    Fault.TOWNSHIP: 90,
    Fault.NO_LOT: 91,
    Fault.ACRES: 92,
    Fault.REPEATED: 93,
    Fault.DATE: 95,
    Fault.LAND: 96,
    Fault.TOO_FINE: 97,
    Fault.SHARED: 98,
    Fault.TOO_MANY: 99,
    Fault.UNFILLED: 100,
    Fault.DIVIDED: 101,
}


class Faulty(Exception):
    """A fault of a lot table, and its place: the limit in bytes, or a record."""

    def __init__(self, fault, at):
        super().__init__(fault, at)
        self.fault = fault
        self.at = at


class Lot(NamedTuple):
    """A lot: its returned acreage in hundredths, or None if the table lacks it; its places; its record."""

    hundredths: Optional[int]
    places: int
    record: int


class Section:
    """The lots of a section, by number, and the places that the plat does not have."""

    def __init__(self, lots=None):
        self.lots = lots or {}
        self.missing = 0
        self.in_lots = 0
        for lot in self.lots.values():
            self.in_lots |= lot.places

    @property
    def there(self):
        """The places that the plat has."""
        return WHOLE & ~self.missing


#: A section without lots, all of which is there.
REGULAR = Section()


class Table(NamedTuple):
    """A township, its plat's date of approval or None, and the sections that are not regular."""

    township: tuple
    date: Optional[datetime.date]
    sections: dict

    def section(self, number):
        return self.sections.get(number, REGULAR)


def table_of(text):
    """The lot table in a text. Raise `Faulty` with its first fault."""
    if len(text) > LIMIT:
        raise Faulty(Fault.TOO_LARGE, LIMIT)
    text = text.removeprefix(b"\xef\xbb\xbf")
    records = [record for record in csv.reader(io.StringIO(text.decode("latin-1"), newline="")) if record]
    if not records:
        raise Faulty(Fault.EMPTY, 1)
    if records[0] not in (HEADING, HEADING_WITH_LAND):
        raise Faulty(Fault.HEADING, 1)
    township, date = _township(records)
    standard = records[0] == HEADING
    table = Table(township, date, _standard_sections() if standard else {})
    read = _read_standard if standard else _read_land
    seen = set()
    for number, fields in enumerate(records[2:], 3):
        faults = read(table, fields, number, seen)
        if faults:
            raise Faulty(min(faults, key=NUMBERS.get), number)
    if not standard:
        _check_filled(table)
        _check_divided(table, len(records))
    return table


def _township(records):
    """The township and the date in record 2."""
    if len(records) < 2:
        raise Faulty(Fault.TOWNSHIP, 2)
    fields = records[1]
    if len(fields) not in (5, 6):
        raise Faulty(Fault.COLUMNS, 2)
    mark, number, north_south, range_number, east_west, *dated = fields
    numbers = _short(number), _short(range_number)
    if mark != "T" or north_south not in ("N", "S") or east_west not in ("E", "W") or not all(numbers):
        raise Faulty(Fault.TOWNSHIP, 2)
    date = None
    if dated:
        date = _date(dated[0])
        if date is None:
            raise Faulty(Fault.DATE, 2)
    return (numbers[0], north_south, numbers[1], east_west), date


def _date(text):
    if not DATE.fullmatch(text):
        return None
    try:
        return datetime.date(*map(int, text.split("-")))
    except ValueError:
        return None


def _short(text):
    """A number of one or two digits, or None."""
    return int(text) if SHORT_NUMBER.fullmatch(text) else None


def _acres(text):
    """Acres in hundredths, or None."""
    return (int(text.replace(".", "")) or None) if ACRES.fullmatch(text) else None


def _standard_sections():
    """The standard lots, none of which has acres yet."""
    return {number: Section({lot: Lot(None, part(steps), 0) for lot, steps in lots.items()})
            for number, lots in STANDARD.items()}


def _read_standard(table, fields, record, seen):
    """Add the record of a standard lot to the table, or return its faults."""
    if len(fields) != len(HEADING):
        return {Fault.COLUMNS}
    section, number, hundredths = _short(fields[0]), _short(fields[1]), _acres(fields[2])
    faults = set()
    if number not in STANDARD.get(section, ()):
        faults.add(Fault.NO_LOT)
    elif (section, number) in seen:
        faults.add(Fault.REPEATED)
    if hundredths is None:
        faults.add(Fault.ACRES)
    if not faults:
        seen.add((section, number))
        lots = table.sections[section].lots
        lots[number] = Lot(hundredths, lots[number].places, record)
    return faults


def _read_land(table, fields, record, seen):
    """Add the record of a lot, or of land that is not there, to the table, or return its faults."""
    if len(fields) != len(HEADING_WITH_LAND):
        return {Fault.COLUMNS}
    is_lot = bool(fields[1] or fields[2])
    section, number, hundredths = _short(fields[0]), _short(fields[1]), _acres(fields[2])
    faults = set()
    if section not in SECTIONS or (is_lot and not number):
        faults.add(Fault.NO_LOT)
    elif (section, number) in seen:
        faults.add(Fault.REPEATED)
    if is_lot and hundredths is None:
        faults.add(Fault.ACRES)
    places = _places(fields[3], faults)
    here = table.sections.setdefault(section, Section()) if section in SECTIONS else Section()
    if places & (here.in_lots | here.missing):
        faults.add(Fault.SHARED)
    if is_lot and (len(here.lots) >= LOTS_MOST or len(seen) >= TOWNSHIP_LOTS_MOST):
        faults.add(Fault.TOO_MANY)
    if not faults and is_lot:
        seen.add((section, number))
        here.lots[number] = Lot(hundredths, places, record)
        here.in_lots |= places
    elif not faults:
        here.missing |= places
    return faults


def _places(land, faults):
    """The places of a sequence of aliquot parts. Its faults are added."""
    try:
        parts = aliquot_parts_of(land.encode("latin-1"))
    except Refused:
        faults.add(Fault.LAND)
        return 0
    places = 0
    for each in parts:
        more = part(each.steps)
        if more is None:
            faults.add(Fault.TOO_FINE)
        elif places & more:
            faults.add(Fault.SHARED)
        places |= more or 0
    return places


def _check_filled(table):
    """Raise `Faulty` if a quarter-quarter with a lot contains other land: at the first record of such a lot."""
    at = None
    for section in table.sections.values():
        aliquot = WHOLE & ~section.in_lots & ~section.missing
        open_places = 0
        for places in QUARTER_QUARTERS.values():
            if places & aliquot and places & section.in_lots:
                open_places |= places
        for lot in section.lots.values() if open_places else ():
            if lot.places & open_places:
                at = lot.record if at is None else min(at, lot.record)
    if at is not None:
        raise Faulty(Fault.UNFILLED, at)


def _check_divided(table, last):
    """Raise `Faulty` at the last record if too many quarter-quarters have places of different lots or other land."""
    count = 0
    for section in table.sections.values():
        others = WHOLE & ~section.in_lots & ~section.missing
        sets = [*(lot.places for lot in section.lots.values()), section.missing, others]
        count += sum(sum(bool(places & each) for each in sets) > 1 for places in QUARTER_QUARTERS.values())
    if count > DIVIDED_MOST:
        raise Faulty(Fault.DIVIDED, last)
