"""The readings of a text with the land of several townships: those of each of its parts."""
from __future__ import annotations

import re
from typing import TYPE_CHECKING, Callable, Iterator, List, NamedTuple, Optional, Sequence, Tuple

from . import _library
from ._ignored import Ignored, Place, blanked, phrases_in, places_within
from ._readings import Readings
from ._refused import Refused
from ._spelling import township_in_heading
from ._split import TownshipText, split
from ._standard_lots import with_standard_lots
from ._suggested import readings_without
from ._text import Text, encoded
from ._township import EastWest, NorthSouth, Township

if TYPE_CHECKING:
    from ._lots import Lots

#: The number of a township or a range, in digits.
_NUMBER = re.compile(rb"(?<![0-9])0*[1-9][0-9]?(?![0-9])")

#: The sides of the base line and of the principal meridian that a township can be on.
_SIDES: Tuple[Tuple[NorthSouth, EastWest], ...] = (("N", "E"), ("N", "W"), ("S", "E"), ("S", "W"))

#: Returns the lot table of a township, or `None` if its plat has the standard lots, or is not known.
TableOf = Callable[[Township], "Optional[Lots]"]


class PartReadings(NamedTuple):
    """The readings of the part of a text that is about one township."""

    part: TownshipText
    readings: Readings


def suggest_parts(text: Text, ignore: Ignored = ()) -> List[PartReadings]:
    """Return the readings of each part of a text with the land of several townships, without acreage.

    The parts are those of `split`. A text in which land is before the first heading is its only part, since its
    readings may begin with that heading. Raise `Refused` if the text is too long (39). Without plats, a reading that
    depends on the lots says that it assumes the standard ones. See `Plats.suggest`.

    >>> for part, readings in township.suggest_parts("T2N-R3W Sec 5: Lots 1, 2; T3N-R3W Sec 32: S2"):
    ...     print(part.township, readings[0].text)
    T. 2 N., R. 3 W. T2N R3W Sec 5: Lots 1, 2
    T. 3 N., R. 3 W. T3N R3W Sec 32: S1/2

    The phrases to `ignore` are left out, as by `suggest`. In the text of a part, there are spaces in their place.

    >>> (part, readings), = township.suggest_parts("Kestrel T2N-R3W Sec 14: N2", ignore=["Kestrel"])
    >>> part.text, readings[0].text
    ('        T2N-R3W Sec 14: N2', 'T2N R3W Sec 14: N1/2')
    """
    parts = parts_read(text, ignore, lambda _: None)
    return [part._replace(readings=with_standard_lots(part.readings)) for part in parts]


def parts_read(text: Text, ignore: Ignored, table_of: TableOf) -> List[PartReadings]:
    """Return the readings of each part of a text, each on the plat of the lot table of its township, if it has one."""
    given = encoded(text)
    aside = phrases_in(ignore)._places_in(given)
    parts = _parts_without(blanked(given, aside), aside)
    return [PartReadings(part, _readings_in(given, part, aside, table_of)) for part in parts]


def _readings_in(given: bytes, part: TownshipText, aside: Sequence[Place], table_of: TableOf) -> Readings:
    """Return the readings of a part of a text without these places of the text."""
    inside = places_within(aside, part.start, part.end)
    moved = [Place(start - part.start, end - part.start) for start, end in inside]
    text = given[part.start : part.end]

    def readings(table: Optional[Lots]) -> Readings:
        return readings_without(text, moved, None if table is None else table._parts)

    township = _township_in(blanked(text, moved))
    if township is not None:
        return readings(table_of(township))
    # The township may be in no heading of the text, but in that of each reading.
    found = readings(None)
    township = _only_township(found)
    if township is not None:
        table = table_of(township)
        return found if table is None else readings(table)
    # A lot that only this plat has, such as one beside a lake, may be the reason that there are no readings.
    for numbered in () if found else _townships_numbered_in(blanked(text, moved)):
        table = table_of(numbered)
        by_table = found if table is None else readings(table)
        if _only_township(by_table) == numbered:
            return by_table
    return found


def _township_in(left: bytes) -> Optional[Township]:
    """Return the township in the first heading of a text, which land may precede, or `None` if there is none."""
    try:
        split(left)
        return _township_at(left, 0)
    except Refused as refused:
        return _township_at(left, refused.at) if refused.number == _library.REFUSAL_SPLIT_NO_HEADING else None


def _township_at(left: bytes, start: int) -> Optional[Township]:
    """Return the township in the heading at a place, or `None` if there is none."""
    try:
        return township_in_heading(left[start:])
    except Refused:
        return None


def _townships_numbered_in(left: bytes) -> Iterator[Township]:
    """Yield the townships whose number and range are next to each other in a text, on all sides.

    >>> [str(each) for each in _townships_numbered_in(b"Sec 14-2N-3W")][5]
    'T. 2 N., R. 3 W.'
    """
    numbers = [int(each) for each in _NUMBER.findall(left)]
    for number, range_ in dict.fromkeys(zip(numbers, numbers[1:])):
        for north_south, east_west in _SIDES:
            yield Township(number, north_south, range_, east_west)


def _only_township(found: Readings) -> Optional[Township]:
    """Return the township in the headings of readings, or `None` if they don't all have the same one."""
    townships = {_township_at(encoded(reading.text), 0) for reading in found}
    return townships.pop() if len(townships) == 1 else None


def _parts_without(left: bytes, aside: Sequence[Place]) -> List[TownshipText]:
    """Return the parts of a text that has spaces in these places. Each place is in a part.

    A place between two parts is in the second one if only white space follows it there, and otherwise in the first one.
    """
    parts = _parts_of(left)
    starts, ends = [part.start for part in parts], [part.end for part in parts]
    for index, (before, after) in enumerate(zip(parts, parts[1:])):
        # The separator of the two, such as `;`, ends here.
        separated = before.end + len(left[before.end : after.start].rstrip())
        for start, end in places_within(aside, before.end, after.start):
            if end <= separated:
                ends[index] = end
            else:
                starts[index + 1] = min(starts[index + 1], start)
    return [_part_between(left, start, end) for start, end in zip(starts, ends)]


def _parts_of(given: bytes) -> List[TownshipText]:
    """Return the parts of a text that is not written as descriptions are."""
    try:
        return split(given)
    except Refused as refused:
        if refused.number != _library.REFUSAL_SPLIT_NO_HEADING:
            raise
        return [_part_between(given, 0, len(given))]


def _part_between(given: bytes, start: int, end: int) -> TownshipText:
    return TownshipText(given[start:end].decode("utf-8", "surrogateescape"), start, end)
