"""The dates on which plats were approved, by which a record names one of several lot tables of a township."""
from __future__ import annotations

import datetime
import re
from typing import Iterable, NamedTuple, Optional

from .._spelling import township_named
from .._township import Township

_DATE = re.compile(r"[0-9]{4}-[0-9]{2}-[0-9]{2}", re.ASCII)

#: The record of a township, perhaps with a date, as a spreadsheet may write it.
_SECOND = re.compile(
    r"T[,;\t]([0-9]{1,2})[,;\t]([NS])[,;\t]([0-9]{1,2})[,;\t]([EW])(?:[,;\t]([0-9-]{10}))?(?:[,;\t]|$)", re.ASCII
)

#: The most dates that a sentence lists.
_LISTED_MOST = 6


def date_in(text: str) -> Optional[datetime.date]:
    """Return the date in a cell, or `None` if it is empty. Raise `ValueError` for any other text.

    >>> date_in("1912-03-04"), date_in("")
    (datetime.date(1912, 3, 4), None)
    >>> date_in("3/4/1912")
    Traceback (most recent call last):
        ...
    ValueError: `3/4/1912` is not a date: write it as 1912-03-04
    """
    if not text:
        return None
    try:
        if _DATE.fullmatch(text):
            return datetime.date(*map(int, text.split("-")))
    except ValueError:
        # There is no such day.
        pass
    raise ValueError(f"`{text}` is not a date: write it as 1912-03-04")


def listed(dates: Iterable[datetime.date]) -> str:
    """Return dates in words, from the oldest.

    >>> listed([datetime.date(1912, 3, 4), datetime.date(1880, 1, 2), datetime.date(1899, 5, 6)])
    '1880-01-02, 1899-05-06, and 1912-03-04'
    """
    words = [str(date) for date in sorted(dates)]
    if len(words) > _LISTED_MOST:
        return ", ".join(words[:_LISTED_MOST]) + ", .."
    if len(words) < 3:
        return " and ".join(words)
    return ", ".join(words[:-1]) + f", and {words[-1]}"


class Dated(NamedTuple):
    """What the second record of a lot table says: which township it is for, and when its plat was approved."""

    township: Township
    date: Optional[datetime.date]


def dated_in(table: bytes) -> Optional[Dated]:
    """Return what the second record of a lot table says that is refused, or `None` if it is not of a township.

    >>> dated_in(b"section,lot,acres\\nT,2,N,3,W,1912-03-04\\n5,1\\n").date
    datetime.date(1912, 3, 4)
    """
    lines = [line for line in table.decode("utf-8-sig", "replace").splitlines() if line.strip(" ,;\t")]
    found = _SECOND.match(lines[1].replace('"', "")) if len(lines) > 1 else None
    if found is None:
        return None
    number, north_south, range_number, east_west, date = found.groups()
    try:
        day = date_in(date or "")
        named = township_named((int(number), north_south, int(range_number), east_west))
    except ValueError:
        return None
    return Dated(named, day)
