"""The dates on which plats were approved, as the library counts them."""
from __future__ import annotations

import datetime
from typing import Optional

#: The number of a date: so many times its year, so many times its month, and its day.
_YEAR, _MONTH = 10_000, 100


def date_of(number: int) -> Optional[datetime.date]:
    """Return the date that a number stands for, or `None` for 0, the date that is not known.

    >>> date_of(19120304), date_of(0)
    (datetime.date(1912, 3, 4), None)
    """
    if not number:
        return None
    return datetime.date(number // _YEAR, number // _MONTH % (_YEAR // _MONTH), number % _MONTH)
