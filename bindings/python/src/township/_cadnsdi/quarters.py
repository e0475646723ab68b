"""Quarter-quarter sections, as QSEC and QQSEC name them."""
from __future__ import annotations

import functools
import re
from typing import List

from .plss import Unusable

#: The quarters, in the order of a canonical description.
QUARTERS = ("NE", "NW", "SW", "SE")

#: The 16 quarter-quarters, such as `NENW`, the northeast quarter of the northwest quarter.
QUARTER_QUARTERS = tuple(small + large for large in QUARTERS for small in QUARTERS)

#: What may be written between the letters.
_BETWEEN = re.compile(r"1/4|¼|/4|4|[\s.,]|\bOF\b|\bTHE\b")

_QUARTERS = re.compile("(?:NE|NW|SW|SE){0,2}")


@functools.lru_cache(maxsize=1 << 12)
def quarter_quarter_of(quarter: str, quarter_quarter: str) -> str:
    """Return a quarter-quarter, from the columns of the quarter and of the quarter-quarter.

    The second names both quarters, or only the smaller one. Raise `Unusable` if they name no quarter-quarter.

    >>> quarter_quarter_of("NW", "NENW"), quarter_quarter_of("NW", "NE"), quarter_quarter_of("", "NE1/4NW1/4")
    ('NENW', 'NENW', 'NENW')
    """
    large, small = _letters(quarter), _letters(quarter_quarter)
    if not small:
        raise Unusable("the quarter-quarter is missing")
    if len(large) > 1:
        raise Unusable(f"`{quarter}` is not one quarter section")
    if len(small) == 1:
        if not large:
            raise Unusable(f"`{quarter_quarter}` is only one quarter, and the quarter section is missing")
        return small[0] + large[0]
    if large and small[1] != large[0]:
        raise Unusable(f"`{quarter_quarter}` is not in the quarter section `{quarter}`")
    return small[0] + small[1]


def _letters(text: str) -> List[str]:
    """Return the quarters that a text names, at most two. Raise `Unusable` if it names others."""
    letters = _BETWEEN.sub("", text.upper())
    if not _QUARTERS.fullmatch(letters):
        raise Unusable(f"`{text}` is not a quarter-quarter section, such as NENW")
    return [letters[at : at + 2] for at in range(0, len(letters), 2)]


def steps_of(quarter_quarter: str) -> List[str]:
    """Return the steps of a quarter-quarter as a lot table writes them.

    >>> steps_of("NENW")
    ['NE1/4', 'NW1/4']
    """
    return [f"{quarter_quarter[:2]}1/4", f"{quarter_quarter[2:]}1/4"]
