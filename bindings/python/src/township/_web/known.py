"""Land that was asked for before: with each key in a list, all of its tracts are asked for again, and most stay."""
from __future__ import annotations

import functools
from typing import NamedTuple, Optional, Union

from .. import _library
from .._drawing import Rows
from .._land import Land
from .._lots import Lots
from .._plat import Plat
from .._township import Township

#: The descriptions whose land is remembered, and the most characters of one, and sections of its land: so that each
#: process remembers some 30 MB at most.
_KNOWN_MOST = 2_048
_LONG = 256
_SECTIONS_MOST = 6

#: The rows of a whole section: a bit for each place.
_WHOLE = b"\xff" * (4 * _library.PLACES_ACROSS)


class Known(NamedTuple):
    """Land, and what is made from it for each answer."""

    land: Land
    #: Its places, and the sections of which it has all places, each as a bit.
    places: int
    whole: int
    #: Its rows, unless they take much memory.
    few_rows: Optional[Rows]

    @property
    def rows(self) -> Rows:
        """The rows of the land."""
        return self.land.rows if self.few_rows is None else self.few_rows


def known(by: Union[Plat, Lots], description: str) -> Known:
    """Return the land of a description that was accepted: on any plat of a township, or by a table of its lots."""
    on: Union[Township, Lots] = by if isinstance(by, Lots) else by.township
    return _known(on, description) if len(description) <= _LONG else _known_anew(on, description)


def _known_anew(on: Union[Township, Lots], description: str) -> Known:
    land = on.land(description) if isinstance(on, Lots) else Land.of(on, description)
    rows = bytes(land._parts.rows)
    few_rows = land.rows if len(land) <= _SECTIONS_MOST else None
    return Known(land, int.from_bytes(rows, "little"), _whole_sections(rows), few_rows)


_known = functools.lru_cache(maxsize=_KNOWN_MOST)(_known_anew)


def _whole_sections(rows: bytes) -> int:
    """Return the sections of which all places are in these rows."""
    if _WHOLE not in rows:
        return 0
    pieces = (rows[start : start + len(_WHOLE)] for start in range(0, len(rows), len(_WHOLE)))
    return sum(1 << section for section, piece in enumerate(pieces) if piece == _WHOLE)
