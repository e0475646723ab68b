"""What acreage rests on: a plat, and a lot table if there is one."""
from __future__ import annotations

import functools
from typing import Dict, List, NamedTuple, Optional, Sequence, Tuple, Union

from .. import _library
from .._account import ACCOUNTS, Account
from .._drawing.layout import REGULAR
from .._field_notes import Notes
from .._full import FullAnswers
from .._land import Land
from .._lot_map import NO_LAND, rows_marked
from .._lots import Lots
from .._plat import Plat
from .._refused import Refused

#: A row of a section of which there is all.
_ROW = (1 << _library.PLACES_ACROSS) - 1

#: The name of the acreage by the lot table.
BY_LOTS = "lots"


class Basis(NamedTuple):
    """A plat, and the lot table of its township."""

    plat: Plat
    lots: Optional[Lots] = None
    #: Whether the plat is one of field notes, or of a township that is said to be nominal. If there is only a lot
    #: table, nothing of the plat is known but its township; and nothing else counts if the table says where its lots
    #: lie, since they are not those of field notes.
    is_measured: bool = True

    @property
    def reads(self) -> Union[Plat, Lots]:
        """What descriptions are read on: a lot table that says where its lots lie, or the plat."""
        return self.lots if self.lots is not None and self.lots.has_land else self.plat

    def full_answers(self, descriptions: Sequence[str]) -> FullAnswers:
        """Return all that the library answers about many descriptions, whatever lots the table lacks."""
        by = self.reads
        return by._full_answers(descriptions, "exact") if isinstance(by, Plat) else by._full_answers(descriptions)

    def whole(self) -> Land:
        """Return all land of the township that is there."""
        by = self.reads
        return by.land("secs. 1 to 36, all.") if isinstance(by, Plat) else _all_of(by)

    def acres(self, land: Land) -> Dict[str, Optional[str]]:
        """Return the acreage of land by each account, and by the lot table: `None` if the table lacks a lot."""
        acres: Dict[str, Optional[str]] = {each: str(self.plat.acres(land, each)) for each in self._accounts()}
        if self.lots is not None:
            acres[BY_LOTS] = _by_lots(self.lots, land)
        return acres

    def acres_many(self, descriptions: Sequence[str], lands: Sequence[Land]) -> List[Dict[str, Optional[str]]]:
        """Return the acreage of each of many lands, whose accepted descriptions are given too.

        One call of the library answers all descriptions by an account, which takes a tenth of the time.
        """
        many: List[Dict[str, Optional[str]]] = [{} for _ in lands]
        for account in self._accounts():
            answers = self.plat.acres_many(descriptions, account)
            if answers.refused:
                raise AssertionError("an accepted description has an acreage")
            for acres, hundredths in zip(many, answers.hundredths):
                acres[account] = decimals_of(hundredths)
        if self.lots is not None:
            for acres, land in zip(many, lands):
                acres[BY_LOTS] = _by_lots(self.lots, land)
        return many

    def area(self, land: Land) -> Dict[str, Optional[str]]:
        """Return the exact area of land in acres by each account, and by the lot table."""
        area: Dict[str, Optional[str]] = {each: str(self.plat.area(land, each)) for each in self._accounts()}
        if self.lots is not None:
            area[BY_LOTS] = None if _by_lots(self.lots, land) is None else str(self.lots.area(land))
        return area

    def name(self) -> str:
        """Return what the acreage rests on: `lots`, a lot table; `notes`; or `nominal`, a plat of regular lines."""
        if self.lots is not None:
            return BY_LOTS
        return "nominal" if all(each == REGULAR for each in self.plat.closing_quarters) else "notes"

    def _accounts(self) -> Tuple[Account, ...]:
        return tuple(ACCOUNTS) if self.is_measured else ()


def _all_of(lots: Lots) -> Land:
    """Return all land of a township that is there. A description could not name it if there is none in some section."""
    parts = _library.Land(township=lots._parts.township, date=lots._parts.date, own_lots=1)
    for section in range(1, _library.SECTIONS + 1):
        missing = rows_marked(lots._parts, section, NO_LAND)
        parts.rows[section - 1][:] = [_ROW & ~row for row in missing]
    return Land._of_struct(parts, lots)


def decimals_of(hundredths: int) -> str:
    """Return an acreage with two decimal places."""
    return f"{hundredths // 100}.{hundredths % 100:02}"


def _by_lots(lots: Lots, land: Land) -> Optional[str]:
    try:
        return str(lots.acres(land))
    except Refused:
        return None


@functools.lru_cache(maxsize=256)
def nominal_plat(township: str) -> Plat:
    """Return the plat of a township whose section lines are regular. Raise `ValueError` for another text."""
    return Notes(township).plat()
