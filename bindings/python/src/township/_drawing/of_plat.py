"""What is drawn of a plat or of land, as the library answers it."""
from __future__ import annotations

from decimal import Decimal
from typing import TYPE_CHECKING, Dict, Optional, Tuple, Union

from .._account import ACCOUNTS, Account
from .._plat import Plat
from .._refused import Refused
from .._text import Text
from . import svg_of
from .layout import REGULAR
from .plan import Plan, plan_of
from .subject import Figures, Shade, Subject

if TYPE_CHECKING:
    from .._land import Land
    from .._lots import Lots

#: What the title block calls each account.
_NAMES = {"exact": "Exact account", "plat": "Plat account"}
TABLE = "Lot table"

#: What the figures of a drawing are based on, in words.
_BY_NOTES = "Acreage by the field notes."
_BY_RULE = "Acreage of a nominal township, whose section lines are all regular."
_BY_LOTS = "Acreage by the lot table."
_BY_DATED = "Acreage by the lot table of the plat approved on {}."

_SECTIONS = 36
_NO_ACRES = Decimal("0.00")


def drawing_of(by: Union[Plat, Lots], land: Union[Land, Text, None], section: Optional[int]) -> str:
    """Return the drawing of a plat, or of one of its sections. Raise `ValueError` if there is no such section.

    By a lot table, nothing of the plat is shown but its lots, and the acreage that it returns.
    """
    if section is not None and not 1 <= section <= _SECTIONS:
        raise ValueError(f"a township has sections 1 to {_SECTIONS}, not {section}")
    if isinstance(land, (str, bytes)):
        land = by.land(land)
    shades = () if land is None else (shade_of(by, land, section=section),)
    subject = subject_of(by, *shades) if isinstance(by, Plat) else subject_by(by, *shades)
    return svg_of(subject, section)


def drawing_of_land(land: Land) -> str:
    """Return the drawing of land in a township, of which nothing is known but where its lots lie."""
    plan = None if land.lots is None else plan_of(land.lots._parts)
    return svg_of(Subject(land.township, None, (Shade(land.rows, "Land", words_of(land)),), plan=plan))


def shade_of(by: Union[Plat, Lots], land: Land, label: str = "Land", section: Optional[int] = None) -> Shade:
    """Return the shade of land on a plat. On the sheet of a section it is of the land in that section alone, and says
    so if there is more."""
    shown = shown_on(land, section)
    words = words_of(shown)
    if shown != land:
        others = len(land) - len(shown)
        more = "1 other section" if others == 1 else f"{others} other sections"
        label = f"{label} in section {section}"
        words = f"{words or 'None.'} There is more in {more}."
    return Shade(shown.rows, label, words, _acres_of(by, shown))


def _acres_of(by: Union[Plat, Lots], land: Land) -> Tuple[Tuple[str, Decimal], ...]:
    """Return the acreage of land by each account, or by a lot table that has all of its lots."""
    if isinstance(by, Plat):
        accounts: Tuple[Account, ...] = tuple(ACCOUNTS)
        return tuple((_NAMES[account], by.acres(land, account)) for account in accounts)
    try:
        return ((TABLE, by.acres(land)),)
    except Refused:
        return ()


def shown_on(land: Land, section: Optional[int]) -> Land:
    """Return the land that is on the sheet of a section, or all of it on that of the township."""
    return land if section is None else land.sections.get(section, land - land)


def subject_of(plat: Plat, *shades: Shade, lots: Optional[Lots] = None, is_measured: bool = True) -> Subject:
    """Return a plat with shaded land. If there is a lot table, its acreage is shown, and not that of the plat.

    If it is not measured, there is only the table, and nothing of the plat is shown.
    """
    if lots is None:
        return Subject(plat.township, _figures_of(plat), shades)
    subject = subject_by(lots, *shades)
    if subject.figures is None or not is_measured:
        return subject
    return subject._replace(figures=subject.figures._replace(closing_quarters=plat.closing_quarters))


def subject_by(lots: Lots, *shades: Shade) -> Subject:
    """Return the plat of a lot table with shaded land."""
    plan = plan_of(lots._parts)
    return Subject(lots.township, _figures_by(lots, plan), shades, plan=plan)


def _figures_of(plat: Plat) -> Figures:
    lots = {(number, lot): acres for number, each in plat.sections.items() for lot, acres in each.lots.items()}
    sections = {number: each.total for number, each in plat.sections.items()}
    is_regular = all(quarter == REGULAR for quarter in plat.closing_quarters)
    return Figures(lots, sections, plat.total, plat.closing_quarters, _BY_RULE if is_regular else _BY_NOTES)


def _figures_by(lots: Lots, plan: Optional[Plan]) -> Figures:
    """Return the figures of a lot table. A section that the plat does not have has no acres."""
    there = [number for number in range(1, _SECTIONS + 1) if plan is None or plan.sections[number].is_there]
    sections: Dict[int, Optional[Decimal]] = dict.fromkeys(range(1, _SECTIONS + 1), _NO_ACRES)
    sections.update((number, _acres_by(lots, f"sec. {number}.")) for number in there)
    total = _acres_by(lots, f"secs. {', '.join(map(str, there))}, all.") if there else _NO_ACRES
    note = _BY_LOTS if lots.date is None else _BY_DATED.format(lots.date)
    return Figures(lots.figures, sections, total, (), note)


def _acres_by(lots: Lots, description: str) -> Optional[Decimal]:
    """Return the acreage by a lot table, if the table has all lots of the land."""
    try:
        return lots.acres(description)
    except Refused:
        return None


def words_of(land: Land) -> str:
    """Return the canonical description of land on one line, without its heading."""
    return land.text.partition("\n")[2].replace("\n", " ").strip()
