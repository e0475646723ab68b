"""The answers on a plat, on land, on two descriptions, and on many."""
from __future__ import annotations

from decimal import Decimal
from typing import Dict, Iterable, List, Optional, Union

from .._drawing.layout import lines
from .._drawing.of_plat import subject_of
from .._drawing.sheet import chains
from .._full import FullAnswers
from .._land import Land
from .._lots import Lots
from .._plat import Plat
from .._refused import Refused
from . import drawn
from .basis import Basis, decimals_of
from .doubts import doubts_of, doubts_of_many
from .drawn import drawing, without_figures
from .given import Given, Invalid, RefusedBasis
from .limits import DESCRIPTIONS_MOST, DOUBTS_MOST
from .refusals import Json, refused_json
from .sectionlines import line_refused, written

#: What a drawing says of land whose description has a note: in words, and in one word, where there are several lands.
_DOUBTFUL = "can be read in two ways"
DOUBTFUL = "doubtful"

#: What the lands of a comparison are called, without a note and with one.
_COMPARED = {
    "both": ("In both", f"In both, {DOUBTFUL}"),
    "first_only": ("Only in the first", f"First only, {DOUBTFUL}"),
    "second_only": ("Only in the second", f"Second only, {DOUBTFUL}"),
}

#: The fields that give a plat, and a lot table.
BASIS = frozenset({"notes", "township", "lots"})


def plat_answer(body: bytes) -> Json:
    """Answer with the figures of a plat, and its field notes: as the library writes them, and as they are given."""
    given = Given(body, BASIS | drawn.FIELDS)
    notes = given.text("notes") if given.has("notes") else None
    found: Json = {} if notes is None else {"written": written(notes)}
    try:
        basis = given.basis()
    except RefusedBasis as error:
        refused = refused_json(error.refused, error.of, error.text)
        if notes is not None and error.of == "notes":
            refused["section_line"] = line_refused(notes, error.refused.number, error.refused.at)
            found.update(without_figures(given, notes))
        return {"refused": refused, **found}
    plat = basis.plat
    # Without field notes, nothing is known of the section lines.
    lines: Json = {}
    if basis.is_measured:
        lines = {"closing_quarters": _closing_quarters(plat), "notes": plat.write_notes()}
    return {
        "township": str(plat.township),
        "basis": basis.name(),
        **_date_json(basis),
        **_figures_json(basis),
        **lines,
        **found,
        **drawing(given, basis),
    }


def land_answer(body: bytes) -> Json:
    """Answer with the acreage of a description, its canonical form, and its parts."""
    given = Given(body, BASIS | drawn.FIELDS | {"description"})
    description = given.text("description")
    basis = given.basis()
    try:
        land = basis.reads.land(description)
    except Refused as refused:
        return {"refused": refused_json(refused, "description", description), **drawing(given, basis)}
    notes = doubts_of(basis.reads, description, land, DOUBTS_MOST).json(description)
    return {
        **land_json(basis, land),
        "area": basis.area(land),
        "notes": notes,
        **drawing(given, basis, [("Land" if not notes else f"Land ({_DOUBTFUL})", land)]),
    }


def compare_answer(body: bytes) -> Json:
    """Answer with the land that two descriptions share, and with that of each alone."""
    given = Given(body, BASIS | drawn.FIELDS | {"first", "second"})
    texts = {name: given.text(name) for name in ("first", "second")}
    basis = given.basis()
    lands: Dict[str, Land] = {}
    refused: Json = {}
    for name, text in texts.items():
        try:
            lands[name] = basis.reads.land(text)
        except Refused as error:
            refused[name] = refused_json(error, name, text)
    if refused:
        shown = [(f"The {name} description", land) for name, land in lands.items()]
        return {"refused": refused, **drawing(given, basis, shown)}
    first, second = lands["first"], lands["second"]
    kinds = {"both": first & second, "first_only": first - second, "second_only": second - first}
    notes = {name: doubts_of(basis.reads, text, lands[name], DOUBTS_MOST).json(text) for name, text in texts.items()}
    labels = {name: words[any(notes.values())] for name, words in _COMPARED.items()}
    return {
        "comparison": comparison_of(first, second),
        "notes": notes,
        **{name: land_json(basis, land) for name, land in kinds.items()},
        **drawing(given, basis, [(labels[name], land) for name, land in kinds.items() if land]),
    }


def batch_answer(body: bytes) -> Json:
    """Answer with the acreage of each of many descriptions, or its refusal."""
    given = Given(body, BASIS | {"descriptions", "account"})
    descriptions = given.texts("descriptions", DESCRIPTIONS_MOST)
    account = given.account()
    basis = given.basis()
    if account is None and basis.lots is not None:
        return _batch_by_lots(basis, basis.lots, descriptions)
    if not isinstance(basis.reads, Plat):
        raise Invalid("the lot table says where its lots lie, so the field `account` must be `lots`")
    answers = basis.plat._full_answers(descriptions, account or "exact")
    acres: List[object] = [decimals_of(each) for each in answers.hundredths]
    refused: List[Json] = []
    sentences = _Sentences(answers, descriptions)
    for index in answers.refused:
        acres[index] = None
        number, at = answers.refusal(index)
        refused.append({"index": index, "number": number, "at": at, "sentence": sentences.of(index)})
    return {"acres": acres, "refused": refused, "notes": _batch_notes(basis.plat, descriptions, answers.noted)}


class _Sentences:
    """The sentences on descriptions. Each takes the library longer than an acreage, and is asked for once."""

    def __init__(self, answers: FullAnswers, descriptions: List[str]) -> None:
        self._answers = answers
        self._descriptions = descriptions
        self._known: Dict[str, str] = {}

    def of(self, index: int) -> str:
        """Return the sentence on a description."""
        description = self._descriptions[index]
        if description not in self._known:
            self._known[description] = self._answers.sentence(index)
        return self._known[description]


def _batch_by_lots(basis: Basis, lots: Lots, descriptions: List[str]) -> Json:
    """Return the acreage of each description by a lot table, or its refusal."""
    acres: List[Optional[str]] = []
    refused: List[Json] = []
    for index, description in enumerate(descriptions):
        try:
            acres.append(str(lots.acres(description)))
        except Refused as error:
            acres.append(None)
            refused.append({"index": index, "number": error.number, "at": error.at, "sentence": error.sentence})
    noted = basis.full_answers(descriptions).noted
    return {"acres": acres, "refused": refused, "notes": _batch_notes(basis.reads, descriptions, noted)}


def _batch_notes(by: Union[Plat, Lots], descriptions: List[str], noted: Iterable[int]) -> List[Json]:
    """Return the notes on those of many accepted descriptions that have any."""
    found = doubts_of_many(by, ((index, descriptions[index]) for index in noted))
    return [{"index": index, **note} for index, each in found.items() for note in each.json(descriptions[index])]


def land_json(basis: Basis, land: Land) -> Json:
    """Return the acreage of land, and its canonical description, which is empty for no land."""
    return {"acres": basis.acres(land), "canonical": land.text}


def comparison_of(first: Land, second: Land) -> str:
    """Return how two lands relate: the first `contains` the second, and so on."""
    if first == second:
        return "equal"
    if first > second:
        return "contains"
    if first < second:
        return "is contained"
    return "disjoint" if first.isdisjoint(second) else "overlaps"


def _figures_json(basis: Basis) -> Json:
    """Return the acreage of the township, its sections, and its lots: by the lot table if there is one.

    What a lot table does not tell, since it lacks a lot, is `None`.
    """
    figures = subject_of(basis.plat, lots=basis.lots).figures
    if figures is None:
        raise AssertionError("a plat has figures")
    sections: List[Json] = []
    for number, acres in figures.sections.items():
        lots = [_decimals(each) for (section, _), each in figures.lots.items() if section == number]
        sections.append({"section": number, "total": _decimals(acres), "lots": lots, **_places_json(basis, number)})
    return {"total": _decimals(figures.total), "sections": sections}


def _places_json(basis: Basis, section: int) -> Json:
    """Return where the lots of a section lie, and the land that is not there, if the lot table says it."""
    if basis.lots is None or not basis.lots.has_land:
        return {}
    found = basis.lots.section(section)
    lots = [each for each in found if each.lot is not None]
    missing = [each.land for each in found if each.lot is None]
    return {
        "numbers": [each.lot for each in lots],
        "land": [each.land for each in lots],
        "no_land": missing[0] if missing else None,
    }


def _date_json(basis: Basis) -> Json:
    """Return the date of the lot table, if it has one."""
    return {} if basis.lots is None or basis.lots.date is None else {"date": str(basis.lots.date)}


def _decimals(acres: Optional[Decimal]) -> Optional[str]:
    return None if acres is None else str(acres)


def _closing_quarters(plat: Plat) -> Json:
    """Return the last quarter mile of each closing line, in chains, by line index."""
    quarters = plat.closing_quarters
    return {str(line.index): chains(quarters[line.index]) for line in lines() if line.closes}
