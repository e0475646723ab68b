"""The answer on a list of tracts, of which some may be refused, and some may overlap."""
from __future__ import annotations

from typing import AbstractSet, Dict, Iterable, Iterator, List, NamedTuple, Optional, Sequence, Tuple, Union

from .._drawing import Outline
from .._full import FullAnswers
from .._land import Land
from .._lots import Lots
from .._plat import Plat
from .._refused import Refused
from . import drawn
from .answers import BASIS, DOUBTFUL, land_json
from .basis import Basis
from .doubts import Doubts, doubts_of_many
from .drawn import drawing
from .given import Given, Invalid
from .known import Known, known
from .limits import OVERLAPS_TEXT_MOST, PAIRS_MOST, TRACTS_MOST
from .listed import Listed, tracts_in
from .overlapping import overlapping
from .refusals import Json, refused_json


#: The most characters of a label in the title block.
_LABEL_MOST = 40


class Tract(NamedTuple):
    """A tract of a list, with its land or the refusal of its description: neither, if its record has a fault."""

    listed: Listed
    known: Optional[Known] = None
    refused: Optional[Refused] = None

    @property
    def land(self) -> Optional[Land]:
        """The land of the tract, if it has any."""
        return None if self.known is None else self.known.land


class Joined(NamedTuple):
    """The land of several tracts together."""

    #: The land in any of them.
    taken: Land
    #: The land in more than one of them.
    shared: Land


def report_answer(body: bytes) -> Json:
    """Answer with the acreage or the refusal of each tract, the overlaps, and what all tracts take and leave."""
    given = Given(body, BASIS | drawn.FIELDS | {"tracts", "list", "selected"})
    listed = _listed(given)
    selected = given.index("selected")
    basis = given.basis()
    answers = basis.full_answers([each.description for each in listed])
    tracts = _tracts(basis.reads, listed, answers)
    whole = basis.whole()
    found = overlapping([tract.known for tract in tracts], PAIRS_MOST)
    joined = _joined(tracts, found.tracts, whole - whole)
    doubts = _doubts(basis.reads, tracts, answers.noted)
    shown = _tracts_json(basis, tracts, answers.texts(), found.tracts, doubts)
    return {
        "tracts": shown,
        "refused": sum(tract.land is None for tract in tracts),
        "overlaps": _overlaps_json(basis, tracts, found.pairs),
        "overlapping": found.number,
        "total": land_json(basis, joined.taken),
        "remaining": land_json(basis, whole - joined.taken),
        **drawing(given, basis, list(_shown(tracts, joined, selected, doubts)), _outlines(tracts, shown)),
    }


def _listed(given: Given) -> List[Listed]:
    """Return the tracts of a request: its records, or those of a list as it was written."""
    if not given.has("list"):
        records = given.records("tracts", {"name", "description"}, TRACTS_MOST)
        return [Listed(record["name"], record["description"]) for record in records]
    if given.has("tracts"):
        raise Invalid("give either `tracts` (records) or `list` (a text)")
    listed = tracts_in(given.text("list"), TRACTS_MOST)
    if len(listed) > TRACTS_MOST:
        raise Invalid(f"the list has more than {TRACTS_MOST:,} tracts")
    return listed


def _tracts(by: Union[Plat, Lots], listed: List[Listed], answers: FullAnswers) -> List[Tract]:
    """Return the tracts, each with the land of its description, or its refusal."""
    refused = set(answers.refused)
    found: List[Tract] = []
    for index, each in enumerate(listed):
        if each.fault:
            found.append(Tract(each))
        elif index in refused:
            found.append(Tract(each, refused=answers.refused_at(index)))
        else:
            found.append(Tract(each, known=known(by, each.description)))
    return found


def _joined(tracts: List[Tract], overlapping: AbstractSet[int], none: Land) -> Joined:
    """Return the land of all tracts together, of which these overlap others. `none` is no land."""
    taken, shared = none, none
    for index, tract in enumerate(tracts):
        if tract.land is not None:
            if index in overlapping:
                shared = shared | (taken & tract.land)
            taken = taken | tract.land
    return Joined(taken, shared)


def _overlaps_json(basis: Basis, tracts: List[Tract], pairs: Sequence[Tuple[int, int]]) -> List[Json]:
    """Return the pairs of tracts that overlap, each with its land: beyond some room, without its description."""
    found: List[Json] = []
    room = OVERLAPS_TEXT_MOST
    for first, second in pairs:
        one, other = tracts[first].land, tracts[second].land
        if one is None or other is None:
            raise AssertionError("a tract without land overlaps none")
        shared = one & other
        text = shared.text
        room -= len(text)
        canonical = text if room >= 0 else None
        found.append({"first": first, "second": second, "acres": basis.acres(shared), "canonical": canonical})
    return found


def _tracts_json(
    basis: Basis, tracts: List[Tract], texts: List[str], overlapping: AbstractSet[int], doubts: Dict[int, Doubts]
) -> List[Json]:
    """Return each tract, with its acreage, canonical description, and notes, or why it has none.

    `texts` are the canonical descriptions, for which the library need not be called for each tract.
    """
    accepted = [(tract.listed.description, tract.land) for tract in tracts if tract.land is not None]
    acres = iter(basis.acres_many([description for description, _ in accepted], [land for _, land in accepted]))
    found: List[Json] = []
    for index, tract in enumerate(tracts):
        listed = tract.listed
        shown: Json = {"name": listed.name, "description": listed.description, "line": listed.line}
        if listed.place is not None:
            shown.update(start=listed.place.start, end=listed.place.end)
        if tract.land is not None:
            notes = doubts[index].json(listed.description) if index in doubts else []
            shown.update(acres=next(acres), canonical=texts[index], notes=notes, overlaps=index in overlapping)
        elif tract.refused is not None:
            shown.update(refused=refused_json(tract.refused, "description", listed.description))
        else:
            shown.update(fault=listed.fault)
        found.append(shown)
    return found


def _doubts(by: Union[Plat, Lots], tracts: List[Tract], noted: Iterable[int]) -> Dict[int, Doubts]:
    """Return the notes on the tracts that have any, by their indexes."""
    accepted = (index for index in noted if tracts[index].land is not None)
    return doubts_of_many(by, ((index, tracts[index].listed.description) for index in accepted))


def _outlines(tracts: Sequence[Tract], shown: Sequence[Json]) -> List[Outline]:
    """Return the tracts that have land, each with the acreage that is its figure."""
    found: List[Outline] = []
    for place, (tract, json) in enumerate(zip(tracts, shown)):
        if tract.known is not None:
            acres = json["acres"]
            if not isinstance(acres, dict):
                raise AssertionError("a tract with land has an acreage")
            figure = acres["lots"] if "lots" in acres else acres["exact"]
            found.append(Outline(tract.known.rows, tract.listed.name, figure, place))
    return found


def _shown(
    tracts: List[Tract], joined: Joined, selected: Optional[int], doubts: Dict[int, Doubts]
) -> Iterator[Tuple[str, Land]]:
    """Yield what the drawing shows: all tracts but the selected one, their overlaps, and the selected one."""
    chosen = tracts[selected] if selected is not None and selected < len(tracts) else None
    rest, shared = joined.taken - joined.shared, joined.shared
    if chosen is not None and chosen.land is not None:
        rest, shared = rest - chosen.land, shared - chosen.land
    if rest:
        yield f"Tracts, some {DOUBTFUL}" if doubts else "Tracts", rest
    if shared:
        yield "In several tracts", shared
    if chosen is not None and chosen.land is not None:
        name = f"Tract {chosen.listed.name}"
        if len(name) > _LABEL_MOST:
            name = f"{name[: _LABEL_MOST - 3].rstrip()} .."
        yield f"{name}, {DOUBTFUL}" if selected in doubts else name, chosen.land
