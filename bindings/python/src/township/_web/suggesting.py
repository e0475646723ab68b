"""The answer on a text that is not written as descriptions are: its readings, each with its acreage."""
from __future__ import annotations

from typing import Optional

from .._drawing import svg_of
from .._drawing.of_plat import shade_of, subject_of
from .._ignored import PHRASES, Phrases, blanked
from .._land import Land
from .._lots import Lots
from .._phrases import MANNERS_SAID, condition_of, phrases_of
from .._readings import Change, Reading, Unread
from .._refused import Refused
from .._standard_lots import with_standard_lots
from .._suggested import readings_without
from .._text import encoded
from .answers import BASIS, land_json
from .basis import Basis
from .given import Given
from .limits import PHRASES_MOST
from .refusals import Json, refused_json
from .unknown import unknown_words


def suggest_answer(body: bytes) -> Json:
    """Answer with the readings of a text, in their order, or with the reason that there are none.

    They are readings on the plat of a lot table that says where its lots lie. Without field notes and without a table,
    those that depend on the lots assume the standard ones.
    """
    given = Given(body, BASIS | {"text", "draw", "ignore"})
    written = encoded(given.text("text"))
    draws = given.flag("draw")
    basis = given.basis()
    try:
        aside = Phrases(given.texts("ignore", PHRASES_MOST) if given.has("ignore") else ())._places_in(written)
    except Refused as refused:
        return {"refused": refused_json(refused, PHRASES)}
    table = basis.reads._parts if isinstance(basis.reads, Lots) else None
    found = readings_without(written, aside, table)
    if not given.has("notes") and basis.lots is None:
        found = with_standard_lots(found)
    place = found.beyond if found or found.reason is not None else unknown_words(blanked(written, aside), table)
    start, end = (None, None) if place is None else (_place(written, byte) for byte in place)
    return {
        "readings": [
            _reading_json(basis, written, reading, condition_of(written, reading, found), draws) for reading in found
        ],
        "reason": found.reason,
        "start": start,
        "end": end,
        "unread": [_unread_json(written, unread) for unread in found.unread],
    }


def _unread_json(given: bytes, unread: Unread) -> Json:
    return {
        "start": _place(given, unread.start),
        "end": _place(given, unread.end),
        "ways": unread.ways,
        "sentence": str(unread),
    }


def _reading_json(basis: Basis, given: bytes, reading: Reading, condition: Optional[str], draws: bool) -> Json:
    """Return a reading among others, with its condition, its acreage and its drawing, or the refusal of its description."""
    found: Json = {
        "text": reading.text,
        "manner": reading.manner,
        "condition": condition,
        "remark": MANNERS_SAID.get(reading.manner),
        "changes": [_change_json(given, change) for change in reading.changes],
        "phrases": [{"text": each.text, "meaning": each.meaning} for each in phrases_of(given, reading.changes)],
        "assumptions": list(reading.assumptions),
    }
    try:
        land = basis.reads.land(reading.text)
    except Refused as refused:
        return {**found, "refused": refused_json(refused, "reading", reading.text)}
    found.update(land_json(basis, land))
    if draws:
        found["svg"] = _drawing(basis, land)
    return found


def _change_json(given: bytes, change: Change) -> Json:
    return {
        "start": _place(given, change.start),
        "end": _place(given, change.end),
        "written": change.written,
        "rule": change.rule,
    }


def _drawing(basis: Basis, land: Land) -> str:
    """Return the drawing of land: of its section, if it is in only one."""
    sections = list(land.sections)
    section = sections[0] if len(sections) == 1 else None
    shade = shade_of(basis.reads, land, "Land")
    # Of a plat that nobody gave, nothing is shown.
    shown = shade if basis.is_measured or basis.reads is basis.lots else shade._replace(acres=())
    return svg_of(subject_of(basis.plat, shown, lots=basis.lots, is_measured=basis.is_measured), section)


def _place(given: bytes, byte: int) -> int:
    """Return the number of characters (Unicode code points) before a byte of a text."""
    return len(given[:byte].decode("utf-8", "replace"))
