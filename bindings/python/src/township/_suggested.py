"""The readings of a text, without the phrases in it that the caller says are not land."""
from __future__ import annotations

from bisect import bisect_left, bisect_right
from typing import Iterator, List, Optional, Sequence

from . import _library
from ._ignored import Ignored, Place, blanked, phrases_in
from ._readings import AROUND, SET_ASIDE, Change, Reading, Readings, Unread, readings_of
from ._standard_lots import with_standard_lots
from ._text import Text, encoded


def suggest(text: Text, ignore: Ignored = ()) -> Readings:
    """Return the readings of a text as descriptions, without a plat: they have no acreage. See `Plat.suggest`.

    Without a plat, its lots are not known. A reading that depends on them says that it assumes the standard lots.

    >>> township.suggest("N2 Sec 14")[0].text
    'sec. 14, N1/2'
    >>> township.suggest("N2 Sec 4")[0].assumptions
    ('the plat has the standard lots',)
    >>> township.suggest("sec. 14, that portion of the NE/4 lying north of the road").reason
    'a portion needs a survey'

    The phrases to `ignore` are left out, and each reading says so: see `Phrases`.

    >>> reading, = township.suggest("Payout group Kestrel NE/4 Sec. 14", ignore=["Payout group Kestrel"])
    >>> reading.text, reading.assumptions
    ('sec. 14, NE1/4', ('without `Payout group Kestrel`: you said that this is not land',))
    """
    given = encoded(text)
    return with_standard_lots(readings_without(given, phrases_in(ignore)._places_in(given)))


def readings_without(given: bytes, aside: Sequence[Place], lots: Optional[_library.Lots] = None) -> Readings:
    """Return the readings of a text without these places, which are in order. Each reading says that they are left out.

    The library reads the text with spaces in their place, so that all other places stay the same: on the plat of a lot
    table, or else with the standard lots.
    """
    found = readings_of(blanked(given, aside), lots)
    if not aside:
        return found
    readings = [_with_aside(given, reading, aside) for reading in found]
    unread = [part for each in found.unread for part in _unread_outside(given, each, aside)]
    return Readings(readings, found.reason, found.beyond, unread)


def _with_aside(given: bytes, reading: Reading, aside: Sequence[Place]) -> Reading:
    """Return a reading that says what was left out before it was read. Runs of spaces in its text become one space."""
    changes = [part for change in reading.changes for part in _outside(given, change, aside)]
    spans = _spans_of(reading.changes)
    changes += [_left_out(given, place, spans) for place in aside]
    # What is written where a phrase begins comes before it.
    changes.sort(key=lambda change: (change.start, change.end))
    return reading._replace(text=" ".join(reading.text.split()), changes=tuple(changes))


def _spans_of(changes: Sequence[Change]) -> List[Place]:
    """Return the places of changes, which are in order. Those that touch are one: each space may be a change.

    >>> _spans_of([Change(1, 2, " ", "", "one part"), Change(2, 3, " ", "", "one part"), Change(5, 5, "", ",", "comma")])
    [Place(start=1, end=3), Place(start=5, end=5)]
    """
    spans: List[Place] = []
    for change in changes:
        if spans and spans[-1].end == change.start:
            spans[-1] = Place(spans[-1].start, change.end)
        else:
            spans.append(Place(change.start, change.end))
    return spans


def _left_out(given: bytes, place: Place, spans: Sequence[Place]) -> Change:
    """Return the change that leaves out a place. A space stays, unless one of these spans of changes leaves it out."""
    phrase = _text(given, place)
    last = bisect_right(spans, Place(place.start, len(given)))
    is_covered = last > 0 and place.end <= spans[last - 1].end
    return Change(*place, phrase, "" if is_covered else " ", SET_ASIDE, SET_ASIDE, phrase)


def _outside(given: bytes, change: Change, aside: Sequence[Place]) -> Iterator[Change]:
    """Yield the parts of a change outside of the places that are left out. The first one writes what the change does."""
    written = change.written
    for start, end in _parts_outside(Place(change.start, change.end), aside):
        text = _text(given, Place(start, end))
        part = change._replace(start=start, end=end, left_out=text, written=written)
        if part.assumes not in AROUND:
            # White space that is left out assumes nothing.
            is_said = part.assumes is not None and bool(text.strip())
            part = part._replace(phrase=text) if is_said else part._replace(assumes=None, phrase=None)
        if start < end or written:
            yield part
        written = ""


def _parts_outside(whole: Place, aside: Sequence[Place]) -> List[Place]:
    """Return the parts of a place outside of others, or, if there are none, where the first of those begins.

    >>> _parts_outside(Place(4, 13), [Place(0, 2), Place(5, 12)])
    [Place(start=4, end=5), Place(start=12, end=13)]
    >>> _parts_outside(Place(7, 7), [Place(5, 12)])
    [Place(start=5, end=5)]
    """
    others = _others_in(whole, aside)
    parts, at = [], whole.start
    for start, end in others:
        if at < start:
            parts.append(Place(at, start))
        at = end
    if at < whole.end:
        parts.append(Place(at, whole.end))
    if not parts:
        at = min(whole.start, others[0].start) if others else whole.start
        parts.append(Place(at, at))
    return parts


def _others_in(whole: Place, aside: Sequence[Place]) -> Sequence[Place]:
    """Return the places that share bytes with a place, or, if it has no bytes, the one within which it is."""
    first = bisect_left(aside, Place(whole.start, 0))
    if first > 0 and aside[first - 1].end > whole.start:
        first -= 1
    return aside[first : bisect_left(aside, Place(whole.end, 0))]


def _unread_outside(given: bytes, unread: Unread, aside: Sequence[Place]) -> Iterator[Unread]:
    """Yield what of something unread is outside of the places that are left out."""
    whole = Place(unread.start, unread.end)
    if unread.ways is not None:
        yield unread._replace(text=_text(given, whole))
        return
    for start, end in _parts_outside(whole, aside):
        text = given[start:end]
        start, end = end - len(text.lstrip()), start + len(text.rstrip())
        if start < end:
            yield Unread(start, end, _text(given, Place(start, end)))


def _text(given: bytes, place: Place) -> str:
    return given[place.start : place.end].decode("utf-8", "surrogateescape")
