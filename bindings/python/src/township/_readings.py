"""Readings: what a text that is not written as descriptions are may mean, as descriptions."""
from __future__ import annotations

from ctypes import byref, create_string_buffer
from decimal import Decimal
from textwrap import shorten
from typing import Any, Callable, Iterable, List, NamedTuple, Optional, Sequence, Tuple, Union, overload

from . import _library
from ._refused import Refused, failure_of
from ._text import shown

#: The names of the rules, in the order of their numbers, which begin with 1.
RULES = (
    *("half", "quarter", "direction", "numeral", "copied", "copied step", "damage", "exception"),
    *("zeros", "fraction digit", "heading", "section word", "lot word", "through", "and", "comma"),
    *("semicolon", "one part", "mark", "word", "repeated", "moved section", "moved heading", "meridian"),
    *("acreage", "label"),
)

#: The assumptions of changes that the text does not state, by their names, in the order of their numbers, which begin
#: with 1.
ASSUMED = {
    "same meridian": "the meridian, state, or county is that of the plat",
    "same acreage": "the acreage is not compared",
    "not land": "this is not land",
    "said before": "this repeats what is before it",
    "wrong letter": "a letter or digit is wrong",
    "no missing comma": "no comma is missing",
}

#: The rule of a change that leaves out a phrase which the caller says is not land. It is also the name of its
#: assumption, of which the library knows nothing.
SET_ASIDE = "set aside"

#: What a reading assumes of which nothing is known but its text, if its land depends on the lots of the plat.
STANDARD_LOTS = "the plat has the standard lots"

#: All assumptions in words.
_IN_WORDS = {**ASSUMED, SET_ASIDE: "you said that this is not land"}

#: The two ways to read a phrase of a text without readings, in the order of their numbers, which begin with 1.
WAYS = (
    "a section, or a half",
    "one more lot, or a half",
    "a quarter, or a word for a section",
    "the number of a section or a lot, or another figure",
    "the side of a range, or a half",
    "of the part before it, or of the section",
)

#: The assumptions that are not about text that is left out, but about the words around the change.
AROUND = ("wrong letter", "no missing comma")

#: White space, and the bytes between words.
_WHITE, _BETWEEN_WORDS = b" \t\n\r", b" \t\n\r,;:|"

#: How the text of a reading comes of the changed text, by the numbers of manners.
MANNERS = ("changed", "lots named", "remainder")

#: The most characters of a reading in a representation.
_SHOWN_MOST = 100

#: The room for changes and for bytes in a first call. It is enough for all but long texts.
_CHANGES, _BYTES = 64, 2048

#: The room for unread words and phrases in a first call.
_STRETCHES = 64


class Change(NamedTuple):
    """A change that a reading makes: it leaves out some bytes of the text, and writes others in their place.

    >>> change, = township.suggest("sec. 14, NE.")[0].changes
    >>> change
    Change(start=11, end=11, left_out='', written='1/4', rule='quarter', assumes=None, phrase=None)
    """

    #: The place: the bytes of the text in UTF-8 from `start` to before `end`, of which there may be none.
    start: int
    end: int
    #: These bytes, as text.
    left_out: str
    #: What is written in their place.
    written: str
    #: The name of the rule by which this is done, such as `quarter`. `docs/DESCRIPTIONS.md` shows what each does.
    rule: str
    #: The name of the change's assumption that the text does not state, or `None`: `same meridian`, `same acreage`,
    #: `not land`, `said before`, `wrong letter`, `no missing comma`, or `set aside`.
    assumes: Optional[str] = None
    #: The phrase that the assumption is about, or `None`: the text that is left out, or the words around the change.
    phrase: Optional[str] = None

    @property
    def assumption(self) -> Optional[str]:
        """What the change assumes, in words, or `None`.

        >>> [change.assumption for change in township.suggest("TRACT 1: sec. 14, NE1/4.")[0].changes]
        ['without `TRACT 1:`: this is not land']
        """
        if self.assumes is None or self.phrase is None:
            return None
        said = f"`{' '.join(self.phrase.split())}`: {_IN_WORDS[self.assumes]}"
        return said if self.assumes in AROUND else f"without {said}"


def assumptions_of(changes: Iterable[Change]) -> Tuple[str, ...]:
    """Return the assumptions of changes, without repetitions."""
    return tuple(dict.fromkeys(filter(None, (change.assumption for change in changes))))


class Reading(NamedTuple):
    """A reading of a text: the description, and the changes from which it comes.

    >>> reading, = plat.suggest("NENE, S2NE4 Sec 14-2N-3W, Boise Meridian")
    >>> reading.acres
    Decimal('120.00')
    >>> for assumption in reading.assumptions:
    ...     print(assumption)
    `NENE`: no comma is missing
    `S2NE4`: no comma is missing
    without `Boise Meridian`: the meridian, state, or county is that of the plat
    """

    #: The description.
    text: str
    #: The changes of the text, from left to right.
    changes: Tuple[Change, ...]
    #: How the description comes of the changed text. `changed`: it is that text. `lots named`: it is the canonical
    #: description of its land, in which an aliquot part includes lots. `remainder`: it is the canonical description of
    #: the land before `except`, without the land after it.
    manner: str
    #: The acreage on the plat. `None` if there is no plat, or if the plat refuses the description.
    acres: Optional[Decimal] = None
    #: The canonical description of the land, if there is an acreage.
    normal: Optional[str] = None
    #: The refusal of the description on the plat, such as one of another township. `None` if it is accepted.
    refused: Optional[Refused] = None
    #: Whether the reading assumes that the plat has the standard lots, because no field notes and no lot table say
    #: which lots it has. Only readings that depend on the lots do: those that name lots or a whole section, and those
    #: that are the canonical description of their land.
    assumes_standard_lots: bool = False

    @property
    def assumptions(self) -> Tuple[str, ...]:
        """The assumptions of the reading that the text does not state, each one once.

        >>> township.suggest("Sec 5: N2")[0].assumptions
        ('the plat has the standard lots',)
        """
        return (*assumptions_of(self.changes), *((STANDARD_LOTS,) if self.assumes_standard_lots else ()))


class Unread(NamedTuple):
    """Why a text has no reading: some words that are not understood, or a phrase that can be read in two ways.

    >>> for unread in township.suggest("W/2 SW/4 Sec. 9-2N-3W by the old mill").unread:
    ...     print(unread)
    not understood: `by the old mill`
    """

    #: The place: the bytes of the text in UTF-8 from `start` to before `end`.
    start: int
    end: int
    #: These bytes, as text.
    text: str
    #: The two ways to read a phrase, in words, or `None` if the words are not understood.
    ways: Optional[str] = None

    def __str__(self) -> str:
        """Return it in words, such as `not understood: ..`, on one line. Unprintable characters are escaped."""
        text = f"`{shown(' '.join(self.text.split()))}`"
        return f"{text} can be read in two ways: {self.ways}" if self.ways else f"not understood: {text}"


class Readings(Sequence[Reading]):
    """The readings of a text, in a fixed order: at most 8.

    If there are none, nothing about the text is certain, or lots and aliquot parts can't describe the land: then
    there is a `reason`. Of a text without readings, the words that are not understood are `unread`, and phrases that
    can be read in two ways.

    >>> for reading in township.suggest("sec. 14: NE¼NE¼ SW¼SW¼"):
    ...     print(reading.text)
    sec. 14: NE¼NE¼, SW¼SW¼
    sec. 14: NE¼NE¼SW¼SW¼
    """

    __slots__ = ("_readings", "reason", "beyond", "unread")

    #: Why lots and aliquot parts can't describe the land, such as `a portion needs a survey`, or `None`.
    reason: Optional[str]
    #: The phrase that says so: the bytes of the text in UTF-8 from the first number to before the second one.
    beyond: Optional[Tuple[int, int]]
    #: What is not understood if there are no readings, and then what can be read in two ways; each from left to right.
    unread: Tuple[Unread, ...]

    def __init__(
        self,
        readings: Sequence[Reading],
        reason: Optional[str] = None,
        beyond: Optional[Tuple[int, int]] = None,
        unread: Sequence[Unread] = (),
    ) -> None:
        self._readings = tuple(readings)
        self.reason = reason
        self.beyond = beyond
        self.unread = tuple(unread)

    def measured(self, measure: Callable[[Reading], Reading]) -> Readings:
        """Return the same readings, each as `measure` returns it, such as with its acreage."""
        return Readings([measure(reading) for reading in self], self.reason, self.beyond, self.unread)

    def __len__(self) -> int:
        return len(self._readings)

    @overload
    def __getitem__(self, index: int) -> Reading: ...

    @overload
    def __getitem__(self, index: slice) -> Tuple[Reading, ...]: ...

    def __getitem__(self, index: Union[int, slice]) -> Union[Reading, Tuple[Reading, ...]]:
        return self._readings[index]

    def __eq__(self, other: object) -> bool:
        if not isinstance(other, Readings):
            return NotImplemented
        return self._parts() == other._parts()

    def __hash__(self) -> int:
        return hash(self._parts())

    def _parts(self) -> Tuple[object, ...]:
        return (self._readings, self.reason, self.beyond, self.unread)

    def __repr__(self) -> str:
        texts = [shorten(reading.text, _SHOWN_MOST, placeholder=" ..") for reading in self._readings]
        return f"<township.Readings: {texts}>"


def readings_of(given: bytes, lots: Optional[_library.Lots] = None) -> Readings:
    """Return the readings of a text as descriptions: on the plat of a lot table, or else with the standard lots."""
    return _Suggested(given, lots).readings()


def _unread(given: bytes) -> Tuple[Unread, ...]:
    """Return what is unread of a text without readings."""
    room = _STRETCHES
    while True:
        found = (_library.Stretch * room)()
        answer = _library.unread(given, len(given), found, room)
        if answer.verdict != _library.NO_ROOM:
            break
        room = answer.length
    if answer.verdict != _library.ACCEPTED:
        raise failure_of(answer.verdict)
    return tuple(_unread_of(given, stretch) for stretch in found[: answer.length])


def _unread_of(given: bytes, stretch: _library.Stretch) -> Unread:
    text = given[stretch.start : stretch.end].decode("utf-8", "surrogateescape")
    return Unread(stretch.start, stretch.end, text, WAYS[stretch.ways - 1] if stretch.ways else None)


def _start_before(given: bytes, at: int, is_end: Callable[[int], bool]) -> int:
    """Return the place after the last byte before `at` for which `is_end` holds, or 0."""
    while at and not is_end(given[at - 1]):
        at -= 1
    return at


def _end_after(given: bytes, at: int, is_end: Callable[[int], bool]) -> int:
    """Return the place of the first byte from `at` on for which `is_end` holds, or the end."""
    while at < len(given) and not is_end(given[at]):
        at += 1
    return at


class _Suggested:
    """What the library writes for a text."""

    def __init__(self, given: bytes, lots: Optional[_library.Lots]) -> None:
        self._given = given
        self._lots = lots
        self._said = _library.Suggestion()
        self._readings = (_library.Reading * _library.READINGS_MOST)()
        if self._call(_CHANGES, _BYTES) == _library.NO_ROOM:
            self._call(self._said.changes, self._said.bytes)

    def _call(self, changes: int, size: int) -> int:
        """Call the library with this much room. Return its verdict, if it is that there is an answer, or no room."""
        given, readings = self._given, _library.READINGS_MOST
        self._changes: Any = (_library.Change * changes)()
        buffer = create_string_buffer(size)
        asked = (given, len(given), self._readings, readings, self._changes, changes, buffer, size, byref(self._said))
        if self._lots is None:
            answer = _library.suggest(*asked)
        else:
            answer = _library.lots_suggest(byref(self._lots), *asked)
        if answer.verdict not in (_library.ACCEPTED, _library.NO_ROOM):
            raise failure_of(answer.verdict)
        self._bytes = buffer.raw
        verdict: int = answer.verdict
        return verdict

    def readings(self) -> Readings:
        said = self._said
        found = [self._reading(each) for each in self._readings[: said.readings]]
        if found:
            return Readings(found)
        unread = _unread(self._given)
        if not said.reason_length:
            return Readings((), unread=unread)
        return Readings((), self._text(said.reason, said.reason_length), (said.beyond, said.beyond_end), unread)

    def _reading(self, data: _library.Reading) -> Reading:
        changes: List[_library.Change] = self._changes[data.changes : data.changes + data.changes_length]
        text = self._text(data.text, data.text_length)
        return Reading(text, tuple(map(self._change, changes)), MANNERS[data.manner])

    def _change(self, data: _library.Change) -> Change:
        left_out = self._given[data.start : data.end].decode("utf-8", "surrogateescape")
        written = self._text(data.written, data.written_length)
        rule = RULES[data.rule - 1]
        if not data.assumes:
            return Change(data.start, data.end, left_out, written, rule)
        assumes = tuple(ASSUMED)[data.assumes - 1]
        phrase = self._words_around(data, rule) if assumes in AROUND else left_out
        return Change(data.start, data.end, left_out, written, rule, assumes, phrase)

    def _words_around(self, data: _library.Change, rule: str) -> str:
        """Return the words around a change, or around what it copies, without the period at their end."""
        given = self._given
        start, end = (data.copied, data.copied_end) if data.copied_end else (data.start, data.end)
        if rule == "one part":
            start = _start_before(given, start, lambda byte: byte not in _WHITE)
            end = _end_after(given, end, lambda byte: byte not in _WHITE)
        start = _start_before(given, start, lambda byte: byte in _BETWEEN_WORDS)
        end = _end_after(given, end, lambda byte: byte in _BETWEEN_WORDS)
        words = given[start:end].decode("utf-8", "surrogateescape")
        return words[:-1] if words.endswith(".") else words

    def _text(self, start: int, length: int) -> str:
        # A description is UTF-8. Only the bytes that a change leaves out may not be.
        return self._bytes[start : start + length].decode("utf-8", "surrogateescape")
