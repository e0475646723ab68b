"""Refusals, and the other ways a call can fail."""
from __future__ import annotations

from textwrap import shorten
from typing import Callable, NamedTuple, Optional, Tuple

from . import _library
from ._explanation import Explained, OtherPlace, explained_by
from ._township import Township

# The name that the library uses for each text when it explains a refusal.
DESCRIPTION = b"description"
NOTES = b"notes"
LIST = b"tracts"
LAND = b"land"
LOT_TABLE = b"lots"

#: The most characters of a message in a representation.
_SHOWN_MOST = 200

_REFUSALS = (_library.REFUSED, _library.TRACT_REFUSED)

# The verdicts on what is not valid.
_MEANINGS = {
    _library.NO_PLAT: "these parts do not make a plat",
    _library.NO_ACCOUNT: "no such account",
    _library.NO_LAND: "these places are not land: they contain part of a lot, or are not in a township",
    _library.NO_LOTS: "these figures do not make a lot table",
    _library.NO_TOWNSHIP: "this is not a township",
    _library.NO_OPERATION: "no such operation",
}


#: What is wrong with land that only its own lot table knows.
_OTHER_LOTS = "this land is on the plat of a lot table that says where its lots lie"


class Refusal(NamedTuple):
    """The number and location of a refusal, as in `refused 67 at 19`."""

    number: int
    at: int


class Refused(ValueError):
    """The numbered refusal of field notes, a description, a list of tracts, or a lot table.

    `docs/REFUSALS.md` explains what each number means and how to correct the input. Two refusals are equal if
    all their attributes are.

    >>> try:
    ...     plat.acres("sec. 14, NE1/4 and N1/2.")
    ... except township.Refused as refusal:
    ...     refused = refusal
    >>> refused.number, refused.at, refused.line, refused.column
    (67, 19, 1, 20)
    >>> str(refused)
    'description:1:20: this land was named before'
    >>> refused.sentence
    'this land was named before'
    >>> print(refused.explanation, end="")
    township: description:1:20: this land was named before
      1 | sec. 14, NE1/4 and N1/2.
        |                    ^^^^
      `NE1/4` at 1:10 overlaps it; both include sec. 14, NE1/4.
    >>> refused.start, refused.end, refused.other
    (19, 23, OtherPlace(record=None, start=9, end=14))
    >>> refused.hints
    ('`NE1/4` at 1:10 overlaps it; both include sec. 14, NE1/4.',)

    If a refused description can be read in only one way, `repair` is that reading, unless the plat refuses it, or it is
    too long to be shown.

    >>> try:
    ...     plat.acres("sec. 14, NE/4.")
    ... except township.Refused as refusal:
    ...     print(refusal.repair)
    sec. 14, NE1/4.
    """

    #: What is wrong: 1 to 11 and 21 to 23 for field notes, 41 to 44 and 61 to 68 for a description, 50 and 51 for
    #: phrases to leave out, 80 to 85 for a list of tracts, 86 to 101 for a lot table.
    number: int
    #: The location. Its meaning depends on the number: a record counted from 1, the index of a section line,
    #: a byte of the UTF-8 text counted from 0, a lot, a phrase counted from 1, or, if the text is too long, the limit
    #: in bytes.
    at: int
    #: The line, counted from 1. None if the error is not on any line: for example, a record is missing.
    line: Optional[int]
    #: The column, in characters, counted from 1. None if the line is.
    column: Optional[int]
    #: The explanation, in the form that the program `township` prints on standard error.
    explanation: str
    #: For refusal 83, the refusal of the tract's description. None for any other number.
    inner: Optional[Refusal]
    #: What is refused: `description`, `land`, `notes`, `tracts`, `lots`, `phrases`, or the name of a file.
    source: str

    def __init__(
        self,
        number: int,
        at: int,
        line: Optional[int] = None,
        column: Optional[int] = None,
        explanation: str = "",
        inner: Optional[Refusal] = None,
        source: str = "",
        explained: Optional[Explained] = None,
    ) -> None:
        # The base class pickles an exception by its arguments, so it needs all of them.
        super().__init__(number, at, line, column, explanation, inner, source, explained)
        self.number = number
        self.at = at
        self.line = line
        self.column = column
        self.explanation = explanation
        self.inner = inner
        self.source = source
        self._explained = explained or Explained()

    def __str__(self) -> str:
        return self._explained.message if self._explained.sentence else f"refused {self.number} at {self.at}"

    @property
    def sentence(self) -> str:
        """What is wrong, without the location."""
        return self._explained.sentence or str(self)

    @property
    def start(self) -> Optional[int]:
        """Where the explanation begins to underline the input: a byte of the UTF-8 text. None if it does not."""
        return self._explained.start

    @property
    def end(self) -> Optional[int]:
        """Where it stops: the first byte that is not underlined. None if none is."""
        return self._explained.end

    @property
    def other(self) -> Optional[OtherPlace]:
        """The other place that the explanation names, where the same land, name, or line was given before."""
        return self._explained.other

    @property
    def hints(self) -> Tuple[str, ...]:
        """How to correct the input, or related facts."""
        return self._explained.hints

    @property
    def repair(self) -> Optional[str]:
        """The only reading of a description, if the explanation ends with it. It names land on the plat."""
        return self._explained.repair

    def __repr__(self) -> str:
        return f"<township.Refused: {self.number} at {self.at}, {shorten(str(self), _SHOWN_MOST, placeholder=' ..')}>"

    def __eq__(self, other: object) -> bool:
        if not isinstance(other, Refused):
            return NotImplemented
        return self.args == other.args

    def __hash__(self) -> int:
        return hash(self.args)


def hinted(refused: Refused, hint: str) -> Refused:
    """Return a refusal whose explanation ends with one more line. Tracebacks show it from Python 3.11 on."""
    explanation = f"{refused.explanation}  {hint}\n"
    explained = refused._explained._replace(hints=(*refused.hints, hint))
    again = Refused(
        refused.number,
        refused.at,
        refused.line,
        refused.column,
        explanation,
        refused.inner,
        refused.source,
        explained,
    )
    if hasattr(again, "add_note"):
        again.add_note(hint)
    return again


def without_bytes(refused: Refused) -> Refused:
    """Return a refusal without the bytes of the input that it underlines, and those of the other place."""
    explained = refused._explained._replace(start=None, end=None, other=None)
    return Refused(
        refused.number,
        refused.at,
        refused.line,
        refused.column,
        refused.explanation,
        refused.inner,
        refused.source,
        explained,
    )


def refused_as_a_whole(source: str, refusal: Refusal, sentence: str) -> Refused:
    """Return the refusal of a text that has no place in it, with a sentence that is not the library's."""
    explained = Explained(source, sentence)
    return Refused(refusal.number, refusal.at, None, None, _text_of(explained), None, source, explained)


def refused_in(
    source: str, given: bytes, refusal: Refusal, end: int, sentence: str, *hints: str, start: Optional[int] = None
) -> Refused:
    """Return the refusal of a text at a place, and up to `end`, with a sentence that is not the library's.

    `start` is the place, if the refusal counts something other than bytes.
    """
    begin = refusal.at if start is None else start
    before = given[:begin].decode("utf-8", "replace").split("\n")
    line, column = len(before), len(before[-1]) + 1
    explained = Explained(f"{source}:{line}:{column}", sentence, hints, start=begin, end=end)
    return Refused(refusal.number, refusal.at, line, column, _text_of(explained), None, source, explained)


def _text_of(explained: Explained) -> str:
    """Return an explanation as text, without an excerpt of the input."""
    return "".join([f"township: {explained.message}\n", *(f"  {hint}\n" for hint in explained.hints)])


def failure_of(verdict: int, *townships: Township) -> Exception:
    """Return the exception for a verdict that is neither an answer nor a refusal.

    The townships are those of what was given to the call, if they, or its plats, could be different.
    """
    if verdict == _library.NO_MEMORY:
        return MemoryError("township: out of memory")
    if verdict == _library.OTHER_TOWNSHIP:
        return ValueError(f"these are in two different townships: {' and '.join(map(str, townships))}")
    if verdict == _library.OTHER_PLAT:
        return ValueError(f"these are on two different plats of {townships[0]}" if townships else _OTHER_LOTS)
    meaning = _MEANINGS.get(verdict)
    if meaning is not None:
        return ValueError(meaning)
    return RuntimeError(f"the township library answered with verdict {verdict}, which is unknown here")


def refusal_of(answer: _library.Answer) -> Refusal:
    """Return the number and location in an answer that refuses."""
    return Refusal(answer.number, answer.at)


def inner_refusal(answer: _library.Answer) -> Optional[Refusal]:
    """Return the refusal of a tract's description in an answer, if it has one."""
    if answer.verdict != _library.TRACT_REFUSED:
        return None
    return Refusal(answer.inner_number, answer.inner_at)


def exception_of(
    answer: _library.Answer, explain: Callable[..., _library.Answer], *given: object, source: bytes
) -> Exception:
    """Return the exception for an answer that is not accepted.

    `explain` is called to explain a refusal of the text or the file with the name `source`.
    """
    if answer.verdict not in _REFUSALS:
        return failure_of(answer.verdict)
    shown, text, explained = explained_by(explain, *given, source, len(source))
    if shown.verdict not in _REFUSALS:
        return failure_of(shown.verdict)
    if (shown.number, shown.at) != (answer.number, answer.at):
        # A list can be refused as a whole, and what is explained is a tract's fault that comes before.
        return Refused(answer.number, answer.at, source=source.decode())
    inner = inner_refusal(answer)
    # The line and column are both 0 if the error is not on any line.
    line, column = shown.line or None, shown.column or None
    return Refused(answer.number, answer.at, line, column, text, inner, source.decode(), explained)

