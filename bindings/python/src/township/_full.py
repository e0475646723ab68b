"""Everything that the library answers about many descriptions, by one call."""
from __future__ import annotations

import ctypes
from typing import List, Sequence, Union

from . import _library
from ._explanation import sentence_by
from ._many import Offsets, Refuse, answer_all, in_a_row
from ._refused import DESCRIPTION, Refusal, Refused, failure_of, refusal_of
from ._text import Text
from ._written import text_by

# The answers to a description consist of words of 64 bits. The first word of each contains the verdict, and the number
# of a refusal.
_BYTES = ctypes.sizeof(_library.FullAnswer)
_WORDS = _BYTES // 8
_ACRES = _library.FullAnswer.acres.offset // 8
_NORMAL = _library.FullAnswer.normal.offset // 8
_NOTE = _library.FullAnswer.note.offset // 8
_TEXT = _library.FullAnswer.text.offset
_HUNDREDTHS = _ACRES + _library.Answer.hundredths.offset // 8
_LENGTH = _NORMAL + _library.Answer.length.offset // 8


class FullAnswers:
    """The answers to many descriptions on a plat, each with its canonical text, and with a note if there is one."""

    #: The call that explains a refused description, or notes a place in an accepted one.
    _explain = staticmethod(_library.explain_description_parts)

    def __init__(
        self, parts: object, descriptions: Sequence[Text], code: int, refuse: Refuse, threads: int = 1
    ) -> None:
        self._parts = parts
        self._code = code
        self._refuse = refuse
        self._bytes, self._offsets = in_a_row(descriptions)
        self._answers = (_library.FullAnswer * len(descriptions))()
        self._words = memoryview(self._answers).cast("B").cast("Q")
        answer_all(self._answer_many, self._offsets, self._answers, threads)
        #: The hundredths of an acre of each description: 0 if it is refused.
        self.hundredths = self._column(_HUNDREDTHS)
        #: The indexes of the descriptions that are refused.
        self.refused = [index for index, word in enumerate(self._column(_ACRES)) if word]
        #: The indexes of those on which there is a note.
        self.noted = self._noted()

    def _answer_many(self, places: Offsets, answers: ctypes.Array[_library.FullAnswer]) -> _library.Answer:
        """Let the library answer the descriptions between these offsets."""
        given = self._bytes
        return _library.answer_many(
            self._parts, given, len(given), places, len(places), self._code, answers, len(answers)
        )

    def refusal(self, index: int) -> Refusal:
        """Return the number and location of the refusal of a description."""
        answer = self._answers[index].acres
        if answer.verdict != _library.REFUSED:
            raise failure_of(answer.verdict)
        return refusal_of(answer)

    def sentence(self, index: int) -> str:
        """Return the sentence of the refusal of a description, or of the note on it."""
        given = self._description(index)
        asked = (self._parts, given, len(given), DESCRIPTION, len(DESCRIPTION))
        answer, sentence = sentence_by(self._explain, *asked)
        if answer.verdict not in (_library.ACCEPTED, _library.REFUSED):
            raise failure_of(answer.verdict)
        return sentence

    def refused_at(self, index: int) -> Refused:
        """Return the refusal of a description, with its explanation."""
        return self._exception(self._answers[index].acres, index)

    def _exception(self, answer: _library.Answer, index: int) -> Refused:
        """Return the refusal of a description, which an answer gives. Raise the exception for another verdict."""
        exception = self._refuse(answer, self._description(index))
        if not isinstance(exception, Refused):
            raise exception
        return exception

    def texts(self, on_one_line: bool = False) -> List[str]:
        """Return the canonical text of each description: nothing if it is refused."""
        flat = str(memoryview(self._answers).cast("B"), "latin-1")
        lengths = self._column(_LENGTH)
        if on_one_line:
            # Each line of a text ends with a line feed.
            flat = flat.replace("\n", " ")
            lengths = [length and length - 1 for length in lengths]
        starts = range(_TEXT, len(flat), _BYTES)
        texts = [flat[start : start + length] for start, length in zip(starts, lengths)]
        for index, word in enumerate(self._column(_NORMAL)):
            if word == _library.NO_ROOM:
                text = self._long_text(index)
                texts[index] = text[:-1].replace("\n", " ") if on_one_line else text
            elif word == _library.NO_MEMORY:
                raise failure_of(_library.NO_MEMORY)
        return texts

    def texts_or_refusals(self) -> List[Union[str, Refused]]:
        """Return the canonical text of each description, or its refusal, which do not depend on acreage."""
        found: List[Union[str, Refused]] = list(FullAnswers.texts(self))
        for index in self.refused:
            answer = self._answers[index]
            # Land with a lot that a lot table lacks has a text.
            if answer.acres.verdict != _library.REFUSED or answer.normal.verdict == _library.REFUSED:
                found[index] = self._exception(answer.acres, index)
        return found

    def _noted(self) -> List[int]:
        """Return the indexes of the descriptions on which there is a note."""
        noted = []
        for index, word in enumerate(self._column(_NOTE)):
            if word == _library.NO_MEMORY:
                raise failure_of(_library.NO_MEMORY)
            # An explanation of a refusal has a number, too.
            if word == _library.NO_ROOM:
                noted.append(index)
        return noted

    def _long_text(self, index: int) -> str:
        """Return a canonical text for which there was no room."""
        given = self._description(index)
        answer, text = text_by(_library.normal, self._parts, given, len(given))
        if answer.verdict != _library.ACCEPTED:
            raise failure_of(answer.verdict)
        return text

    def _description(self, index: int) -> bytes:
        return self._bytes[self._offsets[index] : self._offsets[index + 1]]

    def _column(self, word: int) -> List[int]:
        """Return a word of the answers to each description."""
        return self._words[word::_WORDS].tolist()
