"""Everything that the library answers about many descriptions by a lot table."""
from __future__ import annotations

import ctypes
from typing import Dict, List, Sequence

from . import _library
from ._full import FullAnswers
from ._many import Offsets, Refuse, answer_all
from ._refused import Refusal, Refused, failure_of, refusal_of
from ._text import Text
from ._written import text_by


class LotsFullAnswers(FullAnswers):
    """The answers to many descriptions by a lot table, each with its canonical text, and with a note if there is one.

    On the nominal plat of the township, a description is refused for the same error, and has the same text and the
    same note, as by the table. Only the acreage is the table's.
    """

    def __init__(
        self, lots: object, plat: object, descriptions: Sequence[Text], refuse: Refuse, threads: int = 1
    ) -> None:
        super().__init__(plat, descriptions, _library.EXACT, refuse, threads)
        #: The answers to descriptions of land with a lot that the table lacks.
        self._lacking: Dict[int, _library.Answer] = {}
        self._take_all(lots, threads)
        self.refused = sorted([*self.refused, *self._lacking])
        self.noted = [index for index in self.noted if index not in self._lacking]

    def _take_all(self, lots: object, threads: int) -> None:
        """Take the answer by the table to each description that is accepted on the plat."""
        hundredths, refused, given = self.hundredths, set(self.refused), self._bytes
        all_answers = (_library.Answer * len(hundredths))()

        def ask(places: Offsets, answers: ctypes.Array[_library.Answer]) -> _library.Answer:
            return _library.lots_acres_many(lots, given, len(given), places, len(places), answers, len(answers))

        answer_all(ask, self._offsets, all_answers, threads)
        for index, answer in enumerate(all_answers):
            if index not in refused:
                hundredths[index] = answer.hundredths
                if answer.verdict:
                    self._take_lacking(index, answer)

    def _take_lacking(self, index: int, answer: _library.Answer) -> None:
        """Take the refusal of land with a lot that the table lacks, or raise the exception for another verdict."""
        if answer.verdict != _library.REFUSED:
            raise failure_of(answer.verdict)
        self._lacking[index] = answer

    def refusal(self, index: int) -> Refusal:
        """Return the number and location of the refusal of a description."""
        lacking = self._lacking.get(index)
        return super().refusal(index) if lacking is None else refusal_of(lacking)

    def sentence(self, index: int) -> str:
        """Return the sentence of the refusal of a description, or of the note on it."""
        return self.refused_at(index).sentence if index in self._lacking else super().sentence(index)

    def refused_at(self, index: int) -> Refused:
        """Return the refusal of a description, with its explanation."""
        lacking = self._lacking.get(index)
        return super().refused_at(index) if lacking is None else self._exception(lacking, index)

    def texts(self, on_one_line: bool = False) -> List[str]:
        """Return the canonical text of each description: nothing if it is refused."""
        texts = super().texts(on_one_line)
        for index in self._lacking:
            texts[index] = ""
        return texts


class TableAnswers(FullAnswers):
    """The same by a lot table that says where its lots lie: each description is read on the plat of the table."""

    _explain = staticmethod(_library.lots_explain_description_parts)

    def _answer_many(self, places: Offsets, answers: ctypes.Array[_library.FullAnswer]) -> _library.Answer:
        given = self._bytes
        return _library.lots_answer_many(self._parts, given, len(given), places, len(places), answers, len(answers))

    def texts(self, on_one_line: bool = False) -> List[str]:
        """Return the canonical text of each description: nothing if it is refused."""
        texts = super().texts(on_one_line)
        # Land with a lot that the table lacks has a text.
        for index in self.refused:
            texts[index] = ""
        return texts

    def _long_text(self, index: int) -> str:
        given, land = self._description(index), _library.Land()
        answer = _library.lots_land_read(self._parts, given, len(given), ctypes.byref(land))
        if answer.verdict == _library.ACCEPTED:
            answer, text = text_by(_library.lots_land_text, self._parts, ctypes.byref(land))
            if answer.verdict == _library.ACCEPTED:
                return text
        raise failure_of(answer.verdict)
