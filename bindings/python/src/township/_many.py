"""Many descriptions, answered by one call of the library."""
from __future__ import annotations

import ctypes
from array import array
from decimal import Decimal
from itertools import accumulate
from typing import Any, Callable, Iterable, Iterator, List, Sequence, Tuple, Union, overload

from . import _library
from ._figures import acres_of_hundredths
from ._refused import Refused, failure_of
from ._text import Text, encoded
from ._threads import in_threads

# An answer consists of words of 64 bits. The word with the verdict is 0 if the description is accepted.
_WORDS = ctypes.sizeof(_library.Answer) // 8
_VERDICT = _library.Answer.verdict.offset // 8
_HUNDREDTHS = _library.Answer.hundredths.offset // 8

#: The type code of an array of such words. A `size_t` is one, too.
_WORD = "Q"

#: Asks the library about a description.
Ask = Callable[[bytes], _library.Answer]

#: Offsets between descriptions, as the library takes them.
Offsets = ctypes.Array[ctypes.c_size_t]

#: Returns the exception for a description that is not accepted.
Refuse = Callable[[_library.Answer, bytes], Exception]


class Answers(Sequence[Union[Decimal, Refused]]):
    """The answers to many descriptions: each is the acreage that `acres` returns or the `Refused` that it raises.

    A sequence, in the order of the descriptions. The library has answered all of them; what Python needs of an
    answer is made when it is asked for.

    >>> answers = plat.acres_many(["sec. 5, lot 1.", "sec. 5, lot 5.", "sec. 36."])
    >>> answers[0], answers[1].sentence, len(answers)
    (Decimal('40.45'), 'section 5 has lots 1 to 4', 3)
    >>> list(answers.hundredths), answers.refused
    ([4045, 0, 64000], [1])
    """

    __slots__ = ("hundredths", "refused", "_answers", "_bytes", "_offsets", "_refuse")

    #: The hundredths of an acre of each description: 0 if it is refused.
    hundredths: "array[int]"
    #: The indexes of the descriptions that are refused.
    refused: List[int]

    def __init__(self, words: "array[int]", given: bytes, offsets: "array[int]", refuse: Refuse) -> None:
        self.hundredths = words[_HUNDREDTHS::_WORDS]
        self.refused = [index for index, verdict in enumerate(words[_VERDICT::_WORDS]) if verdict]
        self._answers = _answers_in(words)
        self._bytes = given
        self._offsets = offsets
        self._refuse = refuse

    def __len__(self) -> int:
        return len(self.hundredths)

    @overload
    def __getitem__(self, index: int) -> Union[Decimal, Refused]: ...

    @overload
    def __getitem__(self, index: slice) -> List[Union[Decimal, Refused]]: ...

    def __getitem__(
        self, index: Union[int, slice]
    ) -> Union[Decimal, Refused, List[Union[Decimal, Refused]]]:
        if isinstance(index, slice):
            return [self[each] for each in range(*index.indices(len(self)))]
        answer = self._answers[index]
        if answer.verdict == _library.ACCEPTED:
            return acres_of_hundredths(answer.hundredths)
        index = range(len(self))[index]
        given = self._bytes[self._offsets[index] : self._offsets[index + 1]]
        exception = self._refuse(answer, given)
        if not isinstance(exception, Refused):
            raise exception
        return exception

    def __iter__(self) -> Iterator[Union[Decimal, Refused]]:
        return map(self.__getitem__, range(len(self)))

    def __repr__(self) -> str:
        return f"<township.Answers to {len(self)} descriptions: {len(self.refused)} refused>"


def answers_of(
    parts: object, descriptions: Sequence[Text], code: int, refuse: Refuse, threads: int = 1
) -> Answers:
    """Return the answers to many descriptions on a plat, by the account with this code."""
    return _answers(_library.acres_many, parts, descriptions, (code,), refuse, threads)


def answers_by(lots: object, descriptions: Sequence[Text], refuse: Refuse, threads: int = 1) -> Answers:
    """Return the answers to many descriptions by a lot table."""
    return _answers(_library.lots_acres_many, lots, descriptions, (), refuse, threads)


def _answers(
    call: Callable[..., _library.Answer],
    parts: object,
    descriptions: Sequence[Text],
    account: Tuple[int, ...],
    refuse: Refuse,
    threads: int,
) -> Answers:
    given, offsets = in_a_row(descriptions)
    words = array(_WORD, bytes(8 * _WORDS * len(descriptions)))

    def ask(places: Offsets, answers: ctypes.Array[_library.Answer]) -> _library.Answer:
        return call(parts, given, len(given), places, len(places), *account, answers, len(answers))

    answer_all(ask, offsets, _answers_in(words), threads)
    return Answers(words, given, offsets, refuse)


def answer_all(
    ask: Callable[[Offsets, ctypes.Array[Any]], _library.Answer],
    offsets: "array[int]",
    answers: ctypes.Array[Any],
    threads: int,
) -> None:
    """Let the library answer the descriptions between offsets, in at most `threads` threads.

    `ask` calls it with some of the offsets, and with the array for the answers to the descriptions between them. Raise
    the exception for any verdict of a call but `ACCEPTED`.
    """
    kind = answers._type_

    def answer_range(first: int, end: int) -> _library.Answer:
        places = (ctypes.c_size_t * (end - first + 1)).from_buffer(offsets, first * offsets.itemsize)
        return ask(places, (kind * (end - first)).from_buffer(answers, first * ctypes.sizeof(kind)))

    for answer in in_threads(threads, len(answers), answer_range):
        if answer.verdict != _library.ACCEPTED:
            raise failure_of(answer.verdict)


def each_acres(
    descriptions: Iterable[Text], call: Ask, refuse: Refuse
) -> Iterator[Union[Decimal, Refused]]:
    """Yield the acreage of each description, or its refusal."""
    accepted = _library.ACCEPTED
    for description in descriptions:
        given = encoded(description)
        answer = call(given)
        if answer.verdict == accepted:
            yield acres_of_hundredths(answer.hundredths)
            continue
        exception = refuse(answer, given)
        if not isinstance(exception, Refused):
            raise exception
        yield exception


def _answers_in(words: "array[int]") -> "ctypes.Array[_library.Answer]":
    """Return the answers that these words are, in the same memory."""
    return (_library.Answer * (len(words) // _WORDS)).from_buffer(words)


def in_a_row(descriptions: Sequence[Text]) -> Tuple[bytes, "array[int]"]:
    """Return the bytes of all descriptions in a row, and the offsets between them."""
    try:
        text = "".join(descriptions)  # type: ignore[arg-type]
        # Characters that take one byte each have the same offsets as their bytes.
        return text.encode("ascii"), _offsets(descriptions)
    except (TypeError, UnicodeEncodeError):
        each = [encoded(description) for description in descriptions]
        return b"".join(each), _offsets(each)


def _offsets(texts: Sequence[Text]) -> "array[int]":
    """Return the offsets between texts in a row, from 0 to the length of them all."""
    return array(_WORD, accumulate(map(len, texts), initial=0))
