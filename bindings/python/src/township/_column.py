"""A column of descriptions or land, answered by many plats: what `township.pandas` does without pandas."""
from __future__ import annotations

from typing import Any, Dict, Iterable, Iterator, List, NamedTuple, Optional, Sequence, Union

from . import _library
from ._account import Account
from ._earlier import EarlierLand
from ._land import Land
from ._lots import Lots
from ._many import Answers
from ._plat import Plat
from ._refused import Refused

#: What acreage is computed by.
Basis = Union[Plat, Lots]


class Measured(NamedTuple):
    """The answers to some values."""

    #: The acreage in hundredths: 0 if it is refused.
    hundredths: List[int]
    #: The refusals, by their indexes.
    refused: Dict[int, Refused]


class SharedLand(NamedTuple):
    """Land that two values have in common."""

    #: Their indexes.
    first: int
    second: int
    land: Land


def measured(by: Basis, values: Sequence[Any], account: Account, threads: int = 1) -> Measured:
    """Return the answers to descriptions and land. The account matters only on a plat.

    At most `threads` threads share the descriptions.
    """
    descriptions = [index for index, value in enumerate(values) if not isinstance(value, Land)]
    hundredths = [0] * len(values)
    refused: Dict[int, Refused] = {}
    if descriptions:
        answers = _many(by, [values[index] for index in descriptions], account, threads)
        for index, number in zip(descriptions, answers.hundredths):
            hundredths[index] = number
        for place in answers.refused:
            answer = answers[place]
            assert isinstance(answer, Refused)
            refused[descriptions[place]] = answer
    for index, value in enumerate(values):
        if isinstance(value, Land):
            try:
                hundredths[index] = _hundredths(by, value, account)
            except Refused as refusal:
                refused[index] = refusal
    return Measured(hundredths, refused)


def _many(by: Basis, descriptions: Sequence[Any], account: Account, threads: int) -> Answers:
    if isinstance(by, Plat):
        return by.acres_many(descriptions, account, threads=threads)
    return by.acres_many(descriptions, threads=threads)


def _hundredths(by: Basis, land: Land, account: Account) -> int:
    if isinstance(by, Plat):
        return by._measured(_library.land_acres, land, account)
    answer = by._answer(land)
    by._check(answer, land)
    hundredths: int = answer.hundredths
    return hundredths


def canonical_texts(by: Basis, values: Sequence[Any], threads: int = 1) -> List[Optional[str]]:
    """Return the canonical text of each value: `None` if it is refused."""
    descriptions = [value for value in values if not isinstance(value, Land)]
    texts = iter(by.normal_many(descriptions, threads=threads))
    found = (value.text if isinstance(value, Land) else next(texts) for value in values)
    return [text if isinstance(text, str) else None for text in found]


def lands_of(by: Basis, values: Iterable[Any]) -> Iterator[Optional[Land]]:
    """Yield the land of each value: `None` if its description is refused."""
    for value in values:
        try:
            yield value if isinstance(value, Land) else by.land(value)
        except Refused:
            yield None


def shared_lands(lands: Sequence[Optional[Land]]) -> Iterator[SharedLand]:
    """Yield what any two lands of a township have in common, in the order of the later one, and then of the earlier."""
    earlier = EarlierLand()
    for second, land in enumerate(lands):
        if land is not None:
            for first, both in earlier.shared(land):
                yield SharedLand(first, second, both)
            earlier.add(second, land)
