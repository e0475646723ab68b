"""The lots of lot tables, as the library knows them."""
from __future__ import annotations

import functools
from ctypes import byref
from typing import Iterator, Tuple

from . import _library
from ._refused import failure_of

#: A lot: the number of its section, and its own number.
Lot = Tuple[int, int]

#: A lot table of any township without a record: all regular townships have the same lots.
_ANY = b"section,lot,acres\nT,1,N,1,E\n"


def lots_in(parts: _library.Lots) -> Iterator[Tuple[Lot, int]]:
    """Iterate over the lots of a lot table, by section, and the figure of each, in hundredths of an acre.

    The figure is 0 if the table lacks the lot.
    """
    for section in range(1, _library.SECTIONS + 1):
        for index in range(parts.first[section - 1], parts.first[section]):
            yield (section, parts.numbers[index]), parts.figures[index]


@functools.lru_cache(maxsize=1)
def standard_table() -> _library.Lots:
    """Return a lot table of a regular township that lacks each lot. Its own township means nothing."""
    parts = _library.Lots()
    answer = _library.lots_read(_ANY, len(_ANY), byref(parts))
    if answer.verdict != _library.ACCEPTED:
        raise failure_of(answer.verdict)
    return parts


@functools.lru_cache(maxsize=1)
def lots_of_township() -> Tuple[Lot, ...]:
    """Return the section and the number of each lot of a regular township, by section and number.

    >>> lots_of_township()[19:22], len(lots_of_township())
    (((5, 4), (6, 1), (6, 2)), 47)
    """
    return tuple(lot for lot, _ in lots_in(standard_table()))
