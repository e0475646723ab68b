"""The designation of a township, and the library's struct of a plat."""
from __future__ import annotations

import functools
from ctypes import byref, c_uint32
from operator import index
from typing import Any, Dict, Iterable, Literal, NamedTuple, Sequence, Tuple, Union, cast

from . import _library
from ._written import text_by

#: The side of the base line.
NorthSouth = Literal["N", "S"]
#: The side of the principal meridian.
EastWest = Literal["E", "W"]

#: The largest number of a township, and of a range.
_MOST = 99

#: The number of designations that are remembered, with their texts: there are few in a list, and they are made often.
_REMEMBERED = 4096

#: A quarter mile, in thousandths of a chain.
NOMINAL_QUARTER = 20_000

# The last quarter miles of all section lines.
_Quarters = c_uint32 * _library.LINES

# The sides by the library's codes.
_NORTH_SOUTH: Dict[int, NorthSouth] = {_library.NORTH: "N", _library.SOUTH: "S"}
_EAST_WEST: Dict[int, EastWest] = {_library.EAST: "E", _library.WEST: "W"}


class _Designation(NamedTuple):
    #: The township number, 1 to 99.
    number: int
    #: `N` or `S` of the base line.
    north_south: NorthSouth
    #: The range number, 1 to 99.
    range: int
    #: `E` or `W` of the principal meridian.
    east_west: EastWest


class Township(_Designation):
    """The designation of a township, without its principal meridian.

    Its parts are `number` and `range`, 1 to 99, and `north_south` and `east_west`, the sides of the base line and of
    the principal meridian. Raise `ValueError` for any other parts.

    >>> print(plat.township)
    T. 2 N., R. 3 W.
    >>> township.Township(2, "N", 100, "W")
    Traceback (most recent call last):
        ...
    ValueError: the numbers of a township and of its range are 1 to 99
    """

    __slots__ = ()

    def __new__(cls, number: int, north_south: NorthSouth, range: int, east_west: EastWest) -> Township:
        numbers = index(number), index(range)
        if not all(0 < each <= _MOST for each in numbers):
            raise ValueError(f"the numbers of a township and of its range are 1 to {_MOST}")
        if north_south not in _NORTH_SOUTH.values() or east_west not in _EAST_WEST.values():
            raise ValueError("a township is 'N' or 'S' of its base line, and 'E' or 'W' of its meridian")
        return super().__new__(cls, numbers[0], north_south, numbers[1], east_west)

    @classmethod
    def of(cls, text: str) -> Township:
        """Return the township that a text spells, in any of the ways that `docs/TOWNSHIPS.md` lists.

        Raise `Refused` if it spells none.

        >>> township.Township.of("2N-3W") == township.Township.of("Township Two North, Range Three West")
        True
        >>> print(township.Township.of("0020N 0030W"))
        T. 2 N., R. 3 W.
        >>> township.Township.of("T. 2 N., R. 3 W., sec. 14")
        Traceback (most recent call last):
            ...
        township.Refused: township:1:19: unexpected `sec. 14`; expected nothing after the township
        """
        # The module that reads spellings needs this one.
        from ._spelling import township_spelled

        return township_spelled(text)

    @classmethod
    def _make(cls, iterable: Iterable[Any], **_: Any) -> Township:
        # `_replace` calls this.
        return cls(*iterable)

    def __str__(self) -> str:
        return _text_of(self)


@functools.lru_cache(maxsize=_REMEMBERED)
def _text_of(township: Township) -> str:
    """Return the text of a designation."""
    answer, text = text_by(_library.designation_text, byref(_library.Designation(*codes_of(township))))
    if answer.verdict != _library.ACCEPTED:
        # The module of refusals needs this one.
        from ._refused import failure_of

        raise failure_of(answer.verdict)
    return text


def township_of(parts: Union[_library.Plat, _library.Designation]) -> Township:
    """Return the designation in a struct that is valid."""
    return _township_of(parts.number, parts.north_south, parts.range, parts.east_west)


@functools.lru_cache(maxsize=_REMEMBERED)
def _township_of(number: int, north_south: int, range_number: int, east_west: int) -> Township:
    """Return the designation with these parts, with the library's codes for the sides."""
    return Township(number, _NORTH_SOUTH[north_south], range_number, _EAST_WEST[east_west])


def checked(township: Tuple[int, str, int, str]) -> Township:
    """Return the designation of a township. Raise `ValueError` if it is not one."""
    if len(township) != len(_Designation._fields):
        raise ValueError(f"a township has four parts, such as (2, 'N', 3, 'W'), not {len(township)}")
    number, north_south, range_number, east_west = township
    return Township(number, cast(NorthSouth, north_south), range_number, cast(EastWest, east_west))


def codes_of(township: Township) -> Tuple[int, int, int, int]:
    """Return the parts of a designation, with the library's codes for the sides."""
    return (
        township.number,
        _library.NORTH if township.north_south == "N" else _library.SOUTH,
        township.range,
        _library.EAST if township.east_west == "E" else _library.WEST,
    )


def struct_of(township: Tuple[int, str, int, str], closing_quarters: Sequence[int]) -> _library.Plat:
    """Return the struct of a plat's parts, checking that each fits its field: ctypes would truncate it."""
    if len(closing_quarters) != _library.LINES:
        raise ValueError(f"a township has {_library.LINES} section lines, not {len(closing_quarters)}")
    if not all(0 <= quarter < 1 << 32 for quarter in closing_quarters):
        raise ValueError("the last quarter mile of a section line is 5,000 to 25,000 thousandths of a chain")
    return _library.Plat(_Quarters(*closing_quarters), *codes_of(checked(township)))


@functools.lru_cache(maxsize=1024)
def nominal_plat_of(township: Township) -> _library.Plat:
    """Return the plat of a township in which every half mile is 40 chains long.

    A description is refused on it if it is refused on any other plat of the township, and for the same fault.
    """
    return struct_of(township, [NOMINAL_QUARTER] * _library.LINES)
