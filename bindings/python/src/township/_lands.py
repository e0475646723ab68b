"""Land in several townships as a value."""
from __future__ import annotations

from decimal import Decimal
from fractions import Fraction
from textwrap import shorten
from types import MappingProxyType
from typing import TYPE_CHECKING, Any, Callable, Dict, Iterable, Iterator, List, Mapping, Optional, Tuple, Union

from . import _library
from ._account import Account
from ._land import Land
from ._refused import Refusal, Refused, hinted, refused_in
from ._split import SOURCE, TownshipText, split
from ._text import Text, encoded
from ._township import Township, nominal_plat_of

if TYPE_CHECKING:
    from ._lots import Lots
    from ._plats import Plats

#: The most characters of a description in the representation of land.
_SHOWN_MOST = 100

#: The refusals of a text that is too long, which have no place in it.
_TOO_LARGE = (
    _library.REFUSAL_DESIGNATION_TOO_LARGE,
    _library.REFUSAL_SPLIT_TOO_LARGE,
    _library.REFUSAL_TEXT_TOO_LARGE,
)


class Lands:
    """The land that a text names in one or more townships, as a value.

    To make one, call `Lands.of` with a text in which each part begins with its heading, or with `Land` of any number of
    townships. The order of the parts makes no difference. It does not depend on field notes; only its acreage does.

    `|`, `&`, `-`, and `^` work in each township separately, and so do comparisons. Two of these values are equal if
    they are the same land. `str` is the canonical text: the townships in a fixed order, each with its canonical
    description.

    >>> lease = township.Lands.of("T. 3 N., R. 3 W., sec. 32, S1/2; T. 2 N., R. 3 W., sec. 14, all.")
    >>> print(lease - township.Lands.of("T2N R3W sec. 14, N1/2"), end="")
    T. 2 N., R. 3 W.,
    sec. 14, S1/2.
    T. 3 N., R. 3 W.,
    sec. 32, S1/2.
    """

    __slots__ = ("_by_township",)

    _by_township: Dict[Township, Land]

    def __init__(self, lands: Iterable[Land] = ()) -> None:
        by_township: Dict[Township, Land] = {}
        for land in lands:
            before = by_township.get(land.township)
            by_township[land.township] = land if before is None else before | land
        self._by_township = {key: by_township[key] for key in sorted(by_township, key=_place_of) if by_township[key]}

    @classmethod
    def of(cls, text: Text) -> Lands:
        """Make the land that a text names.

        Raise `Refused` if the text can't be split into the parts of its townships (38 or 39), if a part does not begin
        with a heading (31 to 36), or if it is refused (41 to 44, 61 to 68); the place is then in this part, and `source`
        is its township. If a part names land of an earlier part, the number is 67, and the place is that of the part in
        the text.

        >>> township.Lands.of("T2N R3W sec. 14; T3N R3W sec. 37")
        Traceback (most recent call last):
            ...
        township.Refused: T. 3 N., R. 3 W.:1:14: there is no section 37: sections are 1 to 36
        """
        return cls._read(text, _no_table)

    @classmethod
    def _read(cls, text: Text, table_of: TableOf) -> Lands:
        """Make the land that a text names, with the lots of the lot tables of its townships."""
        try:
            return cls(land for _, land in parts_and_lands(encoded(text), table_of))
        except PartRefused as refused:
            raise refused.refused from None

    @classmethod
    def union(cls, lands: Iterable[Lands]) -> Lands:
        """Return the land that is in any of several of these values, as `|` does for two. Of none, it is no land.

        >>> township.Lands.union(township.Lands.of(f"T{number}N R3W sec. 14") for number in (2, 3))
        <township.Lands: T. 2 N., R. 3 W., sec. 14, all. T. 3 N., R. 3 W., sec. 14, all.>
        """
        return cls(land for each in lands for land in each)

    def by_township(self) -> Mapping[Township, Land]:
        """Return the land in each township that has any, in the order of the canonical text.

        >>> [str(each) for each in township.Lands.of("T3N R3W sec. 31; T2N R3W sec. 5, lot 1").by_township()]
        ['T. 2 N., R. 3 W.', 'T. 3 N., R. 3 W.']
        """
        return MappingProxyType(self._by_township)

    def acres(self, plats: Plats, account: Account = "exact") -> Decimal:
        """Return the acreage: the exact sum of exact areas, rounded once. See `Plats.acres`."""
        return plats.acres(self, account)

    def area(self, plats: Plats, account: Account = "exact") -> Fraction:
        """Return the exact area in acres. `acres` rounds it."""
        return plats.area(self, account)

    def isdisjoint(self, other: Lands) -> bool:
        """Return whether the two have no place in common."""
        mine, others = self._by_township, other._by_township
        return all(land.isdisjoint(others[township]) for township, land in mine.items() if township in others)

    def disjoint(self, other: Lands) -> bool:
        """Return whether the two have no place in common: `isdisjoint`, by the name that it has for shapes."""
        return self.isdisjoint(other)

    def overlaps(self, other: Lands) -> bool:
        """Return whether the two have a place in common, also if they are the same or one contains the other.

        >>> lease = township.Lands.of("T2N R3W sec. 14; T3N R3W sec. 31")
        >>> lease.overlaps(township.Lands.of("T3N R3W sec. 31, lot 1; T4N R3W sec. 1"))
        True
        """
        return not self.isdisjoint(other)

    def contains(self, other: Union[Lands, Land, Text]) -> bool:
        """Return whether each place of the other value, or of a text, is in this one. `in` returns it, too.

        A text is read with the lots of this land.

        >>> lease = township.Lands.of("T2N R3W sec. 14; T3N R3W sec. 31")
        >>> lease.contains("T2N R3W sec. 14, N1/2"), "T2N R3W sec. 15" in lease
        (True, False)
        """
        if isinstance(other, Land):
            return Lands([other]) <= self
        return (other if isinstance(other, Lands) else self._described(other)) <= self

    def _described(self, text: Text) -> Lands:
        """Return the land that a text names, in each township on the plat of this land."""
        mine = self._by_township
        lands = Lands._read(text, lambda township: mine[township].lots if township in mine else None)
        for land in lands:
            if land.township in mine:
                land._parts.date = mine[land.township]._parts.date
        return lands

    def on_one_line(self) -> str:
        """Return the canonical text on one line.

        >>> township.Lands.of("T2N R3W sec. 14").on_one_line()
        'T. 2 N., R. 3 W., sec. 14, all.'
        """
        return " ".join(str(self).split())

    def __or__(self, other: Lands) -> Lands:
        if not isinstance(other, Lands):
            return NotImplemented
        return Lands((*self, *other))

    def __and__(self, other: Lands) -> Lands:
        if not isinstance(other, Lands):
            return NotImplemented
        mine, others = self._by_township, other._by_township
        return Lands(mine[township] & others[township] for township in mine if township in others)

    def __sub__(self, other: Lands) -> Lands:
        if not isinstance(other, Lands):
            return NotImplemented
        others = other._by_township
        return Lands(
            land - others[township] if township in others else land for township, land in self._by_township.items()
        )

    def __xor__(self, other: Lands) -> Lands:
        if not isinstance(other, Lands):
            return NotImplemented
        return (self | other) - (self & other)

    def __le__(self, other: Lands) -> bool:
        if not isinstance(other, Lands):
            return NotImplemented
        return not self - other

    def __ge__(self, other: Lands) -> bool:
        if not isinstance(other, Lands):
            return NotImplemented
        return not other - self

    def __lt__(self, other: Lands) -> bool:
        return self <= other and self != other

    def __gt__(self, other: Lands) -> bool:
        return self >= other and self != other

    def __eq__(self, other: object) -> bool:
        if not isinstance(other, Lands):
            return NotImplemented
        return self._by_township == other._by_township

    def __hash__(self) -> int:
        return hash(tuple(self._by_township.items()))

    def __bool__(self) -> bool:
        return bool(self._by_township)

    def __contains__(self, other: Union[Lands, Land, Text]) -> bool:
        return self.contains(other)

    def __len__(self) -> int:
        return len(self._by_township)

    def __iter__(self) -> Iterator[Land]:
        return iter(self._by_township.values())

    def __reduce__(self) -> Tuple[Any, ...]:
        return Lands, (tuple(self),)

    def __str__(self) -> str:
        return "".join(land.text for land in self)

    def __repr__(self) -> str:
        return f"<township.Lands: {shorten(str(self), _SHOWN_MOST, placeholder=' ..') or 'none'}>"


def _place_of(township: Township) -> Tuple[bool, int, bool, int]:
    """Return what townships are sorted by: north before south, and by number; then east before west, and by range."""
    return township.north_south != "N", township.number, township.east_west != "E", township.range


class PartRefused(Exception):
    """A part of a text is refused, or the text can't be split."""

    def __init__(self, refused: Refused, start: int = 0) -> None:
        super().__init__(refused, start)
        self.refused = refused
        #: Where the text begins that is refused: a byte of the whole text.
        self.start = start

    @property
    def at(self) -> int:
        """The location in the whole text. If the refused text is too long, it is the limit in bytes."""
        return self.refused.at if self.refused.number in _TOO_LARGE else self.start + self.refused.at


#: Returns the lot table by which the land in a township is read, or `None` if it has the standard lots.
TableOf = Callable[[Township], Optional["Lots"]]


def _no_table(_: Township) -> Optional[Lots]:
    return None


def parts_and_lands(given: bytes, table_of: TableOf = _no_table) -> List[Tuple[TownshipText, Land]]:
    """Return the parts of a text, each with its land. Raise `PartRefused` if there are none, or one is refused."""
    found: List[Tuple[TownshipText, Land]] = []
    lands: Dict[Township, Land] = {}
    try:
        parts = split(given)
    except Refused as refused:
        raise PartRefused(refused) from None
    for part in parts:
        try:
            land = _land_of(part, table_of)
        except Refused as refused:
            raise PartRefused(refused, part.start) from None
        before = lands.get(land.township)
        if before is not None and not before.isdisjoint(land):
            raise PartRefused(_named_before(given, part, before & land))
        lands[land.township] = land if before is None else before | land
        found.append((part, land))
    return found


def _land_of(part: TownshipText, table_of: TableOf) -> Land:
    """Return the land of a part of a text, which explanations call by its township."""
    try:
        named = part.township
    except Refused as refused:
        raise hinted(refused, f"in the part that begins at byte {part.start} of the text") from None
    source, table = str(named).encode(), table_of(named)
    if table is not None:
        return table._land_of(encoded(part.text), source)
    return Land._read(named, nominal_plat_of(named), encoded(part.text), source)


def _named_before(given: bytes, part: TownshipText, land: Land) -> Refused:
    """Return the refusal of a part that names land of an earlier part of the same township."""
    refusal = Refusal(_library.REFUSAL_LAND_OVERLAP, part.start)
    hint = f"both parts include {' '.join(land.text.split())}"
    return refused_in(SOURCE, given, refusal, part.end, "land of this part was named before", hint)
