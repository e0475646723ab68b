"""Field notes that are written in Python."""
from __future__ import annotations

from decimal import Decimal
from typing import Dict, FrozenSet, Iterator, List, Mapping, Optional, Tuple, Union

from ._decimals import Number, scaled
from ._plat import Plat
from ._spelling import Named, township_named
from ._township import NOMINAL_QUARTER, Township

#: The distances from the start of a section line: to its quarter corner, and to its end.
Distances = Tuple[Decimal, Decimal]

#: A section line: its name, or its direction and the sections on either side, of which the second one is `None` on the
#: boundary.
Line = Union[str, Tuple[str, int, Optional[int]]]

#: The numbers of the sections, row by row from the north, and each row from the east.
_GRID = [list(range(first, first + 6))[:: -1 if row % 2 else 1] for row, first in enumerate(range(1, 37, 6))]

#: The largest distance, in thousandths of a chain.
_MOST = 99_999


def _names() -> Iterator[str]:
    """Yield the names of all section lines, in the order of their indexes."""
    for row in _GRID:
        for east, west in zip(["", *map(str, row)], [*map(str, row), ""]):
            yield f"N,{east},{west}" if east else f"N,{west},"
    columns = list(zip(*_GRID))
    for index in range(7):
        for column in columns:
            north = str(column[index - 1]) if index else ""
            south = str(column[index]) if index < 6 else ""
            yield f"W,{north},{south}" if north else f"W,{south},"


def _key(name: str) -> Tuple[str, FrozenSet[str]]:
    """Return what identifies a section line. The order of the sections on either side makes no difference."""
    direction, *sections = name.split(",")
    return direction, frozenset(sections)


_NAMES = list(_names())
_NAME_OF = {_key(name): name for name in _NAMES}
_INDEX_OF = {_key(name): index for index, name in enumerate(_NAMES)}


def names() -> Tuple[str, ...]:
    """Return the names of all section lines, by their index.

    >>> names()[53]
    'W,6,7'
    """
    return tuple(_NAMES)


def index_of(name: str) -> Optional[int]:
    """Return the index of the section line with this name, or `None` if there is no such line.

    >>> index_of("W,7,6"), index_of("W,7,14")
    (53, None)
    """
    return _INDEX_OF.get(_key(name)) if name.count(",") == 2 else None


class Notes(Mapping[str, Distances]):
    """The field notes of a township, to be filled in: a mapping of its 84 section lines to their distances.

    At first, all half miles are 40 chains long. To change a section line, assign both of its distances, in
    chains from the start of the line: to the quarter corner, and to the end of the line. A line is named as in
    a record of field notes (see `docs/NOTES-FORMAT.md`): `N,4,5` runs north between sections 4 and 5, and
    `W,6,` runs west on the north boundary of section 6. `("N", 4, 5)` and `("W", 6, None)` are these lines, too.

    >>> notes = township.Notes("T. 2 N., R. 3 W.")
    >>> notes["N,4,5"] = (40, "80.20")
    >>> notes["N,4,5"]
    (Decimal('40.00'), Decimal('80.20'))
    >>> notes.plat().acres("sec. 4, lot 4.")
    Decimal('40.35')

    A distance is a number or a text: at most 99.999 chains of 66 feet, with up to three decimal places. A
    `float` counts as the decimal that Python shows for it. `plat` checks whether the distances make a plat.
    """

    __slots__ = ("_township", "_lines")

    _township: Township
    _lines: Dict[str, Distances]

    def __init__(self, township: Named) -> None:
        """Make the notes of a township, which is given as `T. 2 N., R. 3 W.` or as `(2, "N", 3, "W")`.

        Raise `ValueError` if it is not a township.
        """
        self._township = township_named(township)
        half_mile = 2 * NOMINAL_QUARTER
        self._lines = dict.fromkeys(_NAMES, (_chains(half_mile), _chains(2 * half_mile)))

    @property
    def township(self) -> Township:
        """The township's designation."""
        return self._township

    def __getitem__(self, line: Line) -> Distances:
        return self._lines[_name_of(line)]

    def __setitem__(self, line: Line, distances: Tuple[Number, Number]) -> None:
        name = _name_of(line)
        if isinstance(distances, str) or len(distances) != 2:
            raise ValueError("a section line has two distances: to its quarter corner, and to its end")
        quarter, corner = map(_thousandths, distances)
        self._lines[name] = _chains(quarter), _chains(corner)

    def __iter__(self) -> Iterator[str]:
        return iter(self._lines)

    def __len__(self) -> int:
        return len(self._lines)

    def csv(self) -> str:
        """Return the field notes (CSV), which `Plat.read` reads.

        >>> print(township.Notes((2, "N", 3, "W")).csv()[:62])
        line,between,and,quarter,corner
        T,2,N,3,W
        N,1,,40.00,80.00
        N,1
        """
        records: List[str] = ["line,between,and,quarter,corner", ",".join(map(str, ("T", *self._township)))]
        records += [f"{line},{quarter},{corner}" for line, (quarter, corner) in self._lines.items()]
        return "\n".join(records) + "\n"

    def plat(self) -> Plat:
        """Make the plat of the notes. Raise `Refused`, with a number from 21 to 23, if they do not make one.

        >>> notes = township.Notes("T. 2 N., R. 3 W.")
        >>> notes["W,6,7"] = 40, 79
        >>> notes.plat().sections[6].lots[7]
        Decimal('38.25')
        >>> notes["W,5,8"] = 40, 79
        >>> notes.plat()
        Traceback (most recent call last):
            ...
        township.Refused: notes:55: the second half mile between sections 5 and 8 is 39.000 chains; allowed: 39.750 \
to 40.250
        """
        return Plat.read(self.csv())

    def __eq__(self, other: object) -> bool:
        if not isinstance(other, Notes):
            return NotImplemented
        return self._township == other._township and self._lines == other._lines

    __hash__ = None  # type: ignore[assignment]

    def __copy__(self) -> Notes:
        again = Notes(self._township)
        again._lines.update(self._lines)
        return again

    def __repr__(self) -> str:
        return f"<township.Notes of {self._township}>"


def _name_of(line: Line) -> str:
    """Return the name of a section line in its usual order. Raise `KeyError` if there is no such line."""
    text = ",".join("" if each is None else str(each) for each in line) if isinstance(line, tuple) else line
    name = _NAME_OF.get(_key(text)) if isinstance(text, str) and text.count(",") == 2 else None
    if name is None:
        raise KeyError(
            f"no section line is named {line!r}: write its direction, N or W, and the sections on either side, "
            "as in 'N,4,5', or 'W,6,' for a line on the boundary"
        )
    return name


def _thousandths(distance: Number) -> int:
    """Return a distance in thousandths of a chain. Raise `ValueError` if it is not one."""
    thousandths = scaled(distance, 1000, 0, _MOST)
    if thousandths is None:
        raise ValueError(
            f"{distance!r} is not a distance: write at most 99.999 chains, with up to three decimal places"
        )
    return thousandths


def _chains(thousandths: int) -> Decimal:
    """Return a distance in chains, with two or three decimal places."""
    whole, decimals = divmod(thousandths, 1000)
    return Decimal(f"{whole}.{decimals:03}".removesuffix("0"))
