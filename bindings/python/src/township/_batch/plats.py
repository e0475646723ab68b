"""The plat or the lot table by which a record's description is answered."""
from __future__ import annotations

import functools
from typing import Any, NamedTuple, Optional, Protocol, Sequence, Union

from .._refused import Refusal, Refused
from .._spelling import township_spelled
from .._text import shown
from .._township import Township
from .cells import text_of
from .dates import date_in
from .files import Basis
from .folder import NO_MERIDIAN, Folder, NoFile, Townships, meridian_key
from .stopped import Stopped

#: What the column of files contains if there is no file for a record's township.
MISSING = "missing"

#: The number of different spellings that are remembered.
_SPELLINGS = 1 << 16


class Found(NamedTuple):
    """What a record is answered by, or the reason that there is nothing."""

    by: Optional[Basis]
    #: The name of its file in the folder, or `MISSING`, or nothing.
    file: str = ""
    #: Why the record is not answered.
    fault: str = ""
    #: The refusal of the record's township, if its text spells none.
    refusal: Optional[Refusal] = None


class Plats(Protocol):
    """The plats and lot tables of a batch."""

    #: Whether records can be answered by different files, so that each answer names its file.
    names_files: bool

    #: The first principal meridian that a record names, where all must be on the same one; else nothing.
    first_meridian: str

    def awaits_first_meridian(self) -> bool:
        """Return whether all records must be on the first meridian, and none has named one."""
        ...

    def begin(self, first_meridian: str) -> None:
        """Go on with records before which this is the first meridian."""
        ...

    @property
    def columns(self) -> Sequence[int]:
        """The indexes of the columns that say on which plat a record is."""
        ...

    def plat_of(self, *fields: Any) -> Found:
        """Return what a record with these fields in the columns is answered by."""
        ...


class OnePlat:
    """The plat, or the lot table, of all records."""

    names_files = False

    def __init__(self, by: Basis) -> None:
        self._found = Found(by)
        self.first_meridian = ""

    def awaits_first_meridian(self) -> bool:
        """Return `False`: meridians do not matter."""
        return False

    def begin(self, first_meridian: str) -> None:
        """Do nothing: meridians do not matter."""

    @property
    def columns(self) -> Sequence[int]:
        """No columns."""
        return ()

    def plat_of(self, *fields: Any) -> Found:
        """Return the plat, or the lot table."""
        return self._found


class Key(NamedTuple):
    """The columns that give the township of a record."""

    #: `None` if it is in the description.
    township: Optional[int]
    #: `None` if the list has no such column.
    meridian: Optional[int]
    #: The date of its plat. `None` if it is the newest one.
    date: Optional[int] = None


class _Cells(NamedTuple):
    """What these columns contain. A column that is not used contains nothing."""

    township: str
    meridian: str
    date: str


class FolderPlats:
    """The plats and lot tables of a folder, found by the columns of a record.

    Townships of the same numbers on two meridians are never mixed. If the folder has folders by meridian, the
    list must say which one a township is on; if it has none, all records must be on the same meridian.
    """

    names_files = True

    def __init__(self, folder: Folder, key: Key) -> None:
        if key.meridian is None and len(folder.meridians) > 1:
            raise Stopped(
                f"township: {shown(folder.name)}: this folder has folders by principal meridian; name the "
                "column of the meridian with --meridian"
            )
        self._folder = folder
        self._key = key
        self._shown = shown(folder.name)
        self._by_meridian = key.meridian is not None and any(folder.meridians)
        self.first_meridian = ""
        self._remembered = functools.lru_cache(maxsize=_SPELLINGS)(self._find)

    def awaits_first_meridian(self) -> bool:
        """Return whether all records must be on the first meridian, and none has named one."""
        return not (self._by_meridian or self._key.meridian is None or self.first_meridian)

    def begin(self, first_meridian: str) -> None:
        """Go on with records before which this is the first meridian."""
        if first_meridian != self.first_meridian:
            self.first_meridian = first_meridian
            self._remembered.cache_clear()

    @property
    def columns(self) -> Sequence[int]:
        """The indexes of the columns that say on which plat a record is."""
        return [index for index in self._key if index is not None]

    def plat_of(self, *fields: Any) -> Found:
        """Return what a record with these fields in the columns is answered by."""
        return self._remembered(self._cells_of(fields))

    def _cells_of(self, fields: Sequence[Any]) -> _Cells:
        """Return the texts of these fields in the columns."""
        given = iter(fields)
        return _Cells(*("" if index is None else text_of(next(given)).strip() for index in self._key))

    def _find(self, cells: _Cells) -> Found:
        """Return what is in the folder for the township that is spelled so."""
        townships = self._townships_on(cells.meridian)
        if isinstance(townships, Found):
            return townships
        try:
            township = township_spelled(cells.township)
        except Refused as refused:
            return Found(None, fault=str(refused), refusal=Refusal(refused.number, refused.at))
        return self._found_in(townships, township, cells.date)

    def _found_in(self, townships: Townships, township: Township, written: str) -> Found:
        """Return what is in the folder for a township, and for the date that is written so."""
        try:
            date = date_in(written)
        except ValueError as error:
            return Found(None, fault=str(error))
        files = townships.get(township)
        if files is None:
            fault = f"there are no field notes and no lot table for {township} in {self._shown}"
            return Found(None, MISSING, fault)
        controlling = files.controlling(self._shown, date)
        if isinstance(controlling, NoFile):
            return Found(None, MISSING if controlling.is_missing else "", controlling.fault)
        return Found(controlling.by, controlling.name)

    def _townships_on(self, meridian: str) -> Union[Townships, Found]:
        """Return the townships on a meridian, or the reason that there are none."""
        if not self._by_meridian:
            return self._townships_on_one(meridian)
        key = meridian_key(meridian)
        townships = self._folder.meridians.get(key)
        if townships is not None:
            return townships
        if key == NO_MERIDIAN:
            return Found(None, fault="the principal meridian is missing")
        fault = f"there is no folder for the principal meridian `{meridian}` in {self._shown}"
        return Found(None, MISSING, fault)

    def _townships_on_one(self, meridian: str) -> Union[Townships, Found]:
        """Return all townships. If the list has meridians, they are on the first one that a record names."""
        self.first_meridian = self.first_meridian or meridian
        if meridian_key(meridian) not in ("", meridian_key(self.first_meridian)):
            fault = (
                f"the township is on another principal meridian, `{meridian}` and not "
                f"`{self.first_meridian}`: {self._shown} needs a folder for each"
            )
            return Found(None, fault=fault)
        return next(iter(self._folder.meridians.values()), {})


class HeadedPlats(FolderPlats):
    """The same for descriptions that begin with their townships. Only the meridian and the date can be in columns."""

    def __init__(self, folder: Folder, meridian: Optional[int], date: Optional[int] = None) -> None:
        super().__init__(folder, Key(None, meridian, date))
        self._remembered_in = functools.lru_cache(maxsize=_SPELLINGS)(self._find_township)

    def begin(self, first_meridian: str) -> None:
        """Go on with records before which this is the first meridian."""
        if first_meridian != self.first_meridian:
            self._remembered_in.cache_clear()
        super().begin(first_meridian)

    def plat_of(self, *fields: Any) -> Found:
        """Return why no record with these fields is answered, or an empty answer if some can be."""
        townships = self._townships_on(self._cells_of(fields).meridian)
        return townships if isinstance(townships, Found) else Found(None)

    def plat_in(self, township: Township, *fields: Any) -> Found:
        """Return what land in a township is answered by, in a record with these fields in the columns."""
        return self._remembered_in(township, self._cells_of(fields))

    def _find_township(self, township: Township, cells: _Cells) -> Found:
        townships = self._townships_on(cells.meridian)
        return townships if isinstance(townships, Found) else self._found_in(townships, township, cells.date)
