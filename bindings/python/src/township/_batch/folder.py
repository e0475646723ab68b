"""A folder of townships: their field notes, and their lot tables."""
from __future__ import annotations

import datetime
import os
from dataclasses import dataclass, field
from typing import Dict, List, NamedTuple, Optional, Sequence, Tuple, Union

from .. import _library
from .._lots import Lots
from .._text import Path, shown
from .._township import Township
from .dates import dated_in, listed
from .files import Basis, Unrecognized, basis_in, is_meant_as_lots
from .stopped import Status, Stopped, reading

_SUFFIX = ".csv"

#: What a lot table without a date has in place of one.
_NO_DATE = datetime.date.min

#: The key of the townships in no folder of a meridian.
NO_MERIDIAN = ""


class PlatFile(NamedTuple):
    """Field notes or a lot table, in a file."""

    path: str
    #: Its name in the folder of townships.
    name: str
    by: Basis

    @property
    def date(self) -> Optional[datetime.date]:
        """The date of a lot table, if it has one."""
        return self.by.date if isinstance(self.by, Lots) else None


class NoFile(NamedTuple):
    """Why acreage in a township is computed by none of its files."""

    fault: str
    #: Whether a file is missing. Otherwise, one is refused, or two are different.
    is_missing: bool = False


@dataclass
class PlatFiles:
    """The files of a township."""

    township: Township
    notes: List[PlatFile] = field(default_factory=list)
    tables: List[PlatFile] = field(default_factory=list)
    #: The paths of lot tables that are refused, by their dates.
    refused: Dict[datetime.date, str] = field(default_factory=dict)

    def add(self, file: PlatFile) -> None:
        """Add a file."""
        (self.tables if isinstance(file.by, Lots) else self.notes).append(file)

    def controlling(self, folder: str, date: Optional[datetime.date] = None) -> Union[PlatFile, NoFile]:
        """Return the file of a folder that acreage is computed by, or why there is none.

        The acreage that the approved plat returns controls: a lot table comes before field notes. Of several tables,
        it is that of the date, or without one the newest: a table without a date counts as older than any other. No
        older table, and no field notes, are used if the newest is refused. Several files of a kind, and of one date,
        must be the same: if they are not, one of them is not of this township, and perhaps the others aren't, either.
        """
        different = self._different()
        if different is not None:
            return different
        if date is not None:
            dated = next((each for each in self.tables if each.date == date), None)
            return dated or self._without(date, folder)
        newest = max(self.tables, key=_age, default=None)
        if self.refused and (newest is None or max(self.refused) > _age(newest)):
            return self._refused(max(self.refused))
        return newest or self.notes[0]

    def _different(self) -> Optional[NoFile]:
        """Return that two files of a kind, and of one date, are different, if any are."""
        first: Dict[Tuple[str, Optional[datetime.date]], PlatFile] = {}
        for kind, files in (("lot tables", self.tables), ("field notes", self.notes)):
            for each in files:
                before = first.setdefault((kind, each.date), each)
                if each.by != before.by:
                    dated = f" of {each.date}" if each.date else ""
                    names = f"{shown(before.path)} and {shown(each.path)}"
                    return NoFile(f"two files have different {kind}{dated} for {self.township}: {names}")
        return None

    def _without(self, date: datetime.date, folder: str) -> NoFile:
        """Return that there is no lot table of a date, with the dates of those that there are."""
        if date in self.refused:
            return self._refused(date)
        dates = {each.date for each in self.tables if each.date is not None}
        others = f"; there are those of {listed(dates)}" if len(dates) > 1 else ""
        if len(dates) == 1:
            others = f"; there is one of {listed(dates)}"
        return NoFile(f"there is no lot table of {date} for {self.township} in {folder}{others}", is_missing=True)

    def _refused(self, date: datetime.date) -> NoFile:
        """Return that the lot table of a date is refused."""
        dated = f" of {date}" if date != _NO_DATE else ""
        return NoFile(f"the lot table{dated} for {self.township} is refused: {shown(self.refused[date])}")


def _age(table: PlatFile) -> datetime.date:
    """Return the date of a lot table: the first of all dates if it has none."""
    return table.date or _NO_DATE


#: The files of each township.
Townships = Dict[Township, PlatFiles]


class Folder:
    """The field notes and lot tables of a folder (`.csv`). A township can have both.

    The folders inside it are for principal meridians, whose names they have. The list, and earlier answers, may be in
    the folder, too.
    """

    def __init__(self, name: str, others: Sequence[str] = ()) -> None:
        self.name = name
        self._others = others
        #: The townships on each meridian, by its key.
        self.meridians: Dict[str, Townships] = {}
        #: The explanations of the files that are refused.
        self.refused: List[str] = []
        #: The files of field notes and lot tables, also those that are refused.
        self.files: List[str] = []
        with reading(name):
            self._read(name, NO_MERIDIAN)
            for entry in _entries(name):
                if entry.is_dir():
                    self._read(entry.path, meridian_key(entry.name))
        if not self.meridians and not self.refused:
            raise Stopped(
                f"township: {shown(name)}: there are no field notes and no lot tables ({_SUFFIX}) in this folder"
            )

    def _read(self, folder: str, meridian: str) -> None:
        """Read the files of a folder, and none of the folders inside it."""
        for entry in _entries(folder):
            if not entry.is_dir() and entry.name.lower().endswith(_SUFFIX):
                self._read_file(entry.path, meridian)

    def _read_file(self, path: str, meridian: str) -> None:
        """Read a file. One that is refused does not stop the others."""
        try:
            by = basis_in(path)
        except Unrecognized as unrecognized:
            if not self._is_other(path):
                self.refused.append(str(unrecognized))
            return
        except Stopped as stopped:
            if stopped.status != Status.REFUSED:
                raise
            self.files.append(path)
            self.refused.append(str(stopped))
            self._note_refused(path, meridian)
            return
        self.files.append(path)
        files = self._files_of(by.township, meridian)
        files.add(PlatFile(path, shown(os.path.relpath(path, self.name)), by))

    def _files_of(self, township: Township, meridian: str) -> PlatFiles:
        return self.meridians.setdefault(meridian, {}).setdefault(township, PlatFiles(township))

    def _note_refused(self, path: str, meridian: str) -> None:
        """Note which plat a lot table that is refused is about, if its second record says so."""
        with reading(path), open(path, "rb") as file:
            text = file.read(_library.LOTS_TEXT_MOST)
        dated = dated_in(text)
        # Field notes have no date.
        if dated is not None and (dated.date or is_meant_as_lots(text)):
            self._files_of(dated.township, meridian).refused[dated.date or _NO_DATE] = path

    def _is_other(self, path: str) -> bool:
        """Return whether a file is the list, or the output."""
        return any(os.path.exists(other) and os.path.samefile(other, path) for other in self._others)


def plats_in(given: Path, meridian: Optional[str]) -> List[Basis]:
    """Return the plat or the newest lot table of each township in a folder.

    Raise `OSError` if it can't be read, and `ValueError` if a file is refused, if two files of a township are
    different, or if the meridian is not one of the folder.
    """
    try:
        folder = Folder(os.fsdecode(given))
    except Stopped as stopped:
        if isinstance(stopped.__cause__, OSError):
            raise stopped.__cause__
        raise ValueError(str(stopped)) from None
    if folder.refused:
        raise ValueError("\n".join(folder.refused))
    name = shown(folder.name)
    controlling = [files.controlling(name) for files in _townships_on(folder, meridian).values()]
    faults = [each.fault for each in controlling if isinstance(each, NoFile)]
    if faults:
        raise ValueError("\n".join(faults))
    return [each.by for each in controlling if isinstance(each, PlatFile)]


def _townships_on(folder: Folder, meridian: Optional[str]) -> Townships:
    """Return the townships on a meridian, or all of them if there is only one. Otherwise raise `ValueError`."""
    if meridian is None:
        if len(folder.meridians) > 1:
            raise ValueError(f"{shown(folder.name)} has folders by principal meridian; say which one")
        return next(iter(folder.meridians.values()))
    if not any(folder.meridians):
        raise ValueError(f"{shown(folder.name)} has no folders by principal meridian")
    townships = folder.meridians.get(meridian_key(meridian))
    if townships is None:
        raise ValueError(f"there is no folder for the principal meridian `{meridian}` in {shown(folder.name)}")
    return townships


def meridian_key(name: str) -> str:
    """Return what is compared of a meridian's name: its letters and digits, whether capital or small.

    >>> meridian_key("6th P.M.")
    '6thpm'
    """
    return "".join(each for each in name.casefold() if each.isalnum())


def _entries(folder: str) -> "List[os.DirEntry[str]]":
    """Return what a folder contains, in a fixed order and without hidden files."""
    with os.scandir(folder) as entries:
        seen = [entry for entry in entries if not entry.name.startswith(".")]
    return sorted(seen, key=lambda entry: entry.name)
