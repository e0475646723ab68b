"""Reads an attribute table, and writes a lot table for each township, and a report."""
from __future__ import annotations

import csv
import io
import os
import sys
from contextlib import contextmanager
from dataclasses import dataclass, field
from typing import Dict, Iterator, List, NamedTuple, Optional, TextIO, Tuple

from .. import _library
from .._batch.decoding import Counted, Decoded, is_another_format
from .._batch.lines import Lines
from .._batch.options import STANDARD
from .._batch.stopped import Status, Stopped, reading, writing
from .._lots import Lots
from .._refused import Refused
from .._text import shown
from .._township import Township
from .columns import Columns, marked_in
from .gathering import Gathered, TownshipRows
from .plss import PlssId
from .resolving import found_in
from .rows import BadRow, RowReader, Unused
from .tables import name_of, table_of

#: What the name of a table ends with if a lot of the township could not be used: `batch --plats` leaves it out.
INCOMPLETE = ".incomplete"

#: The columns of the report.
REPORT = ("line", "PLSSID", "section", "lot", "quarter_quarter", "acres", "note", "reason")

#: The file descriptors of standard input and output.
_INPUT, _OUTPUT = 0, 1

#: The longest field: some exports have the polygon as a text.
_FIELD_MOST = 1 << 30


@dataclass(frozen=True)
class Import:
    """What the command line asks for."""

    file: str
    out: str
    #: The names of columns that the command line gives, by their keys.
    columns: Dict[str, str] = field(default_factory=dict)
    #: The column and the text of rows that say that the plat has no land there.
    no_land: Optional[Tuple[str, str]] = None
    encoding: str = "utf-8"
    #: Whether tables that exist are replaced.
    replace: bool = False


class _Counts:
    """What is counted of an import."""

    def __init__(self) -> None:
        self.rows = 0
        self.tables = 0
        self.incomplete = 0
        self.refused = 0
        self.unused = 0


def run_import(asked: Import) -> Status:
    """Write the lot tables and, on standard output, the report. Return the exit status."""
    counts = _Counts()
    with _report() as report:
        gathered = _gathered(asked, report, counts)
        for place in _places(asked.out, gathered, report, counts):
            _write_township(asked, place, report, counts)
    print(_summary(asked, counts), file=sys.stderr)
    return Status.REFUSED if counts.unused or counts.refused or not counts.tables else Status.ACCEPTED


def _summary(asked: Import, counts: _Counts) -> str:
    """Return what is said at the end."""
    incomplete = f", {counts.incomplete:,} of them incomplete" if counts.incomplete else ""
    return (
        f"township: {counts.rows:,} rows, of which {counts.unused:,} could not be used; "
        f"{counts.tables:,} lot tables in {shown(asked.out)}{incomplete}"
    )


class _Report:
    """The report: a row for each row that could not be used."""

    def __init__(self, file: TextIO) -> None:
        self._writer = csv.writer(file, lineterminator="\n")
        self._writer.writerow(REPORT)

    def add(self, unused: List[Unused], counts: _Counts) -> None:
        """Add rows."""
        counts.unused += len(unused)
        with writing():
            self._writer.writerows(unused)


@contextmanager
def _report() -> Iterator[_Report]:
    """Open the report."""
    with writing(), open(
        _OUTPUT, "w", encoding="utf-8", errors="backslashreplace", newline="", closefd=False
    ) as output:
        yield _Report(output)


def _gathered(asked: Import, report: _Report, counts: _Counts) -> Gathered:
    """Read all rows."""
    gathered = Gathered()
    with _rows(asked) as (place, rows):
        heading: List[str] = next((fields for _, fields in rows), [])
        columns = Columns(heading, asked.columns, place)
        no_land = None if asked.no_land is None else marked_in(heading, asked.no_land, place)
        reader = RowReader(columns, no_land)
        for line, fields in rows:
            counts.rows += 1
            said = reader.said(line, fields)
            if isinstance(said, BadRow):
                report.add([said.listed], counts)
                if said.township is not None:
                    gathered.of(said.township).has_bad_rows = True
            elif said is not None:
                gathered.of(said.township).add(said)
    return gathered


@contextmanager
def _rows(asked: Import) -> Iterator[Tuple[str, Iterator[Tuple[int, List[str]]]]]:
    """Open the attribute table. Give its name, and each row that is not empty with the line that it ends on."""
    name = "standard input" if asked.file == STANDARD else asked.file
    with reading(name):
        is_standard = asked.file == STANDARD
        file = io.FileIO(_INPUT if is_standard else asked.file, "rb", closefd=not is_standard)
    counted = Counted(file)
    with file:
        if is_another_format(counted):
            raise Stopped(f"township: {shown(name)}: this is not CSV; export the attribute table as CSV")
        yield f"{shown(name)}:1", _read(name, Decoded(counted, asked.encoding))


def _read(name: str, text: Decoded) -> Iterator[Tuple[int, List[str]]]:
    """Yield the rows of an attribute table."""
    before = csv.field_size_limit(_FIELD_MOST)
    try:
        reader = csv.reader(Lines(text.read))
        with reading(name):
            for fields in reader:
                if fields:
                    yield reader.line_num, fields
    except csv.Error as error:
        raise Stopped(f"township: {shown(name)}:{reader.line_num}: {error}") from error
    finally:
        csv.field_size_limit(before)


class _Place(NamedTuple):
    """A township, its rows, and the folder that its table is for."""

    folder: str
    township: Township
    rows: TownshipRows


def _places(out: str, gathered: Gathered, report: _Report, counts: _Counts) -> Iterator[_Place]:
    """Yield the townships in order. If they are on several meridians, there is a folder for each.

    The identifiers of two states can be of one township. Since one table cannot be for both, neither is used.
    """
    same: Dict[Tuple[str, Township], List[PlssId]] = {}
    for id_ in gathered.townships:
        same.setdefault((id_.meridian, id_.township), []).append(id_)
    meridians = {meridian for meridian, _ in same}
    for (_, township), ids in sorted(same.items()):
        if len(ids) > 1:
            reason = f"{' and '.join(sorted(each.text for each in ids))} are the same township, {township}"
            report.add(sorted(_all_rows(gathered, ids, reason)), counts)
            continue
        folder = os.path.join(out, ids[0].meridian_name) if len(meridians) > 1 else out
        yield _Place(folder, township, gathered.townships[ids[0]])


def _all_rows(gathered: Gathered, ids: List[PlssId], reason: str) -> Iterator[Unused]:
    """Yield all rows of lots in some townships."""
    for id_ in ids:
        for section in gathered.townships[id_].sections.values():
            for rows in section.lots.values():
                yield from (row.listed._replace(reason=row.listed.reason or reason) for row in rows)


def _write_township(asked: Import, place: _Place, report: _Report, counts: _Counts) -> None:
    """Write the table of a township that has lots, or land that is not there."""
    found = found_in(place.rows)
    report.add(found.unused, counts)
    if not found.sections:
        return
    table = table_of(place.township, found.sections)
    path = os.path.join(place.folder, name_of(place.township))
    refusal = _refusal_of(table, path + INCOMPLETE)
    is_incomplete = bool(found.unused or refusal) or place.rows.has_bad_rows
    path += INCOMPLETE if is_incomplete else ""
    if len(table) > _library.LOTS_TEXT_MOST:
        raise Stopped(f"township: {shown(path)}: the lot table would exceed {_library.LOTS_TEXT_MOST:,} bytes")
    with writing(path):
        os.makedirs(place.folder, exist_ok=True)
        _write(path, table, asked.replace)
    counts.tables += 1
    counts.incomplete += is_incomplete
    if refusal:
        counts.refused += 1
        print(refusal, end="", file=sys.stderr)


def _refusal_of(table: str, name: str) -> str:
    """Return why the library refuses a table, such as for more lots than it reads, or nothing."""
    if len(table) > _library.LOTS_TEXT_MOST:
        return ""
    try:
        Lots._read(table.encode(), shown(name).encode("utf-8", "backslashreplace"))
    except Refused as refused:
        return refused.explanation
    return ""


def _write(path: str, table: str, replace: bool) -> None:
    """Write a table. One that exists, and is another one, may have been corrected by hand."""
    if not replace and os.path.exists(path):
        with open(path, encoding="utf-8", errors="replace", newline="") as file:
            if file.read() != table:
                raise Stopped(f"township: {shown(path)} exists, and is another table; --replace replaces it")
        return
    with open(path, "w", encoding="utf-8", newline="") as file:
        file.write(table)
