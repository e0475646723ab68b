"""`python -m township parts`: the land in a description as rows, for a GIS."""
from __future__ import annotations

import argparse
import csv
import io
import sys
from typing import Any, Iterable, Optional

from ._batch.options import STANDARD
from ._batch.stopped import Status
from ._cadnsdi.plss import Unusable, plss_id_of
from ._cadnsdi.rows import ONLY, SECTION
from ._gis import GisRow, rows_of
from ._measuring import Command, _lots_in, _read, _write
from ._refused import Refused
from ._township import Township

_USAGE = "python -m township parts --gis [--plss-id PLSSID] LOTS DESCRIPTION"

_PARTS = """\
Prints the land in a description as CSV rows with the keys of the polygons of BLM's CadNSDI, so that a GIS can join
them: a row for each quarter-quarter, and for each lot a row for each quarter-quarter that it lies in.

  FRSTDIVNO  the section, in two digits
  QQSEC      the quarter-quarter: NENW is the northeast quarter of the northwest quarter
  GOVLOT     the lot, if the land is in one
  SHARE      how much of the polygon the land contains: always 1 for a lot
  PART       the aliquot parts that it contains, if that is not the whole quarter-quarter

With --plss-id, these come first:

  PLSSID     the identifier of the township
  FRSTDIVID  that of the section
"""

_STATUS = """\
exit status:
  0    the description is accepted
  1    the lot table or the description is refused; standard error says why
  2    the command line is not valid
  3    a file cannot be read, or memory ran out; standard error says why
"""

_COLUMNS = ("FRSTDIVNO", "QQSEC", "GOVLOT", "SHARE", "PART")
_IDENTIFIERS = ("PLSSID", "FRSTDIVID")


def parts_command(commands: Any) -> Command:
    """Return the command `parts`."""
    parser = commands.add_parser(
        "parts",
        help="give the land in a description as rows, for a GIS",
        usage=_USAGE,
        description=_PARTS,
        epilog=_STATUS,
        formatter_class=argparse.RawDescriptionHelpFormatter,
    )
    parser.add_argument("files", metavar="LOTS DESCRIPTION", nargs="*", help="files, or - for standard input")
    parser.add_argument(
        "--gis", action="store_true", required=True, help="print rows for a GIS, which is the only form so far"
    )
    parser.add_argument(
        "--plss-id", metavar="PLSSID", help="the identifier of the township, as in ID080020N0030W0"
    )
    return Command(parser, _run_parts)


def _run_parts(parser: argparse.ArgumentParser, asked: argparse.Namespace) -> int:
    if len(asked.files) != 2:
        parser.error("name the lot table and a description")
    if asked.files.count(STANDARD) > 1:
        parser.error("only one file can be standard input")
    table, description = asked.files
    try:
        lots = _lots_in(table)
        if asked.plss_id is not None:
            _check_plss_id(parser, asked.plss_id, lots.township)
        read = _read(description, lots)
        rows = list(rows_of(lots, read.land))
    except Refused as refused:
        _write(f"refused {refused.number} at {refused.at}\n")
        print(refused.explanation, end="", file=sys.stderr)
        return Status.REFUSED
    _write(_csv(rows, asked.plss_id))
    print(read.note, end="", file=sys.stderr)
    return Status.ACCEPTED


def _check_plss_id(parser: argparse.ArgumentParser, plss_id: str, township: Township) -> None:
    """If an identifier is not that of the township, exit with status 2."""
    try:
        named = plss_id_of(plss_id).township
    except Unusable as unusable:
        parser.error(str(unusable))
    if named != township:
        parser.error(f"`{plss_id}` is the identifier of {named}, but the lot table is for {township}")


def _csv(rows: Iterable[GisRow], plss_id: Optional[str]) -> str:
    """Return the rows as CSV, with the identifiers of the township and of sections if the first is known."""
    text = io.StringIO()
    writer = csv.writer(text, lineterminator="\n")
    writer.writerow(_COLUMNS if plss_id is None else _IDENTIFIERS + _COLUMNS)
    for row in rows:
        section = f"{row.section:02}"
        identifiers = () if plss_id is None else (plss_id, f"{plss_id}{SECTION}{section}{ONLY}")
        writer.writerow((*identifiers, section, row.quarter_quarter, row.lot, row.share, row.part))
    return text.getvalue()
