"""`python -m township lots`: a lot table to fill in, and lot tables from the attribute tables of CadNSDI."""
from __future__ import annotations

import argparse
from typing import Any, List, Tuple

from ._batch.decoding import ENCODINGS
from ._batch.stopped import Status
from ._cadnsdi import COLUMNS, Import, run_import
from ._lots import Lots
from ._measuring import _write
from ._spelling import township_named
from ._township import Township

_USAGE = """python -m township lots new TOWNSHIP > lots.csv
       python -m township lots import [options] FILE > report.csv"""

_NEW = """\
Writes a lot table (CSV) to fill in: each lot of the township has 40.00 acres. Replace each figure with the one on
the approved plat, and delete the records of lots whose acreage is not known: every figure that is left counts as
returned.
"""

_NEW_STATUS = """\
exit status:
  0    the table is written
  2    the command line is not valid
  3    the table cannot be written; standard error says why
"""

_IMPORT = """\
Writes a lot table for each township, with the land of each lot, from the attribute table of the second divisions or
of the intersected layer in BLM's CadNSDI, as CSV. The columns are those of "PLSS CadNSDI Standard Domains of Values";
since they differ by layer, state, and year, each can be given another name.

Nothing is guessed. Standard output lists each row that cannot be used, and why: a lot without a quarter-quarter or
an acreage, for example, or with two acreages. Such a lot is not written, and the name of its township's table ends
with .incomplete: add the lots by hand, and rename it. Which part of a quarter-quarter each of several lots has is not
in the attribute table; they are given parts in the order of their numbers.
"""

_IMPORT_STATUS = """\
exit status:
  0    all rows of lots are used
  1    some are not, as the report says, or there are none; or a table has more lots, or more divided quarter-quarters,
       than a lot table can have, as standard error says
  2    the command line is not valid
  3    a file cannot be read or written, the table lacks a column, or memory ran out; standard error says why
"""


def add_lots(commands: Any) -> None:
    """Add the command to those of the command line."""
    lots = commands.add_parser("lots", help="write lot tables", usage=_USAGE)
    actions = lots.add_subparsers(metavar="new|import", required=True)
    _add_new(actions)
    _add_import(actions)


def _add_new(actions: Any) -> None:
    new = actions.add_parser(
        "new",
        help="write a lot table to fill in",
        usage="python -m township lots new TOWNSHIP > lots.csv",
        description=_NEW,
        epilog=_NEW_STATUS,
        formatter_class=argparse.RawDescriptionHelpFormatter,
    )
    new.add_argument("township", metavar="TOWNSHIP", type=_township, help='the township, as in "T. 2 N., R. 3 W."')
    new.set_defaults(run=_run_new)


def _add_import(actions: Any) -> None:
    table = actions.add_parser(
        "import",
        help="write lot tables from an attribute table of CadNSDI",
        usage="python -m township lots import [options] FILE > report.csv",
        description=_IMPORT,
        epilog=_IMPORT_STATUS,
        formatter_class=argparse.RawDescriptionHelpFormatter,
    )
    table.add_argument("file", metavar="FILE", help="the attribute table (CSV), or - for standard input")
    table.add_argument(
        "--out", metavar="FOLDER", default="plats", help="the folder for the lot tables (default: plats)"
    )
    for column in COLUMNS:
        table.add_argument(
            column.option, metavar="COLUMN", help=f"the column of {column.contents} (default: {column.usual})"
        )
    table.add_argument(
        "--no-land",
        metavar="COLUMN=TEXT",
        type=_marked,
        help="rows with this text in this column say that the plat has no land there, such as that of a lake",
    )
    table.add_argument(
        "--encoding",
        choices=sorted(ENCODINGS),
        default="utf-8",
        help="the encoding of a file without a byte order mark (default: utf-8)",
    )
    table.add_argument("--replace", action="store_true", help="replace tables that exist, and are different")
    table.set_defaults(run=_run_import)


def _run_new(asked: argparse.Namespace) -> Status:
    _write(Lots.new(asked.township).csv())
    return Status.ACCEPTED


def _run_import(asked: argparse.Namespace) -> Status:
    given = {column.key: getattr(asked, column.key) for column in COLUMNS}
    return run_import(
        Import(
            file=asked.file,
            out=asked.out,
            columns={key: name for key, name in given.items() if name is not None},
            no_land=asked.no_land,
            encoding=asked.encoding,
            replace=asked.replace,
        )
    )


def _township(word: str) -> Township:
    """Return a township."""
    try:
        return township_named(word)
    except ValueError as error:
        raise argparse.ArgumentTypeError(str(error)) from error


def _marked(word: str) -> Tuple[str, str]:
    """Return a column, and a text in it."""
    parts: List[str] = word.split("=", 1)
    if len(parts) != 2 or not all(parts):
        raise argparse.ArgumentTypeError(f"`{word}` is not a column and a text in it, such as SURVTYP=W")
    return parts[0], parts[1]
