"""The command line of `python -m township`, and its exit status."""
from __future__ import annotations

import argparse
import sys
from typing import Any, Dict, Optional, Sequence, Tuple

from . import __version__, version
from ._account import ACCOUNTS
from ._batch import Options, Status, Stopped, run_batch
from ._batch.decoding import ENCODINGS
from ._batch.options import STANDARD
from ._batch.workbook import is_workbook
from ._draw import draw_command
from ._gis_command import parts_command
from ._lots_command import add_lots
from ._measuring import Command, acres_command, compare_command
from ._serve import add_serve
from ._suggest import suggest_command

#: The most processes that can be asked for.
_JOBS_MOST = 1024

_USAGE = """python -m township batch [options] NOTES LIST
       python -m township batch [options] --lots LOTS LIST
       python -m township batch [options] --plats FOLDER [--headings] LIST"""

_BATCH = """\
Gives the acreage of each description in a list.

The list is a CSV file, a workbook (.xlsx), or a Parquet file (.parquet). Its column `description` contains the
descriptions. All are in the township of the field notes NOTES, or of the lot table LOTS; or, with --plats,
the column `township` says in which township each is, as in T. 2 N., R. 3 W. The folder contains field notes
and lot tables; if a township has both, the lot table controls, and of lot tables with different dates the newest
one, or the one whose date is in the column that --date names. With --headings, too, there is no such column:
each description begins with its township, and can go on with land in others. The same columns are written,
and these:

  acres      the acreage of the land described, if the description is accepted
  refusal    the number of the refusal, if it is refused
  at         the location of the error: a byte of the description in UTF-8, counted from 0
  sentence   what is wrong, in words
  note       both readings of the first place that can be read in two ways, if it is accepted
  canonical  the canonical description, which is the same for all descriptions of the same land

With --plats, this one is added, too:

  plat       the file by which the acreage is computed, or `missing` if the township has none (of the date)

With --headings, this one is added, too:

  by_township  the acreage in each township; `acres` is the exact total, rounded once

With --suggest, these are added, too. They never change the columns above:

  reading        how the text would be written as a description, if it can be read in only one way
  readings       the number of its readings
  assumes        what that reading assumes
  reading_acres  the acreage of that reading
  unread         why there is no reading: the words that are not understood, what can be read in two ways, and why
                 lots and aliquot parts can't describe the land

With --words, these readings leave out the phrases in a file, one on each line, that are not land. A phrase that
names land, excepts it, or limits it is refused.
"""

_STATUS = """\
exit status:
  0    all descriptions are accepted
  1    some descriptions, files of the folder, or phrases are refused; standard error says why files and
       phrases are
  2    the command line is not valid
  3    a file cannot be read or written, the list has no such column, or memory ran out; standard error
       says why
  130  interrupted by Ctrl-C; the answers so far are written
  141  the reader of the output has closed it
"""


def main(words: Optional[Sequence[str]] = None) -> int:
    """Run the command line with these arguments, or with those of the process. Return the exit status."""
    try:
        return _run(sys.argv[1:] if words is None else list(words))
    except Stopped as stopped:
        if str(stopped):
            print(stopped, file=sys.stderr)
        return stopped.status
    except MemoryError:
        print("township: out of memory", file=sys.stderr)
        return Status.NO_ANSWER
    except KeyboardInterrupt:
        return Status.INTERRUPTED


def _run(words: Sequence[str]) -> int:
    """Run the command line with these arguments. If it is not valid, exit with status 2."""
    parser, commands = _parsers()
    command = commands.get(words[0]) if words else None
    if command is None:
        asked = parser.parse_args(words)
        status: int = asked.run(asked)
        return status
    # Options may come between the file names, which subcommands of argparse do not allow.
    return command.run(command.parser, command.parser.parse_intermixed_args(words[1:]))


def _run_batch(batch: argparse.ArgumentParser, asked: argparse.Namespace) -> int:
    return run_batch(_options_in(batch, asked))


def _options_in(batch: argparse.ArgumentParser, asked: argparse.Namespace) -> Options:
    """Return what the command line of a batch asks for. If it is not valid, exit with status 2."""
    _check_inputs(batch, asked)
    output = None if asked.output == STANDARD else asked.output
    if asked.resume and (output is None or is_workbook(output)):
        batch.error("--resume needs an --output file that is not a workbook")
    *notes, listed = asked.files
    if asked.sheet is not None and not is_workbook(listed):
        batch.error("--sheet needs a list that is a workbook")
    if asked.words is not None and not asked.suggest:
        batch.error("--words needs --suggest, whose readings leave the phrases out")
    return Options(
        list=listed,
        notes=notes[0] if notes else None,
        lots=asked.lots,
        plats=asked.plats,
        headings=asked.headings,
        account=asked.account or "exact",
        column=asked.column,
        township=asked.township or "township",
        meridian=asked.meridian,
        date=asked.date,
        sheet=asked.sheet,
        prefix=asked.prefix,
        encoding=asked.encoding,
        output=output,
        resume=asked.resume,
        suggest=asked.suggest,
        words=asked.words,
        jobs=asked.jobs,
    )


def _check_inputs(batch: argparse.ArgumentParser, asked: argparse.Namespace) -> None:
    """If the command line does not name one list, and one thing by which to answer it, exit with status 2."""
    if asked.lots is not None and asked.plats is not None:
        batch.error("name a lot table with --lots, or a folder with --plats")
    if asked.headings and asked.plats is None:
        batch.error("--headings needs a folder, which --plats names")
    if asked.date is not None and asked.plats is None:
        batch.error("--date needs a folder, which --plats names")
    if asked.headings and asked.township is not None:
        batch.error("with --headings there is no column of the township")
    if asked.lots is not None and asked.account is not None:
        batch.error("with --lots there is only one account")
    named = "--plats" if asked.plats is not None else "--lots" if asked.lots is not None else None
    if len(asked.files) != (1 if named else 2):
        batch.error(f"with {named}, name only the list" if named else "name the field notes and the list")


def _count(word: str) -> int:
    """Return a number of processes."""
    if not (word.isdecimal() and 1 <= int(word) <= _JOBS_MOST):
        raise argparse.ArgumentTypeError(f"`{word}` is not a number of processes, 1 to {_JOBS_MOST:,}")
    return int(word)


def _parsers() -> Tuple[argparse.ArgumentParser, Dict[str, Command]]:
    """Return the parser of the command line, and by their names the commands that it cannot parse itself."""
    parser = argparse.ArgumentParser(prog="python -m township", description="Acreage of land in a township.")
    parser.add_argument("--version", action="version", version=_version())
    commands = parser.add_subparsers(metavar="COMMAND", required=True)
    draw = draw_command(commands)
    add_lots(commands)
    add_serve(commands)
    return parser, {
        "draw": draw,
        "acres": acres_command(commands),
        "compare": compare_command(commands),
        "parts": parts_command(commands),
        "suggest": suggest_command(commands),
        "batch": _batch_command(commands),
    }


def _version() -> str:
    """Return the version of the library and, if the package is not a release, its build."""
    build = "" if __version__ == version() else f" (build {__version__})"
    return f"township {version()}{build}"


def _batch_command(commands: Any) -> Command:
    """Return the command `batch`."""
    batch = commands.add_parser(
        "batch",
        help="give the acreage of each description in a list",
        usage=_USAGE,
        description=_BATCH,
        epilog=_STATUS,
        formatter_class=argparse.RawDescriptionHelpFormatter,
    )
    batch.add_argument(
        "files",
        metavar="NOTES LIST",
        nargs="*",
        help="the field notes (CSV), and the list, or - for standard input",
    )
    _add_inputs(batch)
    _add_outputs(batch)
    return Command(batch, _run_batch)


def _add_inputs(batch: argparse.ArgumentParser) -> None:
    """Add the options for what is read."""
    batch.add_argument("--lots", metavar="LOTS", help="use a lot table (CSV) instead of field notes")
    batch.add_argument(
        "--plats",
        metavar="FOLDER",
        help="a folder of field notes and lot tables, one or both for each township; or of folders by principal "
        "meridian",
    )
    batch.add_argument(
        "--headings",
        action="store_true",
        help="with --plats, take the townships of each description from its headings",
    )
    batch.add_argument(
        "--account",
        choices=sorted(ACCOUNTS),
        help="how a whole lot counts by field notes: at its exact area, or as printed on the plat (default: exact)",
    )
    batch.add_argument(
        "--column",
        metavar="NAME",
        default="description",
        help="the column of descriptions, by its name, or by its number if no column has that name "
        "(default: description)",
    )
    batch.add_argument(
        "--township",
        metavar="NAME",
        help="with --plats, the column of the township (default: township)",
    )
    batch.add_argument(
        "--meridian",
        metavar="NAME",
        help="with --plats, the column of the principal meridian (default: meridian, if there is one)",
    )
    batch.add_argument(
        "--date",
        metavar="NAME",
        help="with --plats, the column of the date of the plat, as in 1912-03-04 (default: the newest lot table of "
        "each township)",
    )
    batch.add_argument(
        "--sheet",
        metavar="NAME",
        help="the sheet of a workbook (default: the one that is shown when it is opened)",
    )
    batch.add_argument(
        "--encoding",
        choices=sorted(ENCODINGS),
        default="utf-8",
        help="the encoding of a CSV list without a byte order mark (default: utf-8)",
    )


def _add_outputs(batch: argparse.ArgumentParser) -> None:
    """Add the options for what is written."""
    batch.add_argument(
        "--output",
        metavar="FILE",
        help="write the answers to this file: CSV, or a workbook if its name ends in .xlsx",
    )
    batch.add_argument(
        "--resume", action="store_true", help="go on where the output of an interrupted batch ends"
    )
    batch.add_argument(
        "--jobs",
        metavar="N",
        type=_count,
        default=1,
        help="answer in N processes, for a long list (default: 1; a workbook is written by one)",
    )
    batch.add_argument(
        "--suggest", action="store_true", help="add columns on the readings of each description"
    )
    batch.add_argument("--words", metavar="FILE", help="with --suggest, leave out the phrases in this file")
    batch.add_argument(
        "--prefix", metavar="TEXT", default="", help="begin the name of each added column with this text"
    )
