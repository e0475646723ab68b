"""The commands `acres` and `compare`: the acreage of land, and what two descriptions have in common."""
from __future__ import annotations

import argparse
import sys
from ctypes import byref
from decimal import Decimal
from typing import Any, Callable, List, NamedTuple, Union

from . import _library
from ._account import ACCOUNTS
from ._batch.options import STANDARD
from ._batch.stopped import Status, reading, writing
from ._land import Land
from ._lots import Lots
from ._plat import Plat
from ._refused import Refused, failure_of
from ._text import shown
from ._workbook import is_workbook, table_of_workbook
from ._written import text_by

#: The file descriptors of standard input and standard output.
_INPUT, _OUTPUT = 0, 1

_INPUTS = """\
NOTES contains the field notes of the township (CSV). With --lots, a lot table (CSV) takes their place: each
whole lot then counts at the acreage that the approved plat returns for it. A description is a file, or - for
standard input.
"""

_ACRES = """\
Prints the acreage of the land described.

""" + _INPUTS

_COMPARE = """\
Compares the land in two descriptions, A and B. For the land in both, the land only in A, and the land only in
B, prints the acreage and the canonical description.

""" + _INPUTS

_STATUS = """\
exit status:
  0    the descriptions are accepted
  1    the field notes, the lot table, or a description is refused; standard error says why
  2    the command line is not valid
  3    a file cannot be read, or memory ran out; standard error says why
"""


#: Returns the acreage of land.
Measure = Callable[[Land], Decimal]


class Command(NamedTuple):
    """A command: its parser, and the function that runs it."""

    parser: argparse.ArgumentParser
    run: Callable[[argparse.ArgumentParser, argparse.Namespace], int]


def acres_command(commands: Any) -> Command:
    """Return the command `acres`."""
    parser = commands.add_parser(
        "acres",
        help="give the acreage of the land in a description",
        usage="""python -m township acres [--account ACCOUNT] NOTES DESCRIPTION
       python -m township acres --lots LOTS DESCRIPTION""",
        description=_ACRES,
        epilog=_STATUS,
        formatter_class=argparse.RawDescriptionHelpFormatter,
    )
    _add_arguments(parser, "NOTES DESCRIPTION")
    return Command(parser, _run_acres)


def compare_command(commands: Any) -> Command:
    """Return the command `compare`."""
    parser = commands.add_parser(
        "compare",
        help="compare the land in two descriptions",
        usage="""python -m township compare [--account ACCOUNT] NOTES A B
       python -m township compare --lots LOTS A B""",
        description=_COMPARE,
        epilog=_STATUS,
        formatter_class=argparse.RawDescriptionHelpFormatter,
    )
    _add_arguments(parser, "NOTES A B")
    return Command(parser, _run_compare)


def _add_arguments(parser: argparse.ArgumentParser, files: str) -> None:
    parser.add_argument("files", metavar=files, nargs="*", help="files, or - for standard input")
    parser.add_argument("--lots", metavar="LOTS", help="use a lot table instead of field notes")
    parser.add_argument(
        "--account",
        choices=sorted(ACCOUNTS),
        help="how a whole lot counts: at its exact area, or as printed on the plat (default: exact)",
    )


def _run_acres(parser: argparse.ArgumentParser, asked: argparse.Namespace) -> int:
    def acreage(measure: Measure, lands: List[Land]) -> str:
        return f"{measure(lands[0])} acres\n"

    return _answer(_files_in(parser, asked, ["a description"]), asked, acreage)


def _run_compare(parser: argparse.ArgumentParser, asked: argparse.Namespace) -> int:
    def comparison(measure: Measure, lands: List[Land]) -> str:
        (first, second), (one, other) = lands, map(_shown, files[1:])
        found = (("both", first & second), (f"only {one}", first - second), (f"only {other}", second - first))
        return "".join(f"{name}: {measure(land)} acres\n{land.text}" for name, land in found)

    files = _files_in(parser, asked, ["description A", "description B"])
    return _answer(files, asked, comparison)


def _answer(files: List[str], asked: argparse.Namespace, text: Callable[[Measure, List[Land]], str]) -> int:
    """Read the files, and write the text of an answer, or the refusal of the first file that is refused."""
    basis, *descriptions = files
    account = {} if asked.account is None else {"account": asked.account}
    try:
        by = _basis_in(basis, asked.lots is not None)
        read = [_read(name, by) for name in descriptions]
        answer = text(lambda land: by.acres(land, **account), [each.land for each in read])
    except Refused as refused:
        _write(f"refused {refused.number} at {refused.at}\n")
        print(refused.explanation, end="", file=sys.stderr)
        return Status.REFUSED
    _write(answer)
    print("".join(each.note for each in read), end="", file=sys.stderr)
    return Status.ACCEPTED


def _files_in(parser: argparse.ArgumentParser, asked: argparse.Namespace, wanted: List[str]) -> List[str]:
    """Return the field notes or the lot table, and the descriptions. If the command line is not valid, exit."""
    if asked.lots is not None and asked.account is not None:
        parser.error("with --lots there is only one account")
    files: List[str] = asked.files if asked.lots is None else [asked.lots, *asked.files]
    if len(files) != 1 + len(wanted):
        wanted = wanted if asked.lots is not None else ["the field notes", *wanted]
        parser.error(f"name {' and '.join(wanted)}")
    if files.count(STANDARD) > 1:
        parser.error("only one file can be standard input")
    return files


def _basis_in(name: str, is_lots: bool) -> Union[Plat, Lots]:
    """Return the plat or the lot table in a file."""
    if is_lots:
        return _lots_in(name)
    return Plat._of_notes(_bytes_in(name, _library.NOTES_MOST), _source(name))


def _lots_in(name: str) -> Lots:
    """Return the lot table in a file, or in the first sheet of a workbook."""
    if is_workbook(name):
        with reading(_shown(name)):
            return Lots._read(table_of_workbook(name), _source(name))
    return Lots._read(_bytes_in(name, _library.LOTS_TEXT_MOST), _source(name))


class _Description(NamedTuple):
    """The land of a description, and the note on the first place that can be read in two ways, if any."""

    land: Land
    note: str


def _read(name: str, by: Union[Plat, Lots]) -> _Description:
    """Return the description in a file."""
    given, source = _bytes_in(name, _library.DESCRIPTION_MOST), _source(name)
    if isinstance(by, Lots):
        return _Description(by._land_of(given, source), "".join(note.text for note in by._notes_on(given, source)))
    land = Land._read(by.township, by._parts, given, source)
    explain = _library.explain_description
    answer, note = text_by(explain, byref(by._parts), given, len(given), source, len(source))
    if answer.verdict != _library.ACCEPTED:
        raise failure_of(answer.verdict)
    return _Description(land, note)


def _bytes_in(name: str, most: int) -> bytes:
    """Return the bytes of a file. One more than the most that are allowed is enough for the refusal."""
    is_standard = name == STANDARD
    with reading(_shown(name)), open(_INPUT if is_standard else name, "rb", closefd=not is_standard) as file:
        return file.read(most + 1)


def _shown(name: str) -> str:
    """Return what a message calls a file."""
    return "standard input" if name == STANDARD else shown(name)


def _source(name: str) -> bytes:
    """Return what an explanation calls a file."""
    return _shown(name).encode("utf-8", "backslashreplace")


def _write(text: str) -> None:
    """Write to standard output."""
    with writing(), open(_OUTPUT, "w", encoding="utf-8", errors="backslashreplace", closefd=False) as output:
        output.write(text)
