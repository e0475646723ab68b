"""`python -m township suggest`: what a text may mean, written as descriptions, with their acreage."""
from __future__ import annotations

import argparse
import itertools
from typing import Any, Callable, List, Optional, Sequence, Tuple, Union

from . import _library
from ._account import ACCOUNTS, Account
from ._batch.options import STANDARD
from ._batch.stopped import Status, Stopped, reading
from ._ignored import Phrases
from ._lots import Lots
from ._measuring import Command, _basis_in, _bytes_in, _write
from ._part_readings import PartReadings
from ._phrases import MANNERS_SAID, condition_of, phrases_of, shared_of, tidy
from ._plat import Plat
from ._plats import MissingPlat, Plats
from ._readings import STANDARD_LOTS, Change, Reading, Readings, assumptions_of
from ._refused import Refused
from ._spelling import township_in_heading
from ._split import TownshipText
from ._text import encoded

_USAGE = """python -m township suggest [--account ACCOUNT] [--words FILE] NOTES DESCRIPTION
       python -m township suggest [--words FILE] --lots LOTS DESCRIPTION
       python -m township suggest [--account ACCOUNT] [--words FILE] --plats FOLDER [--meridian NAME] DESCRIPTION"""

_SUGGEST = """\
Shows how a text, such as one of a lease or a register, would be written as a description: each of its readings,
with its acreage, what was changed, and what is assumed. It decides nothing: pick the reading that is meant. NOTES
contains the field notes of the township (CSV); DESCRIPTION is a file, or - for standard input.

With --lots, a lot table (CSV) takes the place of the field notes, and readings name the lots of its plat. With
--plats, the text may describe land in several townships: each part is read by the field notes or the lot table
of its township in a folder.

With --words, the readings leave out the phrases in a file, one on each line, that are not land. A phrase that
names land, excepts it, or limits it is refused.
"""

_STATUS = """\
exit status:
  0    the text has one reading
  1    the text has several readings
  2    the command line is not valid
  3    the field notes, the lot table, or the phrases are refused, a file cannot be read, or memory ran out;
       standard error says why
  4    the text has no reading

A text with land in several townships has one reading if each of its parts has one, and none if one has none.
"""

#: The exit statuses of a text that has several readings, and of one that has none.
SEVERAL_READINGS, NO_READING = 1, 4

_NOT_CERTAIN = "no reading is certain"

#: The width of the column of phrases, if none is wider.
_PHRASE = 9


def suggest_command(commands: Any) -> Command:
    """Return the command `suggest`."""
    parser = commands.add_parser(
        "suggest",
        help="show how a text would be written as a description",
        usage=_USAGE,
        description=_SUGGEST,
        epilog=_STATUS,
        formatter_class=argparse.RawDescriptionHelpFormatter,
    )
    parser.add_argument("files", metavar="NOTES DESCRIPTION", nargs="*", help="files, or - for standard input")
    parser.add_argument("--lots", metavar="LOTS", help="use a lot table instead of field notes")
    parser.add_argument(
        "--plats", metavar="FOLDER", help="use a folder of field notes and lot tables, one or both for each township"
    )
    parser.add_argument(
        "--meridian",
        metavar="NAME",
        help="with --plats, the principal meridian, if the folder has a folder for each",
    )
    parser.add_argument(
        "--account",
        choices=sorted(ACCOUNTS),
        help="how a whole lot counts by field notes: at its exact area, or as printed on the plat (default: exact)",
    )
    parser.add_argument("--words", metavar="FILE", help="leave out the phrases in this file")
    return Command(parser, _run_suggest)


def _run_suggest(parser: argparse.ArgumentParser, asked: argparse.Namespace) -> int:
    basis, name = _files_in(parser, asked)
    read = _reader_in(basis, asked)
    phrases = Phrases() if asked.words is None else _phrases_in(asked.words)
    most = _library.DESCRIPTION_MOST if asked.plats is None else _library.SPLIT_MOST
    given = _bytes_in(name, most)
    parts = read(given, phrases)
    _write("".join(f"{line}\n" for line in _lines_of_parts(given, parts)))
    if not all(part.readings for part in parts):
        return NO_READING
    return SEVERAL_READINGS if any(len(part.readings) > 1 for part in parts) else Status.ACCEPTED


def _files_in(parser: argparse.ArgumentParser, asked: argparse.Namespace) -> Tuple[str, str]:
    """Return what the text is read by, and the text. If the command line is not valid, exit."""
    if asked.lots is not None and asked.plats is not None:
        parser.error("name a lot table with --lots, or a folder with --plats")
    if asked.meridian is not None and asked.plats is None:
        parser.error("--meridian needs a folder, which --plats names")
    if asked.lots is not None and asked.account is not None:
        parser.error("with --lots there is only one account")
    named = asked.lots if asked.lots is not None else asked.plats
    files: List[str] = asked.files if named is None else [named, *asked.files]
    if len(files) != 2:
        parser.error("name the field notes and a description" if named is None else "name a description")
    if asked.plats is None and files == [STANDARD, STANDARD]:
        parser.error("only one file can be standard input")
    return files[0], files[1]


#: Returns the readings of each part of a text, without phrases.
_Reader = Callable[[bytes, Phrases], List[PartReadings]]


def _reader_in(basis: str, asked: argparse.Namespace) -> _Reader:
    """Return what reads a text by field notes, by a lot table, or by a folder of both."""
    account: Account = asked.account or "exact"
    if asked.plats is not None:
        plats = _plats_in(basis, asked.meridian)
        return lambda given, phrases: _parts_by(plats, given, account, phrases)
    try:
        by = _basis_in(basis, asked.lots is not None)
    except Refused as refused:
        raise Stopped(refused.explanation.rstrip("\n")) from refused
    return lambda given, phrases: _as_one_part(given, _readings_by(by, given, account, phrases))


def _readings_by(by: Union[Plat, Lots], given: bytes, account: Account, phrases: Phrases) -> Readings:
    """Return the readings of a text about one township. Only on a plat is there a choice of accounts."""
    return by.suggest(given, account, phrases) if isinstance(by, Plat) else by.suggest(given, phrases)


def _as_one_part(given: bytes, found: Readings) -> List[PartReadings]:
    """Return the readings of a text that is about one township."""
    return [PartReadings(TownshipText("", 0, len(given)), found)]


def _parts_by(plats: Plats, given: bytes, account: Account, phrases: Phrases) -> List[PartReadings]:
    """Return the readings of each part of a text, or stop if it is too long."""
    try:
        return plats.suggest(given, account, phrases)
    except Refused as refused:
        raise Stopped(refused.explanation.rstrip("\n")) from refused


def _plats_in(folder: str, meridian: Optional[str]) -> Plats:
    """Return the plats and lot tables in a folder, or stop."""
    with reading(folder):
        try:
            return Plats.open(folder, meridian)
        except ValueError as error:
            lines = str(error).split("\n")
            if not lines[0].startswith("township: "):
                lines[0] = f"township: {lines[0]}"
            raise Stopped("\n".join(lines)) from error


def _phrases_in(name: str) -> Phrases:
    """Return the phrases in a file, or stop with the status of a file that cannot be read."""
    with reading(name):
        try:
            return Phrases.open(name)
        except Refused as refused:
            raise Stopped(refused.explanation.rstrip("\n")) from refused


def _lines_of_parts(given: bytes, parts: Sequence[PartReadings]) -> List[str]:
    """Return the lines that show the readings of each part of a text. If there are several, each has a heading."""
    if len(parts) == 1:
        return lines_of(given, parts[0].readings)
    lines: List[str] = []
    for number, (part, found) in enumerate(parts, 1):
        between = [""] if lines else []
        own = lines_of(given[part.start : part.end], found)
        lines += [*between, f"part {number} of {len(parts)}{_township_of(part)}", *own]
    return lines


def _township_of(part: TownshipText) -> str:
    """Return the township of a part as the end of its heading, or nothing if it has none."""
    try:
        return f": {part.township}"
    except Refused:
        return ""


def lines_of(given: bytes, found: Readings) -> List[str]:
    """Return the lines that show the readings of a text.

    >>> text = "NENE, S2NE4 Sec 14-2N-3W"
    >>> print(*lines_of(text.encode(), plat.suggest(text)), sep="\\n")
    1. T. 2 N., R. 3 W., sec. 14, NE1/4NE1/4, S1/2NE1/4.    120.00 acres
         NENE      is NE1/4NE1/4
         S2NE4     is S1/2NE1/4
         Sec 14-2N-3W is section, township, and range
         `NENE`: no comma is missing
         `S2NE4`: no comma is missing
    """
    if not found:
        return _why_none(found)
    conditions = [condition_of(given, reading, found) for reading in found]
    readings = _shown_readings(found, conditions)
    if len(found) > 1 and all(conditions):
        # They differ in their conditions alone.
        return [*readings, *_explained(given, shared_of(found), found)]
    return [
        line
        for reading, first in zip(found, readings)
        for line in (first, *_explained(given, reading.changes, [reading]))
    ]


def _why_none(found: Readings) -> List[str]:
    """Return the lines that say why a text has no reading.

    >>> print(*_why_none(township.suggest("PT NENE SEC 21 T2N R3W")), sep="\\n")
    not expressible by lots and aliquot parts: a portion needs a survey
         not understood: `PT`
    """
    first = f"not expressible by lots and aliquot parts: {found.reason}" if found.reason else _NOT_CERTAIN
    return [first, *(f"     {unread}" for unread in found.unread)]


def _shown_readings(found: Readings, conditions: Sequence[Optional[str]]) -> List[str]:
    """Return a line for each reading: its number, the description, the acreage, and the condition, in columns."""
    texts = [tidy(reading.text) for reading in found]
    acres = ["" if reading.acres is None else f"{reading.acres} acres" for reading in found]
    wide, far = (max(map(len, column)) for column in (texts, acres))
    return [
        "    ".join(filter(None, (f"{number}. {text:<{wide}}", acreage.rjust(far), _why_no_acres(reading), condition)))
        for number, text, acreage, reading, condition in zip(itertools.count(1), texts, acres, found, conditions)
    ]


def _why_no_acres(reading: Reading) -> str:
    """Return why a reading has no acreage, or nothing if it has one."""
    refused = reading.refused
    if refused is not None:
        return f"refused {refused.number}: {refused.sentence}"
    return "" if reading.acres is not None else str(MissingPlat(township_in_heading(encoded(reading.text))))


def _explained(given: bytes, changes: Sequence[Change], readings: Sequence[Reading]) -> List[str]:
    """Return a line for each phrase that the changes turn into something else, and for each of their assumptions."""
    phrases = [f"     {phrase.text:<{_PHRASE}} {phrase.meaning}" for phrase in phrases_of(given, changes)]
    manners = dict.fromkeys(MANNERS_SAID[each.manner] for each in readings if each.manner in MANNERS_SAID)
    lots = [STANDARD_LOTS] if any(each.assumes_standard_lots for each in readings) else []
    return phrases + [f"     {said}" for said in (*manners, *assumptions_of(changes), *lots)]
