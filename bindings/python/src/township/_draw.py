"""`python -m township draw`: a plat as a drawing (SVG)."""
from __future__ import annotations

import argparse
from typing import Any, List

from . import _library
from ._batch import Status, Stopped
from ._batch.files import Basis, lots_in, plat_in
from ._measuring import Command, _bytes_in, _write
from ._refused import Refused

_USAGE = """python -m township draw [--section N] NOTES [DESCRIPTION] > plat.svg
       python -m township draw [--section N] --lots LOTS [DESCRIPTION] > plat.svg"""

_DRAW = """\
Draws the plat of a township, or one of its sections, as SVG on standard output. If there is a description,
its land is shaded, and its acreage is shown by each account. The drawing fits on letter and on A4 paper.

With --lots, the lots of a lot table are drawn where it says that they lie, with their acreage, and land that
the plat does not have is gray. Acreage is then by the table.
"""

_STATUS = """\
exit status:
  0    the plat is drawn
  1    the field notes, the lot table, or the description is refused; standard error says why
  2    the command line is not valid
  3    a file cannot be read, the drawing cannot be written, or memory ran out; standard error says why
"""

_SECTIONS = 36


def draw_command(commands: Any) -> Command:
    """Return the command `draw`."""
    draw = commands.add_parser(
        "draw",
        help="draw a plat, or a section of it, as SVG",
        usage=_USAGE,
        description=_DRAW,
        epilog=_STATUS,
        formatter_class=argparse.RawDescriptionHelpFormatter,
    )
    draw.add_argument(
        "files",
        metavar="NOTES DESCRIPTION",
        nargs="*",
        help="the field notes (CSV), and a file with a description, or - for standard input",
    )
    draw.add_argument("--lots", metavar="LOTS", help="draw the lots of a lot table (CSV) instead of field notes")
    draw.add_argument(
        "--section", metavar="N", type=_section, help="draw this section alone, down to the smallest parts"
    )
    return Command(draw, _run_draw)


def _run_draw(parser: argparse.ArgumentParser, asked: argparse.Namespace) -> Status:
    """Draw what the command line asks for. Raise `Stopped` if there is no drawing."""
    files: List[str] = asked.files if asked.lots is None else [asked.lots, *asked.files]
    if not 1 <= len(files) <= 2:
        parser.error("name the field notes, and at most one description" if asked.lots is None else "name one description")
    by: Basis = plat_in(files[0]) if asked.lots is None else lots_in(files[0])
    land = _bytes_in(files[1], _library.DESCRIPTION_MOST) if len(files) > 1 else None
    try:
        drawing = by.svg(land=land, section=asked.section)
    except Refused as refused:
        raise Stopped(refused.explanation.rstrip("\n"), Status.REFUSED) from refused
    _write(drawing)
    return Status.ACCEPTED


def _section(word: str) -> int:
    """Return the number of a section."""
    if not (word.isdecimal() and 1 <= int(word) <= _SECTIONS):
        raise argparse.ArgumentTypeError(f"`{word}` is not the number of a section, 1 to {_SECTIONS}")
    return int(word)
