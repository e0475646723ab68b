"""What the command line asks for."""
from __future__ import annotations

from typing import NamedTuple, Optional

from .._account import Account

#: The argument that means standard input or, for the output, standard output.
STANDARD = "-"


class Options(NamedTuple):
    """The options of a batch, as `python -m township batch --help` describes them."""

    #: The name of the list, or `-`.
    list: str
    #: The name of the file of field notes. If it is `None`, `lots` or `plats` is not.
    notes: Optional[str] = None
    #: The name of the lot table.
    lots: Optional[str] = None
    #: The name of the folder of field notes and lot tables.
    plats: Optional[str] = None
    #: Whether the descriptions begin with their townships.
    headings: bool = False
    account: Account = "exact"
    #: The names of the columns that are read.
    column: str = "description"
    township: str = "township"
    #: If it is `None`, a column `meridian` is used if there is one.
    meridian: Optional[str] = None
    #: The column of the date of the plat. If it is `None`, the newest lot table of a township is used.
    date: Optional[str] = None
    #: The sheet of a workbook. If it is `None`, it is the one that is shown when the workbook is opened.
    sheet: Optional[str] = None
    #: What the name of each added column begins with.
    prefix: str = ""
    #: The encoding of a list that has no byte order mark.
    encoding: str = "utf-8"
    #: The name of the file for the answers. If it is `None`, they go to standard output.
    output: Optional[str] = None
    #: Whether to go on where the output ends.
    resume: bool = False
    #: Whether to add columns on the readings of each description.
    suggest: bool = False
    #: The name of a file of phrases that these readings leave out.
    words: Optional[str] = None
    #: The number of processes that answer records.
    jobs: int = 1
