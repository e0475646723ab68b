"""The columns of the attribute table, which differ by layer, by state, and by year."""
from __future__ import annotations

from typing import Dict, List, Mapping, NamedTuple, Optional, Sequence, Tuple

from .._batch.columns import column_in, optional_column_in


class ColumnName(NamedTuple):
    """A column that is read, by its key in `Columns`."""

    key: str
    #: Its name in the published schema.
    usual: str
    #: What it contains.
    contents: str

    @property
    def option(self) -> str:
        """The option that gives it another name."""
        return f"--{self.key.replace('_', '-')}"


#: The columns that are read, except for one that the command line may name besides.
COLUMNS = (
    ColumnName("plss_id", "PLSSID", "the identifier of the township"),
    ColumnName("division_id", "FRSTDIVID", "the identifier of the section, which is read if another column is missing"),
    ColumnName("section", "FRSTDIVNO", "the number of the section"),
    ColumnName("section_type", "FRSTDIVTYP", "the type of the first division: SN if it is a section"),
    ColumnName("section_duplicate", "FRSTDIVDUP", "the duplicate of the section: 0 if there is only one"),
    ColumnName("quarter", "QSEC", "the quarter section"),
    ColumnName("quarter_quarter", "QQSEC", "the quarter-quarter section"),
    ColumnName("lot", "GOVLOT", "the number of the lot"),
    ColumnName("acres", "RECRDAREANO", "the acreage returned on the plat"),
    ColumnName("division", "SECDIVNO", "the number of the second division, read if that of the lot is missing"),
    ColumnName("division_type", "SECDIVTYP", "the type of the second division: L if it is a lot, A if an aliquot part"),
    ColumnName("suffix", "SECDIVSUF", "the suffix of the number of the second division"),
    ColumnName("note", "SECDIVNOTE", "a note on the second division, which the report repeats"),
)

#: Columns of which one must be in the table.
_NEEDED = (
    ("plss_id", "division_id"),
    ("section", "division_id"),
    ("lot", "division"),
    ("quarter_quarter",),
    ("acres",),
)


class Columns:
    """Where the columns of an attribute table are."""

    def __init__(self, heading: Sequence[str], names: Mapping[str, str], place: str) -> None:
        """Find the columns. `names` has those that the command line gives, by their keys."""
        usual = {each.key: each for each in COLUMNS}
        found: Dict[str, Optional[int]] = {}
        for key, column in usual.items():
            find = column_in if key in names else optional_column_in
            found[key] = find(heading, names.get(key, column.usual), column.option, place)
        for keys in _NEEDED:
            if all(found[key] is None for key in keys):
                # The last of them says what is missing, with a heading that shows what there is.
                column_in(heading, usual[keys[0]].usual, usual[keys[0]].option, place)
        if found["lot"] is None and found["division_type"] is None:
            column = usual["division_type"]
            column_in(heading, column.usual, column.option, place)
        self._indexes = found
        self.width = len(heading)

    def has(self, key: str) -> bool:
        """Return whether the table has a column."""
        return self._indexes[key] is not None

    def in_order(self, keys: Sequence[str]) -> List[int]:
        """Return the indexes of columns. A column that is missing has the index of an empty field after the others."""
        return [self.width if (index := self._indexes[key]) is None else index for key in keys]


class Marked(NamedTuple):
    """A text in a column, which says that the plat has no land there."""

    column: int
    text: str


def marked_in(heading: Sequence[str], marked: Tuple[str, str], place: str) -> Marked:
    """Find the column of a text that says that the plat has no land."""
    return Marked(column_in(heading, marked[0], "--no-land", place), marked[1])
