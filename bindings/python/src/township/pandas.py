"""Acreage for the columns of a pandas data frame.

Importing this module adds the accessor `township` to every series:

    import pandas as pd
    import township
    import township.pandas

    plat = township.Plat.open("samples/b1.csv")
    frame = pd.read_csv("list.csv")
    frame["acres"] = frame["description"].township.acres(plat)
    frame = frame.join(frame["description"].township.answers(plat), rsuffix="_answer")

A missing description stays missing in every column. Acreage is `float64`, and each figure is the float
nearest to the hundredths; numbers of refusals are `Int64`. So sums, means, and comparisons work without
conversion.
"""
from __future__ import annotations

from typing import Any, Dict, Iterable, Iterator, List, NamedTuple, Optional, Sequence, Tuple, Union

import numpy
import pandas

from ._account import Account, code_of
from ._column import Basis, Measured, canonical_texts, lands_of, measured, shared_lands
from ._lots import Lots
from ._plat import Plat
from ._refused import Refused
from ._threads import checked

#: One plat or lot table for the whole column, or a series that gives that of each row.
Plats = Union[Plat, Lots, "pandas.Series[Any]"]

#: What `answers` says of a description without a plat.
_NO_PLAT = "there is no plat and no lot table for this row"


class _Rows(NamedTuple):
    """The rows that are answered by a plat or a lot table, counted from 0, and their values."""

    by: Basis
    rows: List[int]
    values: List[Any]


@pandas.api.extensions.register_series_accessor("township")
class Descriptions:
    """A column of descriptions, or of land: `frame["description"].township`.

    Each method takes a `Plat`, or a lot table (`Lots`), or a series with the plat or the lot table of each row and the
    same index as the column. The account matters only on a plat. If the plat or the description is missing, so is the
    answer. At most `threads` threads share the descriptions on a plat, each at least 1,000 of them. A value that is not text, land, or missing raises `TypeError`; land in another township raises `ValueError`.
    """

    def __init__(self, column: "pandas.Series[Any]") -> None:
        self._column = column

    def acres(self, plat: Plats, account: Account = "exact", *, threads: int = 1) -> "pandas.Series[Any]":
        """Return the acreage of each description (`float64`): `NaN` if it is refused or missing.

        >>> frame["description"].township.acres(plat).sum()
        201.45
        """
        acres = numpy.full(len(self._column), numpy.nan)
        for rows, answers in self._answers(plat, account, threads):
            acres[rows] = _acres_in(answers)
        return pandas.Series(acres, self._column.index, name="acres")

    def answers(self, plat: Plats, account: Account = "exact", *, threads: int = 1) -> "pandas.DataFrame":
        """Return a frame with the answers: `acres` (`float64`), `refusal` and `at` (`Int64`), and `sentence`.

        If a description is refused, `refusal` is the number of the refusal, `at` its location, and `sentence`
        says what is wrong. If the plat of a description is missing, `sentence` says so, and `refusal` is missing.

        >>> answers = frame["description"].township.answers(plat)
        >>> answers["refusal"].value_counts().to_dict()
        {67: 1}
        """
        index = self._column.index
        acres = numpy.full(len(index), numpy.nan)
        refused: List[Optional[Refused]] = [None] * len(index)
        for rows, answers in self._answers(plat, account, threads):
            acres[rows] = _acres_in(answers)
            for place, refusal in answers.refused.items():
                refused[rows[place]] = refusal
        made = {"acres": pandas.Series(acres, index)}
        for column, (name, dtype) in _OF_REFUSALS.items():
            fields = [None if one is None else getattr(one, name) for one in refused]
            made[column] = pandas.Series(fields, index, dtype=dtype)
        made["sentence"].iloc[self._without_plat(plat)] = _NO_PLAT
        return pandas.DataFrame(made, index=index)

    def normal(self, plat: Plats, *, threads: int = 1) -> "pandas.Series[Any]":
        """Return the canonical text of each description (`string`): missing if it is refused or missing.

        >>> print(frame["description"].township.normal(plat)[0], end="")
        T. 2 N., R. 3 W.,
        sec. 5, lots 1, 2, S1/2NE1/4.
        """
        texts: List[Optional[str]] = [None] * len(self._column)
        checked(threads)
        for by, rows, values in self._present_rows(plat):
            for row, text in zip(rows, canonical_texts(by, values, threads)):
                texts[row] = text
        return pandas.Series(texts, self._column.index, dtype="string", name="normal")

    def lands(self, plat: Plats) -> "pandas.Series[Any]":
        """Return the land of each description (`Land`): `None` if it is refused or missing.

        >>> lands = frame["description"].township.lands(plat)
        >>> township.Land.union(lands.dropna())
        <township.Land: T. 2 N., R. 3 W., sec. 5, lots 1, 2, S1/2NE1/4.>
        """
        # An array takes land, over which one can iterate, as a single value.
        lands = numpy.full(len(self._column), None, dtype=object)
        for by, rows, values in self._present_rows(plat):
            for row, land in zip(rows, lands_of(by, values)):
                lands[row] = land
        return pandas.Series(lands, self._column.index, name="land")

    def overlaps(self, plat: Plats) -> "pandas.DataFrame":
        """Return a frame with all overlaps in the column: a row for any two descriptions that share land.

        `first` and `second` are their labels in the index, the earlier row's first; `acres` (`float64`) and
        `canonical` (`string`) are the acreage and the canonical text of the land in both. Only rows on the same plat,
        or by the same lot table, overlap. If the lot table lacks a lot of that land, `acres` is `NaN`.

        >>> overlaps = frame["description"].township.overlaps(plat)
        >>> overlaps[["first", "second", "acres"]].values.tolist()
        [[0.0, 2.0, 40.45]]
        """
        found: List[Tuple[int, int, float, str]] = []
        for by, rows, values in self._present_rows(plat):
            for first, second, land in shared_lands(list(lands_of(by, values))):
                acres, = _acres_in(measured(by, [land], "exact"))
                found.append((rows[second], rows[first], acres, land.text))
        found.sort(key=lambda each: each[:2])
        labels = self._column.index
        made = {
            "first": labels.take([first for _, first, _, _ in found]),
            "second": labels.take([second for second, _, _, _ in found]),
            "acres": numpy.array([acres for _, _, acres, _ in found], dtype="float64"),
            "canonical": pandas.array([text for *_, text in found], dtype="string"),
        }
        return pandas.DataFrame(made)

    def _answers(self, plat: Plats, account: Account, threads: int) -> Iterator[Tuple[List[int], Measured]]:
        """Yield the answers on each plat, and their rows, counted from 0. Missing descriptions have none."""
        code_of(account)
        checked(threads)
        for by, rows, values in self._present_rows(plat):
            yield rows, measured(by, values, account, threads)

    def _present_rows(self, plat: Plats) -> Iterator[_Rows]:
        """Yield each plat, the rows that are on it, and their descriptions. Missing descriptions are left out."""
        values = self._column.tolist()
        missing = self._column.isna().tolist()
        for by, rows in self._rows_on(plat):
            present = [row for row in rows if not missing[row]]
            yield _Rows(by, present, [values[row] for row in present])

    def _without_plat(self, plat: Plats) -> List[int]:
        """Return the rows that have a description and no plat."""
        missing = self._column.isna().tolist()
        return [row for row, by in enumerate(self._plats(plat)) if by is None and not missing[row]]

    def _rows_on(self, plat: Plats) -> Iterable[Tuple[Basis, Sequence[int]]]:
        """Return each plat and its rows."""
        if isinstance(plat, (Plat, Lots)):
            return [(plat, range(len(self._column)))]
        rows: Dict[Basis, List[int]] = {}
        for row, one in enumerate(self._plats(plat)):
            if one is not None:
                rows.setdefault(one, []).append(row)
        return rows.items()

    def _plats(self, plat: Plats) -> List[Optional[Basis]]:
        """Return the plat of each row."""
        if isinstance(plat, (Plat, Lots)):
            return [plat] * len(self._column)
        if not isinstance(plat, pandas.Series):
            raise TypeError(f"a plat is a Plat, Lots, or a series of them, not {type(plat).__name__}")
        if not plat.index.equals(self._column.index):
            raise ValueError("the series of plats must have the same index as the descriptions")
        return [_basis(one) for one in plat]


def _acres_in(answers: Measured) -> Any:
    """Return the acreage of each answer, as an array: `NaN` if it is refused."""
    acres = numpy.array(answers.hundredths, dtype="float64") / 100
    acres[list(answers.refused)] = numpy.nan
    return acres


#: The columns of `answers` that say what is refused: the attribute of `Refused`, and the column's type.
_OF_REFUSALS = {"refusal": ("number", "Int64"), "at": ("at", "Int64"), "sentence": ("sentence", "string")}


def _basis(value: Any) -> Optional[Basis]:
    """Return the plat or the lot table of a row, or `None` if it is missing."""
    if isinstance(value, (Plat, Lots)):
        return value
    if value is None or pandas.isna(value) is True:
        return None
    raise TypeError(f"a plat is a Plat or Lots, not {type(value).__name__}")
