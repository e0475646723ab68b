"""The explanations of refused lot tables, which twp_trials prints: the rows of lot-tables.toml."""
from __future__ import annotations

import tomllib
from itertools import product
from pathlib import Path
from typing import Any, Dict, Iterable, List

import pytest

from rows import HINTS, contents, text_of, with_hints, with_records
from test_calls import told
from wrapping import wrapped

ROWS = Path(__file__).resolve().parent / "lot-tables.toml"
#: The table whose records a row changes.
EMPTY = b"section,lot,acres\nT,2,N,3,W\n"


def rows() -> List[Dict[str, Any]]:
    hints = tomllib.loads(HINTS.read_text(encoding="utf-8"))
    return list(tomllib.loads(with_hints(ROWS.read_text(encoding="utf-8"), hints))["row"])


def table_of(row: Dict[str, Any]) -> bytes:
    """The table of a row. From the lowest number on, so that records are added in their order."""
    if "table" in row:
        return contents(row["table"])
    table = EMPTY
    for number in sorted(row["records"], key=int):
        table = with_records(table, {number: row["records"][number]})
    return table


@pytest.mark.parametrize("row", rows(), ids=lambda row: str(row.get("records") or row["table"])[:60])
def test_explained(row: Dict[str, Any], calls: str, folder: Path) -> None:
    """Each refusal, and its explanation by the file's name."""
    assert told(calls, folder, ["explain-lots", "input"], table_of(row)) == wrapped(row["told"], text_of).encode()


#: A table with land of the same township, and the quarters of which parts are made.
LAND = b"section,lot,acres,land\nT,2,N,3,W\n"
QUARTERS = ("NE", "NW", "SE", "SW")


def halved(lands: Iterable[str]) -> List[str]:
    """The two halves of each of these parts."""
    return [f"{half}1/2{land}" for land in lands for half in "NS"]


#: The quarter-quarters of a section; and 64 parts of 5 acres, eight in each of those of its north half.
FORTIES = [f"{small}1/4{large}1/4" for small, large in product(QUARTERS, repeat=2)]
FIVES = halved(f"{each}1/4{forty}" for forty in FORTIES if forty.endswith(("NE1/4", "NW1/4")) for each in QUARTERS)


def lots_in(section: int, lands: List[str]) -> List[str]:
    """The records of a section with a lot on each of these parts."""
    return [f"{section},{lot},5.00,{land}" for lot, land in enumerate(lands, 1)]


def explained(calls: str, folder: Path, records: List[str]) -> bytes:
    """The explanation of a table with land that has these records."""
    return told(calls, folder, ["explain-lots", "input"], LAND + "".join(f"{each}\n" for each in records).encode())


@pytest.mark.parametrize("sections", [1, 16], ids=["of a section", "of the township"])
def test_one_lot_too_many(sections: int, calls: str, folder: Path) -> None:
    """99: a section has at most 64 lots, and 16 such sections have 1,024. 128 quarter-quarters are divided."""
    records = [each for section in range(1, 17) for each in lots_in(section, FIVES)][-64 * sections :]
    assert explained(calls, folder, records) == b"accepted\n"
    # One more lot of section 16, or of section 17 of the full township.
    last = f"16,65,40.00,{FORTIES[-1]}" if sections == 1 else f"17,1,40.00,{FORTIES[-1]}"
    at, fields = len(records) + 3, len(last.partition(",40.00")[0])
    text = f"""refused 99 at {at}
township: lots.csv:{at}: this is one lot too many: a section has at most 64 lots, and a township 1,024
  {at} | {last}
  {" " * len(str(at))} | {"^" * fields}
"""
    assert explained(calls, folder, [*records, last]) == wrapped(text, text_of).encode()


@pytest.mark.parametrize(
    "more",
    # The halves of one more quarter-quarter are lots, or one half is a lot and one is not there.
    [lots_in(9, halved(FORTIES[:1])), [*lots_in(9, [f"N1/2{FORTIES[0]}"]), f"9,,,S1/2{FORTIES[0]}"]],
    ids=["among lots", "between a lot and land that is not there"],
)
def test_too_many_are_divided(more: List[str], calls: str, folder: Path) -> None:
    """101: the last record is shown. Eight sections have 8 * 16 = 128 quarter-quarters, and all of them are divided."""
    records = [each for section in range(1, 9) for each in lots_in(section, halved(FORTIES))]
    assert explained(calls, folder, records) == b"accepted\n"
    at, last = len(records) + len(more) + 2, more[-1]
    text = f"""refused 101 at {at}
township: lots.csv:{at}: more than 128 quarter-quarters are divided between lots, or between a lot and other land
  {at} | {last}
      | {"^" * len(last)}
"""
    assert explained(calls, folder, records + more) == wrapped(text, text_of).encode()


def test_each_refusal_has_two_rows() -> None:
    first = [row["told"].partition("\n")[0] for row in rows()]
    # 94 is of land, and the others take long tables.
    for number in {*range(86, 102)} - {94, 99, 101}:
        assert sum(it.startswith(f"refused {number} ") for it in first) >= 2, number
