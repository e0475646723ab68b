"""Rows that are made here, since there are many of one form, or since they are long: notes on accepted descriptions, with
a line end wherever it may be, and explanations that concern lists of many tracts."""
from __future__ import annotations

from itertools import product
from pathlib import Path
from typing import Any, Dict, Iterator, List, Optional, Tuple

import pytest

from rows import runs_of
from running import fault_of

CORNERS = ("NE1/4", "NW1/4", "SW1/4", "SE1/4")


def check(row: Dict[str, Any], program: str, folder: Path) -> None:
    """Make the runs of a row as if it were in a file."""
    faults = [fault_of(program, run, folder) for run in runs_of(row, "generated")]
    if any(faults):
        pytest.fail("\n".join(filter(None, faults)), pytrace=False)


def noted_row(land: str, acres: int, stderr: str) -> Dict[str, Any]:
    """A row of an accepted description with a note, or without one."""
    ways = ["on files", "standard error closed"]
    return {"kind": "acres", "ways": ways, "land": land, "stdout": f"{acres}.00 acres", "stderr": stderr}


def joined(steps: Tuple[str, str], acres: Tuple[int, Optional[int]], line: str, carets: str) -> str:
    """The note on two steps, the second on line 2: the acres of one part, and of two if they don't overlap; the line as it
    is shown, and what underlines the step."""
    first, second = steps
    of_two = "" if acres[1] is None else f" ({acres[1]}.00 acres)"
    return (
        f"township: land.txt:2:1: note: {first} {second} is read as one part of {acres[0]}.00 acres, the {first} of the "
        f"{second}; if two parts were meant, write a comma after {first}{of_two}\n  2 | {line}\n    | {carets}\n"
    )


@pytest.mark.parametrize("before, after", product(range(131), (0, 130)))
def test_line_end(before: int, after: int, program: str, folder: Path) -> None:
    """A line end is found wherever it is among the bytes that are examined together, even in the last ones, when fewer are
    left. Of 136 columns, 92 are shown."""
    line = "SE1/4." if after == 0 else "SE1/4." + 86 * " " + ".."
    land = f"{before * ' '}sec. 14, NE1/4\\nSE1/4.{after * ' '}"
    check(noted_row(land, 40, joined(("NE1/4", "SE1/4"), (40, 320), line, "^^^^^")), program, folder)


@pytest.mark.parametrize("before, after", product(range(131), (0, 130)))
def test_comma_and_line_end(before: int, after: int, program: str, folder: Path) -> None:
    """A comma before the line end makes two parts, which get no note."""
    land = f"{before * ' '}sec. 14, NE1/4,\\nSE1/4.{after * ' '}"
    check(noted_row(land, 320, ""), program, folder)


#: Each end of a step, and each beginning of one: as it is in the text, in its usual spelling, and the quarters of the
#: section that it consists of.
FIRST = [("N½", "N1/2", "NE NW"), ("e1/2", "E1/2", "NE SE"), ("SW¼", "SW1/4", "SW"), ("ne1/4", "NE1/4", "NE")]
SECOND = [
    *(("N½", "N1/2", "NE NW"), ("S1/2", "S1/2", "SW SE"), ("E½", "E1/2", "NE SE"), ("W1/2", "W1/2", "NW SW")),
    *(("n1/2", "N1/2", "NE NW"), ("s½", "S1/2", "SW SE"), ("e1/2", "E1/2", "NE SE"), ("w½", "W1/2", "NW SW")),
    *(("NE1/4", "NE1/4", "NE"), ("NW¼", "NW1/4", "NW"), ("sw¼", "SW1/4", "SW"), ("se1/4", "SE1/4", "SE")),
]


@pytest.mark.parametrize("first, second", product(FIRST, SECOND))
def test_steps(first: Tuple[str, str, str], second: Tuple[str, str, str], program: str, folder: Path) -> None:
    """Each end of a step before each beginning of one. A quarter of the section is 160 acres of 640; one part is that much
    of the second step as the first is of the section. Two parts that share a quarter overlap."""
    quarters, others = set(first[2].split()), set(second[2].split())
    one = 640 * len(quarters) // 4 * len(others) // 4
    two = None if quarters & others else 160 * len(quarters | others)
    note = joined((first[1], second[1]), (one, two), f"{second[0]}.", len(second[0]) * "^")
    check(noted_row(f"sec. 14, {first[0]}\\n{second[0]}.", one, note), program, folder)


def tracts(count: int) -> Iterator[Tuple[str, List[str]]]:
    """Sections with different parts of them, each of 10 acres, in three steps."""
    sections = (8, 9, 10, 11, 14, 15, 16, 17, 20, 21, 22, 23, 26, 27, 28, 29)
    for number in range(count):
        steps = [CORNERS[number % 4], CORNERS[number // 4 % 4], CORNERS[number // 16 % 4]]
        yield f"t{number},\"sec. {sections[number // 64]}, ", steps


def test_last_of_many_tracts(program: str, folder: Path) -> None:
    """The list has 1,000 tracts, the most that are allowed, of 10,000 of 23,040 acres. Only the last one has two steps on
    two lines, the second on line 1,002."""
    rows = [front + "".join(steps) + '"' for front, steps in tracts(1000)]
    rows[-1] = rows[-1][:-6] + "\\n" + rows[-1][-6:]
    account = "".join(f"tract t{number}: 10.00 acres\n" for number in range(1000))
    stderr = """
township: list.csv:1002:1: note: tract t999: SE1/4NW1/4 SW1/4 is read as one part of 10.00 acres, the SE1/4NW1/4 of the SW1/4; if two parts were meant, write a comma after SE1/4NW1/4 (200.00 acres)
  1002 | SW1/4"
       | ^^^^^
"""
    row = {
        "kind": "report",
        "ways": ["on files", "standard error closed"],
        "list": "\\n".join(["name,description", *rows, ""]),
        "stdout": f"{account}total: 10000.00 acres\nremaining: 13040.00 acres",
        "stderr": stderr.lstrip("\n"),
    }
    check(row, program, folder)


def test_one_tract_too_many(program: str, folder: Path) -> None:
    """A list of 1,001 tracts, in every way."""
    rows = [front + "".join(steps) + '"' for front, steps in tracts(1001)]
    row = {
        "kind": "report",
        "ways": ["on files", "on pipes", "standard error closed", "standard error full", "standard error unread"],
        "list": "\\n".join(["name,description", *rows, ""]),
        "stdout": "refused 85 at 1002",
        "stderr": "township: list.csv:1002: there are more than 1,000 tracts: record 1002 is one too many\n"
        "  split the list in two",
    }
    check(row, program, folder)


def test_overlap_of_many_places(program: str, folder: Path) -> None:
    """Two equal tracts of the smallest places in four sections, of which as many as fit in 150 bytes are shown. Of the 1,024
    places of a section every second one is taken, as on a chessboard: 512 of each section. The first five of these
    2,048 end at byte 141."""
    squares = product(CORNERS, CORNERS, CORNERS, CORNERS, (CORNERS[0], CORNERS[2]))
    board = "".join(f", {''.join(reversed(steps))}" for steps in squares)
    land = "; ".join(f"sec. {section}{board}" for section in (8, 9, 10, 11))
    stderr = (
        "township: list.csv:3: tract `B` overlaps tract `A` (record 2); both include sec. 8, NE1/4NE1/4NE1/4NE1/4NE1/4, "
        "SW1/4NE1/4NE1/4NE1/4NE1/4, NE1/4NW1/4NE1/4NE1/4NE1/4, SW1/4NW1/4NE1/4NE1/4NE1/4, NE1/4SW1/4NE1/4NE1/4NE1/4 "
        "and 2043 more"
    )
    row = {"kind": "report", "stdout": "refused 84 at 3", "stderr": stderr}
    check({**row, "list": f'name,description\\nA,"{land}"\\nB,"{land}"\\n'}, program, folder)
