"""The work on land whose instructions `make bench` counts: its sums, which are worked out here place by place."""
from __future__ import annotations

import subprocess
from typing import Dict, Iterator, Set, Tuple

import pytest

#: A section, by its column and row; a place, by its column from the east and its row from the south.
Section = Tuple[int, int]
Place = Tuple[int, int]

ACROSS = 32


def mixed() -> Iterator[Tuple[Section, Set[Place]]]:
    """Sections and the places of blocks, as src/mixed.rt of twp_trials makes them."""
    state = 1796

    def number() -> int:
        nonlocal state
        state = (state * 1_664_525 + 1_013_904_223) % 2**32
        return state >> 8

    while True:
        where = number()
        column, row, width, height = 0, 0, ACROSS, ACROSS
        for _ in range(number() % 11):
            side = "NSEW"[number() % 4]
            if side in "NS" and height > 1:
                height //= 2
                row += height if side == "N" else 0
            if side in "EW" and width > 1:
                width //= 2
                column += width if side == "W" else 0
        places = {(column + x, row + y) for x in range(width) for y in range(height)}
        yield (where % 6, where // 6 % 6), places


def sum_of(work: str, times: int) -> int:
    """The sum of the answers: of land with 200 blocks, which `add` and `take` change."""
    pairs = mixed()
    land: Dict[Section, Set[Place]] = {}
    for _ in range(200):
        section, places = next(pairs)
        land.setdefault(section, set()).update(places)
    total = 0
    for _ in range(times):
        section, places = next(pairs)
        held = land.setdefault(section, set())
        shared = len(held & places)
        width = len({column for column, _ in places})
        answers = {"blocks": width, "add": 1, "meets": shared > 0, "full": shared == len(places), "count": shared}
        answers["take"] = answers["meets"]
        total += answers[work]
        if work in ("add", "take"):
            held |= places
    return total


@pytest.mark.parametrize("work", ["blocks", "add", "meets", "full", "count", "take"])
@pytest.mark.parametrize("kind", ["grid", "lanes"])
def test_sum(kind: str, work: str, calls: str) -> None:
    """Both kinds of land give the sum, for as many calls as are counted."""
    ran = subprocess.run([calls, kind, work, "1000"], stdin=subprocess.DEVNULL, capture_output=True, timeout=60)
    assert (ran.stdout, ran.stderr) == (f"{sum_of(work, 1000)}\n".encode(), b"")
