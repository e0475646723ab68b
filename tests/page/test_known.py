"""What the server remembers of a list makes its answers faster, and changes none of them."""
from __future__ import annotations

import json
import random
import re
import tracemalloc
from typing import Any, Dict, List

from township import Plat
from township._drawing import tracts_drawn
from township._web import known
from township._web.tracts import report_answer

from asking import NOMINAL, NOTES

HERE = Plat.read(NOTES)
CORNERS = ("NE1/4", "NW1/4", "SW1/4", "SE1/4")
PARTS = ["".join(CORNERS[k >> 2 * step & 3] for step in range(5)) for k in range(1024)]


def answer(**fields: Any) -> Dict[str, Any]:
    """Return the answer of this process to a list."""
    return report_answer(json.dumps({"draw": True, "targets": True, **fields}).encode())


def forget() -> None:
    """Forget all that was asked for."""
    known._known.cache_clear()
    tracts_drawn._shape_of.cache_clear()
    tracts_drawn._groups.cache_clear()


def some_lists() -> List[str]:
    """Return a list, as it is while it's typed."""
    random.seed(36)
    texts = [f"sec. {random.randint(8, 11)}, {random.choice(PARTS)[: 5 * random.randint(1, 5)]}." for _ in range(40)]
    texts += ["secs. 1 to 36, all.", "secs. 20 to 29.", "sec. 5, N1/2.", f"sec. 14, {', '.join(PARTS[:40])}.", texts[0]]
    lists = []
    for count in (40, 45, 44, 45):
        texts[3] = texts[3][:-1]
        lists.append("name,description\n" + "".join(f'{k},"{text}"\n' for k, text in enumerate(texts[:count])))
    return [*lists, lists[0].replace("\n1,", "\nB,"), lists[0]]


def test_the_same_answers() -> None:
    found = []
    for listed in some_lists():
        for basis in (NOMINAL, {"notes": NOTES}):
            for more in ({}, {"section": 8}, {"selected": 3}):
                found.append((listed, basis, more, answer(list=listed, **basis, **more)))
    assert known._known.cache_info().hits > 500
    for listed, basis, more, before in found:
        forget()
        assert answer(list=listed, **basis, **more) == before


def test_a_description_in_two_townships() -> None:
    """It names land in one of them, and is refused in the other, whichever is asked first."""
    listed = 'A,"T. 2 N., R. 3 W., sec. 14."\nB,sec. 14.\n'
    forget()
    for _ in range(2):
        one, other = (answer(list=listed, township=each)["tracts"] for each in ("T. 2 N., R. 3 W.", "T. 3 N., R. 3 W."))
        assert [each.get("acres", {}).get("exact") for each in one] == ["640.00", "640.00"]
        assert other[0]["refused"]["number"] == 61 and other[1]["canonical"].startswith("T. 3 N., R. 3 W.")


def test_an_outline_follows_its_tract() -> None:
    """Its name, its acreage, and its land are those of now, if only one of them changes."""
    forget()
    basis: List[Dict[str, str]] = [NOMINAL, {"notes": NOTES}]
    asked = [("A", "lot 1", 0), ("B", "lot 1", 0), ("B", "lot 2", 0), ("B", "lot 2", 1), ("A", "lot 1", 0)]
    found = [answer(list=f'{name},"sec. 7, {lot}."\n', **basis[by])["svg"] for name, lot, by in asked]
    outlines = [re.findall("<path [^>]*data-tract=[^>]*>|<text [^>]*data-of=.*", svg) for svg in found]
    assert outlines[0] == outlines[4] and len(set(map(tuple, outlines))) == 4
    assert 'data-acres="40.00"' in outlines[2][0] and 'data-acres="39.13"' in outlines[3][0]


def test_it_takes_little_memory() -> None:
    """However large the land of each description is; and long descriptions are not remembered."""
    forget()
    tracemalloc.start()
    for part in PARTS:
        for section in (8, 9, 10):
            known.known(HERE, f"secs. 1 to 7; secs. 12 to 36; sec. {section}, {part}.")
    remembered = tracemalloc.get_traced_memory()[0]
    tracemalloc.stop()
    assert known._known.cache_info().currsize == known._KNOWN_MOST
    assert remembered < 40 * 1024 * 1024
    for blanks in range(20):
        known.known(HERE, f"sec. 14.{' ' * 65_000}{' ' * blanks}")
    assert known._known.cache_info().misses == 3 * len(PARTS)
