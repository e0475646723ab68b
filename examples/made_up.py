"""Generates townships and descriptions from a seed, for the examples."""

from __future__ import annotations

import pathlib
import random
from collections import Counter
from collections.abc import Iterator

import township

SAMPLES = pathlib.Path(__file__).resolve().parent.parent / "samples"
QUARTER_MILE = 20_000
# The lines that end on the north or west boundary, where errors of measurement are thrown.
CLOSING_LINES = (*range(7), *range(47, 84, 6))
CORNERS = ("NE", "NW", "SW", "SE")
SIDES = ("N", "S", "E", "W")
# The sections with lots, along the north and west boundaries of a township, and their numbers of lots.
LOTS = Counter(section for section, _ in township.Lots.new("T. 1 N., R. 1 E.").figures)


def plats(seed: int, count: int) -> list[township.Plat]:
    """Return plats of `count` townships. Their closing quarters differ from 20 chains by at most 1 chain."""
    chance = random.Random(seed)
    even = township.Plat.open(SAMPLES / "b0.csv")
    made = []
    for number in range(count):
        quarters = list(even.closing_quarters)
        for line in CLOSING_LINES:
            quarters[line] = QUARTER_MILE + chance.randrange(-1_000, 1_001)
        designation = (number // 6 + 1, "N", number % 6 + 1, "W")
        made.append(township.Plat.of_parts(township=designation, closing_quarters=quarters))
    return made


def descriptions(seed: int, count: int) -> Iterator[str]:
    """Generate `count` descriptions of land. About one in fifty is refused."""
    chance = random.Random(seed)
    for _ in range(count):
        yield one_description(chance)


def one_description(chance: random.Random) -> str:
    sections = sorted(chance.sample(range(1, 37), chance.choice((1, 1, 1, 2, 3))))
    groups = [f"sec. {section}, {parts_of(section, chance)}" for section in sections]
    text = "; ".join(groups) + "."
    if chance.randrange(50) == 0:
        return text.replace(",", ";", 1)
    return text


def parts_of(section: int, chance: random.Random) -> str:
    if section in LOTS:
        lots = sorted(chance.sample(range(1, LOTS[section] + 1), chance.choice((1, 2))))
        return f"lot {lots[0]}" if len(lots) == 1 else f"lots {lots[0]} and {lots[1]}"
    corners = chance.sample(CORNERS, chance.choice((1, 2, 3)))
    return ", ".join(part_in(corner, chance) for corner in corners)


def part_in(corner: str, chance: random.Random) -> str:
    finer = chance.choice(("", f"{chance.choice(SIDES)}1/2", f"{chance.choice(CORNERS)}1/4"))
    return f"{finer}{corner}1/4"
