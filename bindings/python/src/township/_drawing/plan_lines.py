"""The lines of a plat with lots of its own: between parts of land, around lots, and around land that is not there."""
from __future__ import annotations

from typing import Iterable, Iterator, List

from .._rectangles import runs
from .pieces import loops_of
from .places import Picture, turned
from .plan import SectionPlan


def between(free: Picture, lines: Iterable[int]) -> str:
    """Return the path of some lines across a square, and down it, where land in no lot is on both of their sides.

    >>> between([0b11, 0b11], [1])
    'M0 1h2M1 0v2'
    """
    lines = list(lines)
    columns = turned(free, len(free))
    across = [f"M{x} {y}h{length}" for y in lines for x, length in runs(free[y - 1] & free[y])]
    down = [f"M{x} {y}v{length}" for x in lines for y, length in runs(columns[x - 1] & columns[x])]
    return "".join(across + down)


def lot_sides(plan: SectionPlan, left: int = 0, top: int = 0) -> str:
    """Return the path of the sides inside a section that lots have, and land that is not there.

    `left` and `top` are where the section is.
    """
    pictures = [*plan.lots.values(), plan.no_land]
    across = _sides(pictures)
    down = _sides([turned(picture, len(picture)) for picture in pictures])
    found = [f"M{left + x} {top + y}h{length}" for y, bits in enumerate(across, 1) for x, length in runs(bits)]
    found += [f"M{left + x} {top + y}v{length}" for x, bits in enumerate(down, 1) for y, length in runs(bits)]
    return "".join(found)


def _sides(pictures: List[Picture]) -> Iterator[int]:
    """Yield, for each line between two rows, where one of the pictures ends or begins."""
    for row in range(1, len(pictures[0])):
        bits = 0
        for picture in pictures:
            bits |= picture[row - 1] ^ picture[row]
        yield bits


def loops_at(picture: Picture, left: int, top: int) -> str:
    """Return the outline of land in a section that is there, as closed loops: see `loops_of`."""
    return loops_of([row << left for row in picture], top)
