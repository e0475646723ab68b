"""The places of a section, and the parts of it that halves and quarters reach.

A section is divided into 32 by 32 places. A set of places is an integer: the place in row `r` from the south and column
`c` from the west is bit 32 * r + c.
"""

import functools

SIDE = 32
WHOLE = (1 << SIDE * SIDE) - 1

#: The halves, and the quarters in the order in which the canonical text visits them.
HALVES = ("n", "s", "e", "w")
QUARTERS = ("ne", "nw", "sw", "se")

#: The nominal acreage of a place, in half hundredths of an acre: 640 acres have 1,024 places.
NOMINAL = 200 * 640 // SIDE**2

#: The sections of a township.
SECTIONS = range(1, 37)


def size(places):
    """The number of places in a set. (Python 3.9, which the library still runs on, has no `int.bit_count`.)"""
    return bin(places).count("1")


def square(west, south, columns, rows):
    """The places of a block, by its southwest corner and its size."""
    row = ((1 << columns) - 1) << west
    places = 0
    for number in range(south, south + rows):
        places |= row << SIDE * number
    return places


@functools.lru_cache(maxsize=None)
def part(steps):
    """The places of an aliquot part, or None if it is too fine. The steps are as written: ("s", "ne") is S1/2NE1/4."""
    west, south, columns, rows = 0, 0, SIDE, SIDE
    for step in reversed(steps):
        for letter in step:
            if letter in "ns":
                rows //= 2
                south += rows if letter == "n" else 0
            else:
                columns //= 2
                west += columns if letter == "e" else 0
    return square(west, south, columns, rows) if columns and rows else None


#: The quarter-quarters of a section, by their steps.
QUARTER_QUARTERS = {(small, large): part((small, large)) for large in QUARTERS for small in QUARTERS}


#: The standard lots by section, each with the steps of its place: in the north, in the west, and in both.
_NORTH = [("ne", "ne"), ("nw", "ne"), ("ne", "nw"), ("nw", "nw")]
_WEST = [("nw", "nw"), ("sw", "nw"), ("nw", "sw"), ("sw", "sw")]
STANDARD = {section: dict(enumerate(lots, 1)) for section, lots in (
    *((section, _NORTH) for section in range(1, 6)), (6, _NORTH + _WEST[1:]),
    *((section, _WEST) for section in (7, 18, 19, 30, 31)))}


def spelled(steps):
    """An aliquot part as the canonical text writes it."""
    return "".join(step.upper() + ("1/2" if len(step) == 1 else "1/4") for step in steps)


def written_parts(places):
    """The parts that the canonical text writes for places in no lot, in its order."""
    found = []
    _write(places, (), found)
    return found


def _write(places, steps, found):
    """Add the parts within a square that is reached by these steps."""
    here = part(steps)
    held = places & here
    if not held:
        return
    if held == here:
        found.append(steps)
        return
    # The first full half is written in place of its two quarters, when the first of them is reached.
    half = next((side for side in HALVES if _is_full(places, (side, *steps))), None)
    is_written = False
    for quarter in QUARTERS:
        if half is None or half not in quarter:
            _write(places, (quarter, *steps), found)
        elif not is_written:
            found.append((half, *steps))
            is_written = True


def _is_full(places, steps):
    here = part(steps)
    return here is not None and not here & ~places
