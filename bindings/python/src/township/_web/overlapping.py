"""The overlaps of the tracts of a list."""
from __future__ import annotations

from typing import FrozenSet, List, NamedTuple, Optional, Sequence, Set, Tuple

from .known import Known


class Overlapping(NamedTuple):
    """The overlaps of tracts, by their indexes."""

    #: The number of pairs of tracts that overlap.
    number: int
    #: The first of these pairs, in the order of the later tract, and then of the earlier one.
    pairs: Sequence[Tuple[int, int]]
    #: All tracts that overlap another one.
    tracts: FrozenSet[int]


def overlapping(tracts: Sequence[Optional[Known]], most: int) -> Overlapping:
    """Return the overlaps of tracts, of which some may have no land, and the first `most` pairs.

    Two tracts overlap if they share a place. The library finds the same pairs (`Plat.overlaps`), but also the acreage
    of each of them, which takes ten times as long, and is asked for only if it is shown.
    """
    # Whole sections have few bits, which are compared faster than many.
    sets = [0 if tract is None else tract.places for tract in tracts]
    wholes = [0 if tract is None else tract.whole for tract in tracts]
    number = 0
    pairs: List[Tuple[int, int]] = []
    found: Set[int] = set()
    taken = 0
    for later, places in enumerate(sets):
        if places & taken:
            whole = wholes[later]
            earlier = [index for index in range(later) if wholes[index] & whole or sets[index] & places]
            number += len(earlier)
            pairs.extend((first, later) for first in earlier[: most - len(pairs)])
            found.update(earlier, (later,))
        taken |= places
    return Overlapping(number, pairs, frozenset(found))
