"""Lands that are compared with all lands before them, without looking at each pair."""
from __future__ import annotations

from collections import defaultdict
from typing import DefaultDict, Dict, Iterator, List, Optional, Set, Tuple

from . import _library
from ._land import Land
from ._lands import Lands
from ._township import Township


class EarlierLand:
    """Lands of one township, to which more are added: those that share land with a later one.

    Only lands in a section that a later one shares with any of them are compared with it, so it takes no time per pair
    if most of them are apart.
    """

    __slots__ = ("_all", "_by_section", "_lands")

    def __init__(self) -> None:
        self._all: Optional[Land] = None
        self._by_section: DefaultDict[int, List[int]] = defaultdict(list)
        self._lands: Dict[int, Land] = {}

    def add(self, index: int, land: Land) -> None:
        """Add land, with an index greater than those before."""
        self._all = land if self._all is None else self._all | land
        self._lands[index] = land
        for section in land._numbers():
            self._by_section[section].append(index)

    def shared(self, land: Land) -> Iterator[Tuple[int, Land]]:
        """Yield what it shares with each of the lands that were added, and their index, in the order of indexes."""
        if self._all is None or self._all.isdisjoint(land):
            return
        near: Set[int] = set()
        for section in (self._all & land)._numbers():
            near.update(self._by_section[section])
        for index in sorted(near):
            earlier = self._lands[index]
            if earlier._compared_to(land) != _library.DISJOINT:
                yield index, earlier & land


class EarlierLands:
    """The same for lands in several townships."""

    __slots__ = ("_by_township",)

    def __init__(self) -> None:
        self._by_township: DefaultDict[Township, EarlierLand] = defaultdict(EarlierLand)

    def add(self, index: int, lands: Lands) -> None:
        """Add lands, with an index greater than those before."""
        for land in lands:
            self._by_township[land.township].add(index, land)

    def shared(self, lands: Lands) -> Iterator[Tuple[int, Lands]]:
        """Yield what they share with each of those that were added, and their index, in the order of indexes."""
        shared: DefaultDict[int, List[Land]] = defaultdict(list)
        for land in lands:
            # A township of no earlier land is not added here.
            if land.township in self._by_township:
                for index, both in self._by_township[land.township].shared(land):
                    shared[index].append(both)
        for index in sorted(shared):
            yield index, Lands(shared[index])
