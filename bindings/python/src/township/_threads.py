"""Shares the work of one call for many descriptions among threads."""
from __future__ import annotations

from concurrent.futures import ThreadPoolExecutor
from typing import Callable, List, Tuple, TypeVar

T = TypeVar("T")

#: The fewest descriptions that are worth a thread: starting one takes as long as answering about a hundred.
_FEWEST = 1000


def in_threads(threads: int, count: int, work: Callable[[int, int], T]) -> List[T]:
    """Call `work` with ranges of indexes that together are the first `count`, and return what it returned for each.

    There are at most `threads` ranges, each in a thread of its own; the caller's thread takes the only one. If calls
    raise exceptions, the first range's is raised.
    """
    ranges = _ranges(min(checked(threads), count // _FEWEST or 1), count)
    if len(ranges) == 1:
        return [work(*ranges[0])]
    with ThreadPoolExecutor(len(ranges)) as pool:
        return list(pool.map(lambda one: work(*one), ranges))


def checked(threads: int) -> int:
    """Return the number of threads. Raise `ValueError` if it is less than 1."""
    if not isinstance(threads, int):
        raise TypeError(f"threads must be an integer, not {type(threads).__name__}")
    if threads < 1:
        raise ValueError(f"threads must be at least 1, not {threads}")
    return threads


def _ranges(parts: int, count: int) -> List[Tuple[int, int]]:
    """Return this many ranges of nearly the same length."""
    bounds = [count * part // parts for part in range(parts + 1)]
    return list(zip(bounds, bounds[1:]))
