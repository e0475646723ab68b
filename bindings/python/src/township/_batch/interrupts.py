"""Ctrl-C, which ends a batch between two records, or between two chunks of them."""
from __future__ import annotations

import signal
from types import FrameType
from typing import Any, Iterator, Optional, TypeVar

T = TypeVar("T")


class Interrupts:
    """Delays an interrupt until the records at hand are written, so that the output ends with a whole record.

    While the next ones are awaited, which can take long, an interrupt is immediate; so is a second one.
    """

    def __init__(self) -> None:
        self._asked = False
        self._awaiting = False
        self._before: Any = None

    def __enter__(self) -> "Interrupts":
        self._before = signal.signal(signal.SIGINT, self._interrupt)
        return self

    def __exit__(self, *_: object) -> None:
        signal.signal(signal.SIGINT, self._before)

    def _interrupt(self, _number: int, _frame: Optional[FrameType]) -> None:
        asked_before, self._asked = self._asked, True
        if self._awaiting or asked_before:
            raise KeyboardInterrupt

    def next_of(self, items: Iterator[T]) -> Optional[T]:
        """Return the next item, or `None` at the end. Raise `KeyboardInterrupt` instead if that was asked for."""
        self._awaiting = True
        if self._asked:
            raise KeyboardInterrupt
        item = next(items, None)
        self._awaiting = False
        return item

    def between(self, items: Iterator[T]) -> Iterator[T]:
        """Yield items, and raise `KeyboardInterrupt` between two of them if that was asked for."""
        while True:
            item = self.next_of(items)
            if item is None:
                return
            yield item
