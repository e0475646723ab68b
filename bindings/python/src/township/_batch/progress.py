"""The progress of a batch, on a terminal where `tqdm` or `rich` is installed."""
from __future__ import annotations

import sys
import time
from typing import Any, Callable, Optional, Protocol

#: The time between two updates, in seconds.
_PAUSE = 0.1


class Bar(Protocol):
    """A progress bar."""

    def show(self, done: int) -> None:
        """Show how much is done, in bytes or, if the size of the list is not known, in records."""
        ...

    def close(self) -> None:
        """End the bar."""
        ...


class _NoBar:
    def show(self, done: int) -> None:
        pass

    def close(self) -> None:
        pass


class _TqdmBar:
    def __init__(self, tqdm: Any, total: Optional[int]) -> None:
        unit = " records" if total is None else "B"
        self._bar = tqdm(total=total, unit=unit, unit_scale=True, file=sys.stderr, leave=False)

    def show(self, done: int) -> None:
        self._bar.update(done - self._bar.n)

    def close(self) -> None:
        self._bar.close()


class _RichBar:
    def __init__(self, rich: Any, total: Optional[int]) -> None:
        console = rich.console.Console(stderr=True)
        self._bar = rich.progress.Progress(console=console, transient=True)
        self._task = self._bar.add_task("township", total=total)
        self._bar.start()

    def show(self, done: int) -> None:
        self._bar.update(self._task, completed=done)

    def close(self) -> None:
        self._bar.stop()


def bar_of(total: Optional[int]) -> Bar:
    """Return a progress bar, if standard error is a terminal and a package for bars is installed."""
    if not sys.stderr.isatty():
        return _NoBar()
    try:
        from tqdm import tqdm

        return _TqdmBar(tqdm, total)
    except ImportError:
        pass
    try:
        import rich.console
        import rich.progress

        return _RichBar(rich, total)
    except ImportError:
        return _NoBar()


class Progress:
    """Shows a progress bar from time to time."""

    def __init__(self, bar: Bar, done: Callable[[], int]) -> None:
        """`done` returns how much is done."""
        self._bar = bar
        self._done = done
        self._shown_at = time.monotonic()

    def show(self) -> None:
        """Show how much is done, unless that was shown just now."""
        now = time.monotonic()
        if now - self._shown_at >= _PAUSE:
            self._bar.show(self._done())
            self._shown_at = now

    def close(self) -> None:
        """End the bar."""
        self._bar.close()
