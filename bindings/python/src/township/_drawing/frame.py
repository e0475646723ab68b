"""The square of a sheet that has the township or the section: where it is, and paths in it."""
from __future__ import annotations

from typing import NamedTuple

from .markup import element, number


class Frame(NamedTuple):
    """A square: its northwest corner, and the side of a place, in millimeters."""

    left: float
    top: float
    place: float

    def x(self, places: float) -> float:
        """Return where a column is on the sheet."""
        return self.left + self.place * places

    def y(self, places: float) -> float:
        """Return where a row is on the sheet."""
        return self.top + self.place * places

    def path(self, moves: str, width: float, kind: str, **attributes: str) -> str:
        """Return lines of this width in millimeters and of this kind. Their path is in places."""
        return element(
            "path",
            d=moves,
            transform=self.transform(),
            fill="none",
            stroke="currentColor",
            stroke_width=width / self.place,
            **{"class": kind, **attributes},
        )

    def transform(self) -> str:
        """Return the transformation of what is in places."""
        return f"translate({number(self.left)} {number(self.top)}) scale({number(self.place)})"
