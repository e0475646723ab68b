"""The title block of a sheet: the land in words, and its acreage by each account."""
from __future__ import annotations

import textwrap
from bisect import bisect
from decimal import Decimal
from itertools import accumulate
from typing import Dict, Iterator, List, Optional, Sequence, Tuple

from .markup import element, group, number, text
from .sheet import HEIGHT, WIDTH, Shading
from .subject import Subject

_LEFT = 12.0
_RIGHT = WIDTH - 12.0
#: Where the column of figures begins.
_FIGURES = 133.0
#: The characters on a line of the land's words, and the lines that all land takes together at most.
_COLUMNS = 62
_LINES = 9
_LEADING = 4.2
#: How wide characters in bold are, as a part of their size, and how much they may be squeezed.
_NARROW, _WIDE, _THIN = 0.58, 0.8, " .,;:()'-1234567890"
_SQUEEZED_MOST = 1.4
#: The characters on a line of the notes.
_NOTE_COLUMNS = 130
_NOTE = "Schematic, not to scale."


#: A figure: its name, and an acreage. If the acreage is `None`, there is nothing to show.
Figure = Tuple[str, Optional[Decimal]]


def title_block(subject: Subject, shading: Shading, total: Figure, y: float, notes: Sequence[str]) -> str:
    """Return the block with its top at y: the land at the left, the figures at the right, and notes below."""
    bottom = HEIGHT - 9.0
    left, right, top, foot, middle = map(number, (_LEFT, _RIGHT, y, bottom, _FIGURES - 4))
    lines = f"M{left} {top}H{right}V{foot}H{left}ZM{middle} {top}V{foot}"
    parts = [
        element("path", d=lines, fill="none", stroke="currentColor", stroke_width=0.3),
        *_land(subject, shading, y + 6.0),
        *_figures(subject, total, y + 6.0, bottom - 2.0),
        *_notes(" ".join(filter(None, [_NOTE, *notes]))),
    ]
    return group(parts, **{"class": "block"})


def _notes(words: str) -> Iterator[str]:
    """Yield the lines below the block."""
    for place, line in enumerate(textwrap.wrap(words, _NOTE_COLUMNS)[:2]):
        yield text(line, _LEFT, HEIGHT - 5.5 + 3.2 * place, 2.6, font_style="italic")


def grouped(acres: Decimal) -> str:
    """Return an acreage with commas.

    >>> grouped(Decimal("23037.57"))
    '23,037.57'
    """
    return f"{acres:,.2f}"


def _land(subject: Subject, shading: Shading, y: float) -> Iterator[str]:
    """Yield the lines on the land: for each shade its hatching, what it is, and its words."""
    if not subject.shades:
        yield text(f"{subject.township}", _LEFT + 4, y, 3.4)
        yield text("No land is shaded.", _LEFT + 4, y + 5, 3.0, font_style="italic")
        return
    share = max(1, _LINES // len(subject.shades) - 1)
    for index, shade in enumerate(subject.shades[: _LINES // 2]):
        yield element(
            "rect",
            x=_LEFT + 4,
            y=y - 2.9,
            width=6.0,
            height=3.6,
            fill=f"url(#{shading.name(index)}-key)",
            stroke="currentColor",
            stroke_width=0.25,
        )
        yield _name(shade.label, _LEFT + 12.5, y, 3.4, _FIGURES - 5 - _LEFT - 12.5)
        y += _LEADING + 0.6
        for line in _wrapped(shade.words, share):
            yield text(line, _LEFT + 4, y, 3.0)
            y += _LEADING
        y += 0.6


def _name(words: str, x: float, y: float, size: float, most: float) -> str:
    """Return the name of land in bold letters, as wide as this at most: it is squeezed, and cut if it is much longer."""
    widths = list(accumulate(size * (_NARROW if each.islower() or each in _THIN else _WIDE) for each in words))
    if not words or widths[-1] <= most:
        return text(words, x, y, size, font_weight="bold")
    if widths[-1] > _SQUEEZED_MOST * most:
        words = f"{words[: bisect(widths, _SQUEEZED_MOST * most) - 3].rstrip()} .."
    squeezed: Dict[str, str] = {"textLength": number(most), "lengthAdjust": "spacingAndGlyphs"}
    return text(words, x, y, size, font_weight="bold", **squeezed)


def _wrapped(words: str, most: int) -> List[str]:
    """Return words in at most so many lines. If they do not fit, the last line says so."""
    # No line needs more of the text than this, and wrapping takes time.
    lines = textwrap.wrap(words[: _COLUMNS * (most + 1)], _COLUMNS)
    if len(lines) <= most and len(words) <= _COLUMNS * (most + 1):
        return lines
    return [*lines[: most - 1], _last(lines[most - 1])]


def _last(line: str) -> str:
    """Return a line at which the words are cut."""
    more = " .. (cut here)"
    return line[: _COLUMNS - len(more)].rstrip() + more


def _figures(subject: Subject, total: Figure, y: float, bottom: float) -> Iterator[str]:
    """Yield the lines of figures: the acreage of each shade by each account, and the total."""
    if subject.figures is None:
        yield text("No field notes, no acreage", _FIGURES, y, 3.0, font_style="italic")
        return
    lines: List[Figure] = []
    for shade in subject.shades[: _LINES // 2]:
        lines.append(("Acres" if len(subject.shades) == 1 else shade.label, None))
        lines.extend(shade.acres)
    lines.extend([total] if total[1] is not None else [])
    # Many lines are closer together, so that they end above the bottom.
    leading = min(_LEADING, (bottom - y) / max(len(lines), 1))
    for name, acres in lines:
        if acres is None:
            yield _name(name, _FIGURES, y, 3.2, _RIGHT - 1 - _FIGURES)
        else:
            yield text(name, _FIGURES, y, 3.0)
            yield text(grouped(acres), _RIGHT - 3, y, 3.1, text_anchor="end")
        y += leading
