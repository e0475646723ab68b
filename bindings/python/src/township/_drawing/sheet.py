"""What both kinds of sheets share: their size, fonts, the north arrow, land, and the numbers in lots.

A sheet is 190 by 255 millimeters, which fits on letter and on A4 paper with margins.
"""
from __future__ import annotations

import functools
import hashlib
from typing import Callable, Dict, Iterator, List, Sequence, Tuple

from .hatching import hatching_at, pattern, pieces_by_size, shaded
from .layout import REGULAR, Box
from .markup import element, escaped, group, number, text
from .places import Picture
from .subject import Rows, Subject
from .tracts_drawn import Drawn, tracts_drawn

WIDTH = 190.0
HEIGHT = 255.0

#: The most characters of the words on land that an attribute has.
_WORDS_MOST = 500

#: The font of the figures in lots, whose digits are narrow.
NARROW = "Arial, 'Liberation Sans', 'DejaVu Sans Condensed', sans-serif"
_FONT = "Georgia, 'DejaVu Serif', 'Times New Roman', serif"


#: The smallest text on a sheet, in millimeters: 6.2 points.
SMALLEST = 2.2


def document(
    subject: Subject, name: str, description: str, defs: Sequence[str], parts: Sequence[str], view: Box
) -> str:
    """Return a sheet, with its name and description for people who listen to it.

    `data-view` is the part of the sheet that a screen shows, which has other places for the heading and the block;
    `data-basis` says what the acreage is based on.
    """
    size = f"0 0 {number(WIDTH)} {number(HEIGHT)}"
    paper = element("rect", width=WIDTH, height=HEIGHT, fill="#fff", **{"class": "paper"})
    inside = [
        element("title", escaped(name)),
        element("desc", escaped(description)),
        element("defs", *defs) if defs else "",
        paper,
        *parts,
    ]
    return element(
        "svg",
        "\n",
        "\n".join(filter(None, inside)),
        "\n",
        xmlns="http://www.w3.org/2000/svg",
        width=f"{number(WIDTH)}mm",
        height=f"{number(HEIGHT)}mm",
        viewBox=size,
        data_view=" ".join(map(number, view)),
        data_basis="" if subject.figures is None else subject.figures.note,
        role="img",
        color="#000",
        font_family=_FONT,
        fill="currentColor",
    ) + "\n"


def heading(words: str, below: str) -> str:
    """Return the heading of a sheet: its name, and a line below it."""
    return group(
        [
            text(words.upper(), WIDTH / 2, 13.0, 6.2, letter_spacing=0.5),
            text(below, WIDTH / 2, 19.5, 3.3, font_style="italic"),
        ],
        text_anchor="middle",
        **{"class": "heading"},
    )


def north_arrow(x: float, y: float) -> str:
    """Return an arrow to the north, whose foot is at (x, y)."""
    x0, top = number(x), number(y - 14)
    head = element("path", d=f"M{x0} {top}l1.6 5.5-1.6-1.2-1.6 1.2z")
    shaft = element("path", d=f"M{x0} {number(y)}V{top}", stroke="currentColor", stroke_width=0.3)
    letter = element("text", "N", x=x, y=y - 15.2, text_anchor="middle")
    return group([shaft, head, letter], font_size=4.2, **{"class": "north"})


def halo(parts: Sequence[str], width: float, size: float, kind: str, **attributes: str) -> str:
    """Return texts of one size and kind, with a rim in the color of the paper, so that hatching does not hide them."""
    return group(
        parts,
        font_size=size,
        stroke="#fff",
        stroke_width=width,
        stroke_linejoin="round",
        paint_order="stroke",
        text_anchor="middle",
        **{"class": f"halo {kind}", **attributes},
    )


@functools.lru_cache(maxsize=4096)
def centered(
    words: str, x: float, y: float, lines_below: float = 0.0, most: float = 0.0, **attributes: str
) -> str:
    """Return a text in the middle of a place, or so many of its lines below that. `most` is how wide it may be.

    Its size is that of its group, so that a screen can change the size of all texts of a kind.
    """
    dy = f"{number(0.35 + lines_below)}em"
    squeezed: Dict[str, str] = {}
    if most and len(words) > 5:
        squeezed = {"textLength": number(most), "lengthAdjust": "spacingAndGlyphs"}
    return element("text", escaped(words), x=x, y=y, dy=dy, **squeezed, **attributes)


def chains(quarter: int) -> str:
    """Return a length in thousandths of a chain in chains, with two or three decimal places.

    >>> chains(20_000), chains(19_575)
    ('20.00', '19.575')
    """
    whole, thousandths = divmod(quarter, 1000)
    decimals = f"{thousandths:03}"
    return f"{whole}.{decimals[:2] if decimals.endswith('0') else decimals}"


def weight_of(quarter: int) -> str:
    """Return the weight of a length: one that is not 20 chains stands out."""
    return "normal" if quarter == REGULAR else "bold"


class Shading:
    """The shaded land of a sheet, and its tracts, and the definitions of the hatchings."""

    def __init__(
        self, subject: Subject, picture_of: Callable[[Rows], Picture], width: int, side: float
    ) -> None:
        self._subject = subject
        self._picture_of = picture_of
        self._pictures = [picture_of(shade.rows) for shade in subject.shades]
        self._width = width
        self._place = side / width
        self._pieces = [pieces_by_size(picture, self._place) for picture in self._pictures]
        # Drawings on one page must not use each other's hatchings.
        digest = hashlib.sha256(repr((self._pictures, side)).encode()).hexdigest()
        self._prefix = f"hatching-{digest[:8]}-"

    def name(self, index: int) -> str:
        """Return the name of the hatching of a shade."""
        return f"{self._prefix}{hatching_at(index)}"

    def definitions(self) -> List[str]:
        """Return the hatchings of the land, the finer ones, and those of the key, which are in millimeters."""
        used = sorted({hatching_at(index) for index in range(len(self._pictures))})
        fine = sorted({hatching_at(index) for index, pieces in enumerate(self._pieces) if pieces.small})
        of_land = [pattern(each, f"{self._prefix}{each}", self._place) for each in used]
        of_land += [pattern(each, f"{self._prefix}{each}-fine", self._place, is_fine=True) for each in fine]
        return of_land + [pattern(each, f"{self._prefix}{each}-key", 1.0) for each in used]

    def land(self, x: float, y: float) -> Iterator[str]:
        """Yield the land of each shade, on a square whose northwest corner is at (x, y)."""
        for index, (shade, picture) in enumerate(zip(self._subject.shades, self._pictures)):
            land = shaded(picture, self._pieces[index], self._width, self.name(index), self._place)
            acres: Dict[str, str] = {"data_acres": str(shade.acres[0][1])} if shade.acres else {}
            yield element(
                "g",
                land,
                transform=self._scale(x, y),
                data_shade=index,
                data_label=shade.label,
                data_words=shade.words[:_WORDS_MOST],
                data_key=f"{self.name(index)}-key",
                **{"class": "land" if any(picture) else "no-land", **acres},
            )

    def tracts(self, x: float, y: float, taken: Tuple[Box, ...]) -> Drawn:
        """Return the outlines and names of the tracts, on a square whose northwest corner is at (x, y)."""
        drawn = tracts_drawn(self._subject.outlines, self._picture_of, self._width, self._place, taken)
        if not drawn.parts:
            return drawn
        return drawn._replace(parts=[element("g", *drawn.parts, transform=self._scale(x, y))])

    def _scale(self, x: float, y: float) -> str:
        return f"translate({number(x)} {number(y)}) scale({number(self._place)})"
