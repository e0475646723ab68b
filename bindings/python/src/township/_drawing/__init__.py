"""Drawings of plats, as SVG: a township on a sheet, or one of its sections.

`subject` says what is drawn, and `of_plat` finds it. `layout` says where sections, lots, and lines are; `places`
turns land into paths, `pieces` into pieces with closed outlines, and `hatching` shades them; `tracts_drawn` outlines
and names tracts. `township_sheet` and `section_sheet` draw the two kinds of sheets, with the parts in `sheet` that both
use, and `title_block` the block below. `targets` adds the shapes that the page makes buttons of, `frame` says where the
square of a sheet is, and `markup` writes the elements.

These draw the standard lots. If a lot table says where the lots of its plat are, `plan` has their places, `plan_lines`
the lines around and between them, and `plan_labels` the places of their numbers; `township_plan` and `section_plan`
draw them on the two kinds of sheets.
"""
from __future__ import annotations

from typing import Optional

from .section_sheet import section_sheet
from .subject import Figures, Outline, Rows, Shade, Subject
from .township_sheet import township_sheet

__all__ = ["Figures", "Outline", "Rows", "Shade", "Subject", "svg_of"]


def svg_of(subject: Subject, section: Optional[int] = None, targets: bool = False) -> str:
    """Return the drawing of a township, or of one of its sections, as an SVG document.

    With `targets`, the drawing has transparent shapes over its lines, lots, and sections, which the page makes
    buttons of.
    """
    return township_sheet(subject, targets) if section is None else section_sheet(subject, section, targets)
