"""The drawing of the plat of a lot table: methods of `Lots`."""
from __future__ import annotations

from typing import TYPE_CHECKING, Optional, Union, cast

from ._land import Land
from ._text import Text

if TYPE_CHECKING:
    from ._lots import Lots


class LotsDrawing:
    """The drawing of the plat of a lot table."""

    __slots__ = ()

    def svg(self, land: Union[Text, Land, None] = None, section: Optional[int] = None) -> str:
        """Return a drawing of the lots of the plat, or of one of its sections, as an SVG document.

        Each lot is where the table says that it lies, and land that the plat does not have is gray. The rest is as for
        `Plat.svg`, except that nothing is known of the section lines.

        >>> table = "section,lot,acres,land\\nT,2,N,3,W\\n14,1,38.50,NE1/4NE1/4\\n14,,,NW1/4NE1/4\\n"
        >>> drawing = township.Lots.read(table).svg(land="sec. 14, lot 1.", section=14)
        >>> "38.50 acres" in drawing, "Where it is gray, the plat has no land." in drawing
        (True, True)
        """
        from ._drawing.of_plat import drawing_of

        return drawing_of(cast("Lots", self), land, section)

    def _repr_svg_(self) -> str:
        """Return the drawing that a notebook shows."""
        return self.svg()
