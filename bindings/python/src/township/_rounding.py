"""Rounding of exact areas."""
from __future__ import annotations

from decimal import Decimal
from fractions import Fraction
from typing import Union

from ._figures import acres_of_hundredths


def rounded(area: Union[Fraction, int]) -> Decimal:
    """Return an exact area rounded to hundredths of an acre, half up, as `Plat.acres` rounds it.

    A sum of areas that is rounded once is the acreage of all the land. Python's own `round` is not half up.

    >>> lots = ["sec. 7, lot 1.", "sec. 7, lot 4."]
    >>> township.rounded(sum(map(plat.area, lots)))
    Decimal('78.20')
    >>> sum(map(plat.acres, lots))
    Decimal('78.21')
    """
    hundredths = (200 * area.numerator + area.denominator) // (2 * area.denominator)
    return acres_of_hundredths(hundredths)
