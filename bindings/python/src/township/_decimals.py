"""Decimal numbers from Python code, which are read exactly."""
from __future__ import annotations

import re
from decimal import Decimal
from fractions import Fraction
from typing import Optional, Union

#: A decimal number. A `float` counts as the decimal that Python shows for it.
Number = Union[int, float, str, Decimal]

_WRITTEN = re.compile(r"[0-9]+(\.[0-9]+)?")


def scaled(number: Number, scale: int, least: int, most: int) -> Optional[int]:
    """Return a number times a scale, if that is a whole number from `least` to `most`.

    >>> scaled("40.45", 100, 1, 99_999), scaled(40.45, 100, 1, 99_999), scaled("40.455", 100, 1, 99_999)
    (4045, 4045, None)
    """
    exact = _exact(number)
    if not exact.is_finite():
        return None
    product = Fraction(exact) * scale
    return product.numerator if product.denominator == 1 and least <= product <= most else None


def _exact(number: Number) -> Decimal:
    """Return a number as a decimal. It is not finite if a text is not a number."""
    if isinstance(number, float):
        return Decimal(float.__repr__(number))
    if isinstance(number, (int, Decimal)):
        return Decimal(number)
    if isinstance(number, str):
        return Decimal(number if _WRITTEN.fullmatch(number) else "NaN")
    raise TypeError(f"a number is int, float, Decimal, or text, not {type(number).__name__}")
