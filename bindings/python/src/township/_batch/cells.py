"""The texts of a workbook's cells."""
from __future__ import annotations

import datetime
from typing import Any

_MIDNIGHT = datetime.time()


def text_of(cell: Any) -> str:
    """Return the text of a cell: of a number as Excel shows it, and of a date in the form 2026-01-31.

    >>> text_of(True), text_of(7.0), text_of(0.1 + 0.2), text_of(datetime.datetime(2026, 1, 31))
    ('TRUE', '7', '0.3', '2026-01-31')
    """
    if cell is None:
        return ""
    if isinstance(cell, bool):
        return str(cell).upper()
    if isinstance(cell, float):
        # Excel shows at most 15 digits, and writes whole numbers that are large as floats.
        return str(int(cell)) if cell.is_integer() else f"{cell:.15g}"
    if isinstance(cell, (datetime.date, datetime.time)):
        return str(without_midnight(cell).isoformat())
    return str(cell)


def without_midnight(cell: Any) -> Any:
    """Return a date for a time at the beginning of a day, as a workbook contains dates; else the cell itself.

    >>> without_midnight(datetime.datetime(2026, 1, 31)), without_midnight("sec. 14.")
    (datetime.date(2026, 1, 31), 'sec. 14.')
    """
    if isinstance(cell, datetime.datetime) and cell.time() == _MIDNIGHT:
        return cell.date()
    return cell
