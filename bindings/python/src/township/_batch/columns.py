"""Finds the columns of a list by their names."""
from __future__ import annotations

import re
from typing import List, Optional, Sequence

from .._text import shown
from .stopped import Stopped

#: The columns that a batch adds.
ADDED = ("acres", "refusal", "at", "sentence", "note", "canonical")

#: The column of the file by which a description is answered, which it adds after them if there are several files.
PLAT = "plat"

#: The column of the acreage in each township, which it adds after that one if descriptions begin with their townships.
BY_TOWNSHIP = "by_township"

#: The columns on readings, which it adds after all of these if it is asked to suggest readings.
SUGGESTED = ("reading", "readings", "assumes", "reading_acres", "unread")

#: The number of columns that a message lists, and the number of characters of each name.
_SHOWN = 12
_SHOWN_CHARACTERS = 40


def index_in(heading: Sequence[str], name: str) -> Optional[int]:
    """Return the index of the only column with this name, or `None`.

    If no column has exactly this name, capitals and spaces around it make no difference.
    """
    exactly = [index for index, each in enumerate(heading) if each == name]
    found = exactly or [index for index, each in enumerate(heading) if _plain(each) == _plain(name)]
    return found[0] if len(found) == 1 else None


def column_in(heading: Sequence[str], name: str, option: str, place: str) -> int:
    """Return the index of a column, or stop with a message that shows the heading.

    If no column has the name, and it is a number, it counts the columns, from 1. `option` is the option that names the
    column, and `place` the file and the line of the heading.
    """
    index = index_in(heading, name)
    if index is not None:
        return index
    numbers = [number for number, each in enumerate(heading, start=1) if _plain(each) == _plain(name)]
    if numbers:
        which = " and ".join(map(str, numbers))
        raise Stopped(
            f"township: {place}: the heading has {len(numbers)} columns `{name}`, {which}; name one of them by its "
            f"number, as in {option} {numbers[0]}"
        )
    if re.fullmatch("[0-9]{1,6}", name) and 1 <= int(name) <= len(heading):
        return int(name) - 1
    raise Stopped(
        f"township: {place}: the heading has no column `{name}`; name the column with {option}. "
        f"The heading is: {_shown_heading(heading)}"
    )


def optional_column_in(heading: Sequence[str], name: str, option: str, place: str) -> Optional[int]:
    """Return the index of a column, or `None` if there is none. Stop if there are several."""
    if any(_plain(each) == _plain(name) for each in heading):
        return column_in(heading, name, option, place)
    return None


def added_names(names_files: bool, names_townships: bool, suggests: bool) -> List[str]:
    """Return the names of the added columns, in their order."""
    located = [*([PLAT] if names_files else ()), *([BY_TOWNSHIP] if names_townships else ())]
    return [*ADDED, *located, *(SUGGESTED if suggests else ())]


def added_to(heading: Sequence[str], prefix: str, place: str, added: Sequence[str]) -> List[str]:
    """Return the names of the added columns with their prefix, or stop if the heading has one of them."""
    names = [prefix + name for name in added]
    for name in names:
        if name in heading:
            raise Stopped(
                f"township: {place}: the heading already has a column `{name}`; rename it, or give the added "
                "columns other names with --prefix"
            )
    return names


def _plain(name: str) -> str:
    return name.strip().casefold()


def _shown_heading(heading: Sequence[str]) -> str:
    names = ", ".join(f"`{_shown_name(name)}`" for name in heading[:_SHOWN])
    return (names or "empty") + (", .." if len(heading) > _SHOWN else "")


def _shown_name(name: str) -> str:
    """Return a name as a terminal can show it: what is not a list may contain anything."""
    return shown(name[:_SHOWN_CHARACTERS]) + (".." if len(name) > _SHOWN_CHARACTERS else "")
