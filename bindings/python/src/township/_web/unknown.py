"""The words of a text that are not understood: the fewest in a row without which the text has a reading."""
from __future__ import annotations

import re
from typing import Iterator, Optional, Tuple

from .. import _library
from .._readings import readings_of

#: A word, without the punctuation around it.
_WORD = re.compile(rb"[^\s,;:.()]+")

#: White space, and the punctuation between parts.
_BETWEEN = b" \t\r\n,;:"

#: The longest text in which such words are looked for, in bytes, and the most texts without them that are read.
_BYTES_MOST, _TRIES_MOST = 2_048, 256


def unknown_words(given: bytes, lots: Optional[_library.Lots] = None) -> Optional[Tuple[int, int]]:
    """Return where the words begin and end, in bytes, or `None` if there are none, or too many.

    The text is read on the plat of a lot table, or else with the standard lots.

    >>> unknown_words(b"sec. 14, blah NE1/4")
    (9, 13)
    """
    if len(given) > _BYTES_MOST:
        return None
    for _, (start, end) in zip(range(_TRIES_MOST), _runs(given)):
        before, after = given[:start], given[end:]
        # Nothing is between what is left and such words if they are at the beginning or at the end.
        if not _WORD.search(before):
            after = after.lstrip(_BETWEEN)
        if not _WORD.search(after):
            before = before.rstrip(_BETWEEN)
        if readings_of(before + after, lots):
            return start, end
    return None


def _runs(given: bytes) -> Iterator[Tuple[int, int]]:
    """Yield where words in a row begin and end: one word, then two, and so on, from the left."""
    words = [found.span() for found in _WORD.finditer(given)]
    for count in range(1, len(words)):
        for first in range(len(words) - count + 1):
            yield words[first][0], words[first + count - 1][1]
