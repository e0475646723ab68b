"""Chunks whose records a `csv.writer` would write just as they are, so that each can be copied.

Nearly all lists consist of such chunks. To read and write records by the `csv` module takes several times as long as to
find them in the text by a regular expression.
"""
from __future__ import annotations

import functools
import re
from typing import Any, List, Mapping, NamedTuple, Optional, Pattern, Sequence, Tuple

from .added import Added, acres_text_of
from .chunks import Chunk
from .shape import FIELD_MOST, Shape

#: The separators that are in no acreage. Lists with any other one are left to the `csv` module.
_SEPARATORS = ",;\t|"


class PlainRows(NamedTuple):
    """The records of such a chunk. None of them has a fault, and the last one ends in the chunk."""

    #: The text of each, without its line end.
    texts: Sequence[str]
    #: The fields of the columns that are used, by their index.
    columns: Mapping[int, Sequence[str]]
    separator: str
    faults: Mapping[int, str] = {}
    unfinished: Optional[int] = None

    @property
    def number(self) -> int:
        """The number of records."""
        return len(self.texts)

    def column(self, index: int) -> Sequence[str]:
        """Return the fields of a column that is used."""
        return self.columns[index]

    def csv(self, added: Added) -> str:
        """Return the records with the fields that are added to them."""
        acres = map(acres_text_of, added.hundredths)
        canonical = _written_all(added.canonical, self.separator)
        if added.files is not None:
            names = {name: self.separator + _written(name, self.separator) for name in set(added.files)}
            canonical = [description + names[name] for description, name in zip(canonical, added.files)]
        if added.figures is not None:
            figures = _written_all(added.figures, self.separator)
            canonical = [f"{one}{self.separator}{figure}" for one, figure in zip(canonical, figures)]
        before, between = self.separator, self.separator * 5
        rows = [
            f"{text}{before}{acreage}{between}{description}\n"
            for text, acreage, description in zip(self.texts, acres, canonical)
        ]
        for index, fields in added.others.items():
            written = (_written(field, self.separator) for field in fields)
            rows[index] = self.separator.join([self.texts[index], *written]) + "\n"
        return "".join(rows)


def plain_rows(chunk: Chunk, shape: Shape, used: Sequence[int]) -> Optional[PlainRows]:
    """Return the records of a chunk, of which these columns are used, if they are plain; else `None`."""
    text = chunk.text
    if shape.separator not in _SEPARATORS or len(text) > FIELD_MOST or "\0" in text:
        return None
    line_end = "\r\n" if "\r\n" in text else "\n"
    if not text.endswith(line_end):
        text += line_end
    columns = tuple(sorted(set(used)))
    pattern = _pattern_of(shape.width, columns, shape.separator, line_end)
    texts, *fields, others = zip(*pattern.findall(text))
    # A record without any text is skipped.
    if others[-1] or shape.separator * (shape.width - 1) in texts:
        return None
    pairs = zip(fields[::2], fields[1::2])
    doubled = '""' in text
    return PlainRows(texts, {index: _unquoted(*pair, doubled) for index, pair in zip(columns, pairs)}, shape.separator)


@functools.lru_cache(maxsize=4)
def _pattern_of(width: int, columns: Tuple[int, ...], separator: str, line_end: str) -> "Pattern[str]":
    """Return a pattern that finds plain records; or, where there is something else, all the rest.

    Its groups are a record, the fields of some columns, each if it is quoted and if it is not, and the rest.
    """
    # No part of it can match the same text in two ways, so it does not take long where it fails.
    special = re.escape(separator)
    simple = f'[^"{special}\r\n]*'
    # It contains a character for which it has to be quoted.
    quoted = f'{simple}(?:""|[{special}\n])[^"\r]*(?:""[^"\r]*)*'
    fields = [f'(?:"{quoted}"|{simple})'] * width
    for index in columns:
        fields[index] = f'(?:"({quoted})"|({simple}))'
    return re.compile(f"({special.join(fields)}){line_end}|((?s:.+))")


def _unquoted(quoted: Sequence[str], simple: Sequence[str], doubled: bool) -> List[str]:
    """Return the fields of a column. Quotation marks are doubled in those that are quoted."""
    if doubled:
        return [one.replace('""', '"') or other for one, other in zip(quoted, simple)]
    return [one or other for one, other in zip(quoted, simple)]


def _written_all(texts: Sequence[str], separator: str) -> Sequence[str]:
    """Return texts as fields. The only character in them that may have to be quoted is the separator."""
    return [f'"{text}"' if separator in text else text for text in texts]


def _written(field: Any, separator: str) -> str:
    """Return a field as a `csv.writer` writes it."""
    text = "" if field is None else str(field)
    if separator in text or '"' in text or "\n" in text or "\r" in text:
        return '"' + text.replace('"', '""') + '"'
    return text
