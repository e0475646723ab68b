"""Answers a list by chunks: what is done once for a chunk need not be done for each record."""
from __future__ import annotations

import itertools
from typing import Callable, Iterator, NamedTuple, Optional, Union

from .answers import Answers, Rows
from .chunks import Chunk, Chunks
from .plain import plain_rows
from .records import Record
from .rows import ReadRows, read_rows, rows_of
from .shape import Shape

#: Records that are answered together: some that have been read, or the lines that contain them.
Piece = Union[ReadRows, Chunk]

#: The number of records of a workbook that are answered together.
_ROWS = 1000


class Answered(NamedTuple):
    """The answers to a piece of a list."""

    #: The records with their answers, as CSV.
    text: str
    #: The line of a record that does not end in the chunk, if there is one.
    unfinished: Optional[int]


def answered(piece: Piece, answers: Answers, shape: Shape) -> Answered:
    """Return the answers to a piece of a list, and count them."""
    rows = rows_in(piece, answers, shape)
    return Answered(rows.csv(answers.added_to_all(rows)), rows.unfinished)


def rows_in(piece: Piece, answers: Answers, shape: Shape) -> Rows:
    """Return the records in a piece of a list."""
    if not isinstance(piece, Chunk):
        return piece
    return plain_rows(piece, shape, answers.columns) or read_rows(piece, shape)


def pieces_of(records: Iterator[Record], shape: Shape) -> Iterator[ReadRows]:
    """Yield records that are read one at a time, such as those of a workbook, as pieces."""
    while True:
        listed = list(itertools.islice(records, _ROWS))
        if not listed:
            return
        yield rows_of(listed, shape.separator)


def answers_to(
    take: Callable[[], Optional[Piece]], chunks: Optional[Chunks], answers: Answers, shape: Shape
) -> Iterator[str]:
    """Yield the answers to all pieces that `take` returns. If they are chunks, `chunks` is where they come from."""
    while True:
        piece = take()
        if piece is None:
            return
        made = answered(piece, answers, shape)
        if made.unfinished is not None and chunks is not None and isinstance(piece, Chunk):
            chunks.again(piece, made.unfinished)
        yield made.text
