"""Answers the pieces of a list in several processes, in their order."""
from __future__ import annotations

import multiprocessing
import signal
from collections import deque
from multiprocessing.connection import Connection
from typing import Callable, Deque, Iterator, List, NamedTuple, Optional, Sequence, Union

from .answered import Answered, Piece, answered, rows_in
from .answers import Answers, Counts
from .chunks import Chunk, Chunks
from .shape import Shape
from .stopped import Stopped

#: The number of characters that a process is given at a time.
_CHUNK = 1 << 16


class Given(NamedTuple):
    """What a process is given."""

    piece: Piece
    #: The first principal meridian that is named before it, or nothing.
    first_meridian: str


class Made(NamedTuple):
    """What a process returns."""

    answered: Answered
    counts: Counts
    #: The first principal meridian that is named before the end of the piece, or nothing.
    first_meridian: str


class _Busy(NamedTuple):
    """A process that answers a piece."""

    connection: Connection
    piece: Piece


class Workers:
    """Processes that are forked from this one, so that they have its plats, and end when it does."""

    def __init__(self, count: int, answers: Answers, shape: Shape) -> None:
        context = multiprocessing.get_context("fork")
        self._answers = answers
        self._shape = shape
        self._here: List[Connection] = []
        self._processes = []
        for _ in range(count):
            here, there = context.Pipe()
            self._here.append(here)
            given = (there, list(self._here), answers, shape)
            process = context.Process(target=_work, args=given, daemon=True)
            try:
                process.start()
            except OSError as error:
                raise Stopped(f"township: cannot start a process: {error.strerror}") from error
            there.close()
            self._processes.append(process)
        #: The processes that answer pieces, in the order of the list, and those that do not.
        self._busy: Deque[_Busy] = deque()
        self._free = deque(self._here)

    def __enter__(self) -> "Workers":
        return self

    def __exit__(self, *_: object) -> None:
        for connection in self._here:
            connection.close()
        for process in self._processes:
            process.join()

    def answers_to(self, take: Callable[[], Optional[Piece]], chunks: Optional[Chunks]) -> Iterator[str]:
        """Yield the answers to all pieces that `take` returns, as many at a time as there are processes.

        If they are chunks, `chunks` is where they come from. If there is no next piece because of an interrupt or a
        failure, that is raised after the answers to the pieces before it.
        """
        if chunks is not None:
            chunks.size, chunks.is_full = _CHUNK, True
        ended: Optional[BaseException] = None
        while True:
            piece = None
            try:
                piece = take() if ended is None else None
            except (KeyboardInterrupt, Stopped) as error:
                ended = error
            if piece is not None and self._free:
                self._send(self._free.popleft(), piece)
            elif self._busy:
                # The process that has worked for the longest time is given the next piece at once.
                yield self._received_and_sent(piece, chunks)
            else:
                break
        if ended is not None:
            raise ended

    def _received_and_sent(self, piece: Optional[Piece], chunks: Optional[Chunks]) -> str:
        """Return the answers to the first piece that is not answered, and give the next one to its process."""
        connection, asked = self._busy.popleft()
        made = _received(connection)
        self._answers.counts.add(made.counts)
        if made.answered.unfinished is not None and chunks is not None and isinstance(asked, Chunk):
            self._free.append(connection)
            later = [*self._given_up(), *([piece] if isinstance(piece, Chunk) else [])]
            chunks.again(asked, made.answered.unfinished, later)
            self._answers.plats.begin(made.first_meridian)
        elif piece is not None:
            self._send(connection, piece)
        else:
            self._free.append(connection)
        return made.answered.text

    def _given_up(self) -> Iterator[Chunk]:
        """Yield the chunks that are not answered yet, without awaiting more than the end of the work on them."""
        while self._busy:
            connection, piece = self._busy.popleft()
            _received(connection)
            self._free.append(connection)
            if isinstance(piece, Chunk):
                yield piece

    def _send(self, connection: Connection, piece: Piece) -> None:
        """Give a piece to a process."""
        plats = self._answers.plats
        try:
            connection.send(Given(piece, plats.first_meridian))
        except OSError as error:
            raise Stopped(_ENDED) from error
        self._busy.append(_Busy(connection, piece))
        if plats.awaits_first_meridian():
            self._answers.find_first_meridian(rows_in(piece, self._answers, self._shape))


_ENDED = "township: a process that answers a part of the list was ended; perhaps memory ran out"


def _received(connection: Connection) -> Made:
    """Return what a process returns, or raise its exception."""
    try:
        made: Union[Made, MemoryError] = connection.recv()
    except (EOFError, OSError) as error:
        raise Stopped(_ENDED) from error
    if isinstance(made, MemoryError):
        raise made
    return made


def _work(connection: Connection, ends: Sequence[Connection], answers: Answers, shape: Shape) -> None:
    """Answer pieces in a process of its own, until there are no more.

    `ends` are the other process's ends of the connections, which were inherited.
    """
    # Ctrl-C on a terminal goes to all processes. The first one ends the others.
    signal.signal(signal.SIGINT, signal.SIG_IGN)
    for end in ends:
        end.close()
    try:
        while True:
            given: Given = connection.recv()
            try:
                connection.send(_made_of(given, answers, shape))
            except MemoryError as error:
                connection.send(error)
    except (EOFError, OSError):
        # There are no more pieces, or the first process has ended.
        return


def _made_of(given: Given, answers: Answers, shape: Shape) -> Made:
    """Return the answers to a piece."""
    answers.plats.begin(given.first_meridian)
    answers.counts = Counts()
    made = answered(given.piece, answers, shape)
    return Made(made, answers.counts, answers.plats.first_meridian)
