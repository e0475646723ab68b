"""The exit statuses of a batch, and the reasons that it stops early."""
from __future__ import annotations

import errno
from contextlib import contextmanager
from enum import IntEnum
from typing import Iterator

from .._text import shown


class Status(IntEnum):
    """An exit status."""

    #: All descriptions are accepted.
    ACCEPTED = 0
    #: Some descriptions, or some field notes, are refused.
    REFUSED = 1
    #: The command line is not valid.
    MISUSED = 2
    #: A file cannot be read or written, the list is not valid, or memory ran out.
    NO_ANSWER = 3
    #: Ctrl-C: 128 and the number of the signal SIGINT.
    INTERRUPTED = 130
    #: The reader of the output has closed it: 128 and the number of the signal SIGPIPE.
    CLOSED = 141


class Stopped(Exception):
    """The reason that a batch stopped early; the output so far is the beginning of the answer."""

    def __init__(self, message: str, status: Status = Status.NO_ANSWER) -> None:
        super().__init__(message)
        self.status = status


@contextmanager
def reading(name: str) -> Iterator[None]:
    """Report any `OSError` in the block as a failure to read a file."""
    try:
        yield
    except OSError as error:
        raise Stopped(f"township: cannot read {shown(name)}: {error.strerror or error}") from error


@contextmanager
def decoding(name: str, fault: str) -> Iterator[None]:
    """Report any failure in the block as one to read a file in a format of its own, with this fault."""
    try:
        with reading(name):
            yield
    except (Stopped, MemoryError):
        raise
    except Exception as error:
        # A file that is damaged raises more than the packages document: errors of zip, XML, and their own.
        raise Stopped(f"township: cannot read {shown(name)}: {fault}") from error


@contextmanager
def writing(name: str = "") -> Iterator[None]:
    """Report any `OSError` in the block as a failure to write a file, or standard output.

    If the reader of the output has closed it, there is nothing to say.
    """
    try:
        yield
    except OSError as error:
        if error.errno == errno.EPIPE:
            raise Stopped("", Status.CLOSED) from error
        where = f" {shown(name)}" if name else ""
        raise Stopped(f"township: cannot write{where}: {error.strerror or error}") from error
