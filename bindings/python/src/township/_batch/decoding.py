"""Decodes the bytes of a list, as a spreadsheet may have written them.

A byte order mark says whether a list is UTF-8 or UTF-16. Without one it is UTF-8, unless the command line
names another encoding. Bytes that are not valid in it are preserved, and go to the output unchanged.
"""
from __future__ import annotations

import codecs
import io
from typing import Tuple

#: The character of a byte order mark.
MARK = "\ufeff"

#: The encodings that the command line can name.
ENCODINGS = {"utf-8": "utf-8", "windows-1252": "cp1252"}

#: What people call the encodings that Python calls otherwise.
_NAMES = {"cp1252": "windows-1252", "utf-8-sig": "utf-8", "utf-16-le": "utf-16", "utf-16-be": "utf-16"}

#: The number of bytes that tell the encoding.
_HEAD = 4

#: The most bytes that are read at a time.
_BLOCK = 1 << 16

#: What old workbooks (.xls) begin with, and new ones that have a password.
OLD_WORKBOOK = b"\xd0\xcf\x11\xe0"

#: What other files begin with: new workbooks, which are zip files, documents, and Parquet files.
_OTHER_FORMATS = (OLD_WORKBOOK, b"PK\x03\x04", b"%PDF", b"PAR1")

_MARKS = (codecs.BOM_UTF8, codecs.BOM_UTF16_LE, codecs.BOM_UTF16_BE)


class Counted:
    """A file whose first bytes can be seen before they are read, and that counts what has been read."""

    def __init__(self, file: io.FileIO) -> None:
        self._file = file
        #: The number of bytes read so far.
        self.position = 0
        self.head = self._read_head()
        self._ahead = self.head

    def _read_head(self) -> bytes:
        head = b""
        while len(head) < _HEAD:
            more = self._file.read(_HEAD - len(head))
            if not more:
                break
            head += more
        return head

    def read(self) -> bytes:
        """Return the next bytes, as many as have arrived, or none at the end."""
        read = self._ahead or self._file.read(_BLOCK) or b""
        self._ahead = b""
        self.position += len(read)
        return read

    def close(self) -> None:
        self._file.close()


def is_another_format(file: Counted) -> bool:
    """Return whether a file is not a text."""
    return file.head.startswith(_OTHER_FORMATS)


def mark_of(file: Counted) -> str:
    """Return the byte order mark with which a file begins, or nothing."""
    return MARK if file.head.startswith(_MARKS) else ""


class Decoded:
    """A file as text, whose line ends are kept."""

    def __init__(self, file: Counted, encoding: str) -> None:
        name, errors = _encoding_of(file.head, encoding)
        #: The encoding that the file is found to have.
        self.encoding = _NAMES.get(name, name)
        self._decoder = codecs.getincrementaldecoder(name)(errors)
        self._file = file
        self._ended = False

    def read(self) -> str:
        """Return the next characters, as many as have arrived, or none at the end."""
        while not self._ended:
            read = self._file.read()
            self._ended = not read
            text = self._decoder.decode(read, self._ended)
            if text:
                return text
        return ""


def _encoding_of(head: bytes, encoding: str) -> Tuple[str, str]:
    """Return the encoding of a list that begins so, and what to do with bytes that are not valid in it."""
    if head.startswith(codecs.BOM_UTF8):
        return "utf-8-sig", "surrogateescape"
    if head.startswith((codecs.BOM_UTF16_LE, codecs.BOM_UTF16_BE)):
        return "utf-16", "replace"
    # The first characters of a heading are ASCII, so that in UTF-16 every other byte is 0.
    if len(head) == _HEAD and head[1] == head[3] == 0 and head[0] and head[2]:
        return "utf-16-le", "replace"
    if len(head) == _HEAD and head[0] == head[2] == 0 and head[1] and head[3]:
        return "utf-16-be", "replace"
    return ENCODINGS[encoding], "surrogateescape"
