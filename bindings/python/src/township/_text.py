"""Texts that go to the library, and names of files that go into messages."""
from __future__ import annotations

import os
from typing import Union

#: Input text: a `str` is encoded as UTF-8.
Text = Union[str, bytes]

#: The name of a file.
Path = Union[str, bytes, "os.PathLike[str]", "os.PathLike[bytes]"]


def encoded(text: Text) -> bytes:
    """Return the bytes of a text: `bytes` unchanged, and a `str` in UTF-8.

    Every `str` can be encoded. Bytes that Python escaped with `surrogateescape` are restored. Other lone
    surrogates become bytes that are not allowed in a description, which is then refused at their location.
    """
    if isinstance(text, bytes):
        return text
    if not isinstance(text, str):
        raise TypeError(f"a text is str or bytes, not {type(text).__name__}")
    try:
        return text.encode("utf-8", "surrogateescape")
    except UnicodeEncodeError:
        return text.encode("utf-8", "surrogatepass")


def shown(path: Path) -> str:
    """Return a file name with its unprintable characters escaped.

    >>> shown("b1\\n.csv")
    'b1\\\\n.csv'
    """
    return "".join(each if each.isprintable() else ascii(each)[1:-1] for each in os.fsdecode(path))


def names_a_file(text: Text) -> bool:
    """Return whether field notes look like the name of a file. No field notes fit on a single line.

    >>> names_a_file("samples/b1.csv"), names_a_file("line,between,and,quarter,corner")
    (True, False)
    """
    line = os.fsdecode(text)
    if not line or "\n" in line or "\0" in line:
        return False
    return line.lower().endswith((".csv", ".txt")) or os.path.exists(line)
