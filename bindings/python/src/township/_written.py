"""Texts that the library writes."""
from __future__ import annotations

import ctypes
import threading
from typing import Callable, Tuple

from . import _library

#: The buffer size for a first call, in bytes. It holds all but long canonical texts and field notes.
USUAL_ROOM = 4096


class _Usual(threading.local):
    """The buffer for first calls. Each thread has its own, because a call lets other threads run."""

    def __init__(self) -> None:
        self.buffer = ctypes.create_string_buffer(USUAL_ROOM)


_usual = _Usual()


def without_text(call: Callable[..., _library.Answer], *arguments: object) -> _library.Answer:
    """Call a function that writes a text, without room for it. The answer has the length of the text."""
    return call(*arguments, _usual.buffer, 0)


def bytes_by(call: Callable[..., _library.Answer], *arguments: object) -> Tuple[_library.Answer, bytes]:
    """Call a function that writes bytes. Return its answer and the bytes, of which there may be none.

    If the buffer is too small, the library reports the size it needs, and the function is called again.
    """
    buffer = _usual.buffer
    answer = call(*arguments, buffer, USUAL_ROOM)
    while answer.verdict == _library.NO_ROOM:
        room = answer.length
        buffer = ctypes.create_string_buffer(room)
        answer = call(*arguments, buffer, room)
    return answer, ctypes.string_at(buffer, answer.length)


def text_by(call: Callable[..., _library.Answer], *arguments: object) -> Tuple[_library.Answer, str]:
    """Call a function that writes a text. Return its answer and the text, which is empty if there is none."""
    answer, text = bytes_by(call, *arguments)
    return answer, text.decode("utf-8", "replace")
