"""Responses that are sent packed (gzip) to clients that take them so, as browsers do."""
from __future__ import annotations

import gzip

from flask import Response, request

#: How hard files are packed, once, and answers, each time.
_ONCE, _EACH_TIME = 9, 1

#: Shorter answers are sent as they are: packing them saves nothing that a user would notice.
_ANSWER_LEAST = 16 * 1024


def packed(data: bytes) -> bytes:
    """Return a file, packed: always to the same bytes."""
    return gzip.compress(data, _ONCE, mtime=0)


def takes_packed() -> bool:
    """Return whether the client takes packed responses."""
    return bool(request.accept_encodings.quality("gzip"))


def pack(response: Response) -> Response:
    """Pack a response if it is long, and the client takes it so."""
    response.headers["Vary"] = "Accept-Encoding"
    data: bytes = response.get_data()
    if len(data) >= _ANSWER_LEAST and takes_packed():
        response.set_data(gzip.compress(data, _EACH_TIME, mtime=0))
        response.headers["Content-Encoding"] = "gzip"
    return response
