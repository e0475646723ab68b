"""Responses in JSON."""
from __future__ import annotations

import json

from flask import Response

from .refusals import Json


def data_of(answer: Json) -> bytes:
    """Return the JSON of an answer."""
    return (json.dumps(answer, separators=(",", ":")) + "\n").encode("ascii")


def replied(answer: Json, status: int = 200) -> Response:
    """Return a response with JSON."""
    return Response(data_of(answer), status, mimetype="application/json")


def failed(status: int, message: str) -> Response:
    """Return a response that says why there is no answer."""
    return replied({"error": message}, status)
