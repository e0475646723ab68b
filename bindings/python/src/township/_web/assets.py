"""The files of the page, which are read when the server starts."""
from __future__ import annotations

import hashlib
from pathlib import Path
from typing import Dict, NamedTuple

from .packing import packed

_HERE = Path(__file__).resolve().parent
_STATIC = _HERE / "static"
TEMPLATES = _HERE / "templates"

#: The types of the files, by the ends of their names.
_TYPES = {
    ".css": "text/css; charset=utf-8",
    ".csv": "text/csv; charset=utf-8",
    ".html": "text/html; charset=utf-8",
    ".js": "text/javascript; charset=utf-8",
    ".json": "application/json",
    ".svg": "image/svg+xml",
}


class Asset(NamedTuple):
    """A file of the page."""

    data: bytes
    #: The same, packed.
    packed: bytes
    type: str
    #: Changes when the file does.
    tag: str


def asset_of(data: bytes, suffix: str) -> Asset:
    """Return an asset with this content."""
    return Asset(data, packed(data), _TYPES[suffix], hashlib.sha256(data).hexdigest()[:16])


def static_assets() -> Dict[str, Asset]:
    """Return the static files, by their names."""
    files = [path for path in _STATIC.iterdir() if path.suffix in _TYPES]
    return {path.name: asset_of(path.read_bytes(), path.suffix) for path in files}


def interface() -> Asset:
    """Return the description of the JSON interface, in OpenAPI."""
    return asset_of((_HERE / "openapi.json").read_bytes(), ".json")
