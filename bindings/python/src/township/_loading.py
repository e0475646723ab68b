"""The shared library: where it is, and how it is loaded."""
from __future__ import annotations

import ctypes
import os

#: The environment variable that gives the path of the library.
VARIABLE = "TOWNSHIP_LIBRARY"

_FOLDER, _NAME = os.path.dirname(os.path.abspath(__file__)), "libtownship.so"

#: The default path of the library: in the package's own folder.
BESIDE = os.path.join(_FOLDER, _NAME)

#: The folder of this package in the repository, where `make lib` puts the library into the folder `lib`.
_IN_REPOSITORY = os.path.join("", "bindings", "python", "src", "township")


def in_repository() -> str:
    """Return the path of the repository's library if this package is in the repository, or else nothing."""
    if not _FOLDER.endswith(os.sep + _IN_REPOSITORY):
        return ""
    return os.path.join(_FOLDER[: -len(_IN_REPOSITORY)], "lib", _NAME)


def default() -> str:
    """Return the path of the library: the one in the package's folder or, if there is none, the repository's."""
    repository = in_repository()
    if repository and os.path.exists(repository) and not os.path.exists(BESIDE):
        return repository
    return BESIDE


def _load() -> ctypes.CDLL:
    """Load the library that the environment variable names, or else the default one."""
    path = os.environ.get(VARIABLE) or default()
    try:
        return ctypes.CDLL(path)
    except OSError as error:
        raise ImportError(f"cannot load the township library: {error} ({VARIABLE} can name its file)") from error


LIBRARY = _load()
