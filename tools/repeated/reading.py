"""Reading the files of the repository."""

import re
from pathlib import Path
from typing import List, Tuple

ROOT = Path(__file__).resolve().parents[2]

#: How many comparisons a module made, and the differences that it found.
Compared = Tuple[int, List[str]]

#: How source files in Rattle, Rust, and Python end.
SOURCES = (".rt", ".rs", ".py")

HEADER = "include/township.h"
RUST = "bindings/rust/src"
PYTHON = "bindings/python/src/township"


def text_of(path: str) -> str:
    """The text of a file, or of all source files of a folder."""
    file = ROOT / path
    files = [file] if file.is_file() else sorted(each for each in file.rglob("*.*") if each.suffix in SOURCES)
    return "\n".join(each.read_text(encoding="utf-8") for each in files)


def number_of(digits: str) -> int:
    """A number that is written with commas or underscores between its digits."""
    return int(re.sub("[,_]", "", digits))
