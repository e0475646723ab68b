"""Field notes in other forms that make the same plat: ends of lines, empty lines, quotes, a byte order mark, no last line
feed, the records in another order, and the sections of a line in the other order."""
from __future__ import annotations

import re
from pathlib import Path
from typing import List

import pytest

from rows import TOP, Run, Wanted, Way, tables
from running import fault_of

NOTES = (TOP / "samples" / "b1.csv").read_bytes()
LINES = NOTES.splitlines()
[PLAT] = [it["stdout"].encode() for it in tables()["plat"]["row"] if it["name"] == "the uneven township"]


def other_order(record: bytes) -> bytes:
    """A record with its two sections exchanged, if it has two."""
    line, one, other, *distances = record.split(b",")
    return b",".join([line, other, one, *distances]) if other else record


def joined(lines: List[bytes], end: bytes = b"\n") -> bytes:
    return b"".join(it + end for it in lines)


FORMS = {
    "as it is": NOTES,
    "lines that end in CR": joined(LINES, b"\r"),
    "lines that end in CR LF": joined(LINES, b"\r\n"),
    "an empty line after each": joined(LINES, b"\n\n"),
    "empty lines of all kinds": joined(LINES, b"\r\n\r\n\n"),
    "all fields in quotes": re.sub(rb"[^,\n]+|(?<=,)(?=,)", rb'"\g<0>"', NOTES),
    "after a byte order mark": b"\xef\xbb\xbf" + NOTES,
    "after an empty line": b"\n" + NOTES,
    "without the last line feed": NOTES.rstrip(b"\n"),
    "the records from the last one": joined(LINES[:2] + LINES[:1:-1]),
    "the sections in the other order": joined(LINES[:2] + [other_order(it) for it in LINES[2:]]),
}


@pytest.mark.parametrize("form", FORMS)
def test_form(form: str, program: str, folder: Path) -> None:
    files = {b"notes.csv": FORMS[form]}
    fault = fault_of(program, Run(form, (b"plat", b"notes.csv"), files, None, Way.FILES, Wanted(0, PLAT, (), b"")), folder)
    if fault:
        pytest.fail(fault, pytrace=False)
