#!/usr/bin/env python3
"""Writes the worked answers among the rows as a zip of cases: `cases.py ZIP`. The tests of the library read such zips
(TOWNSHIP_CASES); tests/library/c/case_records.py says what they hold."""
from __future__ import annotations

import sys
import zipfile
from typing import Any, Dict, Iterator, NamedTuple, Optional

from rows import contents, land_of, notes_of, rows, tables, text_of

#: The files of rows whose answers the library gives too.
SUBJECTS = ("acres", "acres-by-plat", "normal", "report", "records")
ACCOUNTS = {"acres": "exact", "acres by the plat": "plat"}


class Case(NamedTuple):
    """A run of the program, as the tests of the library know it."""

    kind: str
    notes: bytes
    second: Optional[bytes]
    account: Optional[str]
    answer: bytes


def cases() -> Iterator[Case]:
    files = tables()
    for _, row in rows({subject: files[subject] for subject in SUBJECTS}):
        kind = row["kind"] if isinstance(row["kind"], str) else row["kind"][0]
        yield case_of(row, kind)
        if kind == "acres" and b"\n" not in land_of(row, kind):
            joined = land_of(row, kind) + b"\n" + notes_of(row)
            yield Case("joined", b"", joined, None, text_of(row["stdout"]))


def case_of(row: Dict[str, Any], kind: str) -> Case:
    second = None
    if kind != "plat":
        second = contents(row["list"]) if kind == "report" else land_of(row, kind)
    return Case(kind.partition(" ")[0], notes_of(row), second, ACCOUNTS.get(kind), text_of(row["stdout"]))


def files_of(case: Case) -> Iterator[tuple[str, bytes]]:
    """The files of a case, by their names."""
    yield "kind", case.kind.encode()
    yield "notes", case.notes
    yield "expected", case.answer
    yield "status", b"%d" % case.answer.startswith(b"refused")
    if case.second is not None:
        yield "second", case.second
    if case.account:
        yield "account", case.account.encode()


def main() -> None:
    with zipfile.ZipFile(sys.argv[1], "w") as archive:
        for number, case in enumerate(cases()):
            for name, content in files_of(case):
                archive.writestr(f"{number:04}/{name}", content)


main()
