#!/usr/bin/env python3
"""Writes the cases of a zip as SQL: `cases.py ZIP > SQL`. tests/library/c/case_records.py says what such a zip is.

The SQL puts them into a table, for tests/postgresql/cases.sql, which answers them. Text in a database has no zero
bytes, so cases with one are left out; and so are lists of tracts and printed plats, which have no function. A plat
that is refused is a case, though. The last line, a comment, says how many there are.
"""
import sys
import zipfile

JOINED_MOST = 131_074


def literal(data):
    """Bytes as a literal of a database without an encoding."""
    return "E'" + "".join(map(character, data)) + "'"


def character(byte):
    """A byte as it is, or escaped."""
    return chr(byte) if 32 <= byte < 127 and byte not in b"'\\" else f"\\x{byte:02x}"


def parts(kind, account, notes, second):
    """The kind of the case, its account, its field notes, and its description."""
    if kind == "joined":
        description, _, notes = second[:JOINED_MOST].partition(b"\n")
        return "acres", "exact", notes, description
    return kind, account or "exact", notes, second


def is_wanted(kind, notes, second, expected):
    if b"\0" in notes + second:
        return False
    return kind in ("acres", "normal") or expected.startswith(b"refused") and kind == "plat"


def main():
    archive = zipfile.ZipFile(sys.argv[1])
    names = set(archive.namelist())
    count = 0

    def read(path):
        return archive.read(path) if path in names else b""

    for case in sorted({name.split("/")[0] for name in names}):
        kind, account, notes, second = parts(
            read(f"{case}/kind").decode().strip(),
            read(f"{case}/account").decode().strip(),
            read(f"{case}/notes"),
            read(f"{case}/second"),
        )
        expected = read(f"{case}/expected")
        if is_wanted(kind, notes, second, expected):
            count += 1
            texts = ", ".join(map(literal, (notes, second, expected)))
            print(f"INSERT INTO cases VALUES ('{case}', '{kind}', '{account}', {texts});")
    print(f"-- {count}")


main()
