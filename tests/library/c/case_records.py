#!/usr/bin/env python3
"""Writes the cases of a zip as records: `case_records.py ZIP > RECORDS`. tests/library/c/cases.c says what a record is.

In the zip each case is a folder with the files `kind` (acres, plat, normal, report, or joined), `notes`,
`second` (the description or the list of tracts), `account` (exact or plat; without it, exact), `expected` (the
answer), and `status`. A joined case has both texts in `second`, as they go to the program's standard input: the
description ends at the first line feed, and the program reads no more than is said here.
"""
import sys
import zipfile

# How much is read of standard input at most: the longest description, the longest notes, and two bytes more.
JOINED_MOST = 131_074


def parts(kind, account, notes, second):
    """The kind of the record, its field notes, and its other text."""
    if kind == 'joined':
        description, _, notes = second[:JOINED_MOST].partition(b'\n')
        return 'acres', notes, description
    if kind == 'acres' and account == 'plat':
        return 'by-plat', notes, second
    return kind, notes, second


def record(name, kind, notes, second, expected):
    line = f'{name} {kind} {len(notes)} {len(second)} {len(expected)}\n'
    return line.encode() + notes + second + expected + b'\n'


def main():
    archive = zipfile.ZipFile(sys.argv[1])
    names = set(archive.namelist())

    def read(path):
        return archive.read(path) if path in names else b''

    for case in sorted({name.split('/')[0] for name in names}):
        kind = read(f'{case}/kind').decode().strip()
        account = read(f'{case}/account').decode().strip()
        kind, notes, second = parts(kind, account, read(f'{case}/notes'), read(f'{case}/second'))
        sys.stdout.buffer.write(record(case, kind, notes, second, read(f'{case}/expected')))


main()
