#!/usr/bin/env python3
"""Counts what is said of descriptions without a reading: what is not understood, ambiguous, or not expressible.

    python3 tests/descriptions/unread.py [--record] [READER [ROWS..]]

READER is the program of crates/twp_trials; with the word `unread`, it prints why descriptions have no reading. ROWS are
files in the form of written.tsv; without them, all files of floors.tsv.

A row without a reading fails if a run of unread words isn't in its text after the one before it, has white space at an
end, or goes past the end of a line. unread.tsv has, for each file, how many rows have no reading, and of how many of
these something is said: unread words, an ambiguous phrase, a reason why lots and aliquot parts can't describe the land,
or nothing. A file whose numbers have changed fails, and `--record` writes what they are now. A file always fails if
something is said of too few of its rows (LEAST_SAID), or if each of its rows has a reading.

The last line is `N passed, M failed`, and the status is 0 where nothing failed.
"""

import pathlib
import subprocess
import sys

sys.dont_write_bytecode = True

from check import FOLDER  # noqa: E402
from floors import floors  # noqa: E402
from follow import rows_in  # noqa: E402

READER = FOLDER.parent.parent / "crates" / "twp_trials" / "out" / "twp_trials"
RECORD = FOLDER / "unread.tsv"
COLUMNS = ["file", "none", "unread", "ambiguous", "reason", "nothing"]
KINDS = ["unread", "ambiguous", "beyond"]

#: Of so many of 100 rows without a reading, at least, something is said.
LEAST_SAID = 60


def said_of(rows, reader):
    """What is said of each row without a reading, by its number from 0: pairs of a kind and a text."""
    texts = "".join(row.description.replace("\n", r"\n").replace("\t", r"\t") + "\n" for row in rows)
    run = subprocess.run([reader, "unread"], input=texts.encode(), capture_output=True, check=True)
    found = {}
    for line in run.stdout.decode().splitlines():
        if line.startswith("  "):
            found[number].append(tuple(line[2:].split(" ", 1)))
        else:
            number = int(line) - 1
            found[number] = []
    return found


def faults_of(description, said):
    """What is wrong with the runs of unread words of a text."""
    at = 0
    for kind, text in said:
        if kind != "unread" or "\\" in text:
            continue
        place = description.find(text, at)
        if place < 0:
            yield f"`{text}` isn't in the text after the runs before it"
            return
        at = place + len(text)
        if text != text.strip() or not text or "\n" in text:
            yield f"`{text}` isn't a run of words on one line"


def counts_of(found):
    """How many rows have no reading, and of how many of them something of each kind is said, or nothing."""
    kinds = [{kind for kind, _ in said} for said in found.values()]
    return [len(kinds), *(sum(kind in each for each in kinds) for kind in KINDS), sum(not each for each in kinds)]


def recorded():
    heading, *rows = [line.split("\t") for line in RECORD.read_text(encoding="utf-8").splitlines()]
    if heading != COLUMNS:
        raise SystemExit(f"{RECORD}: the heading is not {' '.join(COLUMNS)}")
    return {row[0]: list(map(int, row[1:])) for row in rows}


def record(counts):
    lines = ["\t".join(COLUMNS), *("\t".join([name, *map(str, counts[name])]) for name in sorted(counts))]
    RECORD.write_text("".join(f"{line}\n" for line in lines), encoding="utf-8")


def main(words):
    does_record = "--record" in words
    words = [word for word in words if word != "--record"]
    reader, files = words[0] if words else READER, words[1:]
    files = list(map(pathlib.Path, files)) or [FOLDER / f"{name}.tsv" for name in floors()]
    known = recorded() if RECORD.exists() else {}
    passed = failed = 0
    for file in files:
        rows = rows_in(file)
        found = said_of(rows, reader)
        faults = [f"{rows[number].id}: {fault}" for number, said in found.items()
                  for fault in faults_of(rows[number].description, said)]
        counts = counts_of(found)
        print(f"{file.name}: of {counts[0]} rows without a reading, {counts[1]} have unread words, {counts[2]} an "
              f"ambiguous phrase, and {counts[3]} a reason; {counts[4]} have nothing")
        if not counts[0] or 100 * (counts[0] - counts[4]) < LEAST_SAID * counts[0]:
            faults.append(f"{file.name}: nothing is said of {counts[4]} of {counts[0]} rows without a reading")
        elif does_record:
            known[file.stem] = counts
        if file.resolve().parent == FOLDER and known.get(file.stem) != counts:
            faults.append(f"{file.name}: {RECORD.name} has {known.get(file.stem)}, and not {counts}; if this is "
                          f"intended, add --record")
        for fault in faults:
            print(f"FAIL {fault}")
        passed += len(rows) - len(faults)
        failed += len(faults)
    if does_record:
        record(known)
    print(f"{passed} passed, {failed} failed")
    return 1 if failed else 0


if __name__ == "__main__":
    sys.exit(main(sys.argv[1:]))
