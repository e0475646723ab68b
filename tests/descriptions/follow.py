#!/usr/bin/env python3
"""Follows the advice of refused descriptions to the letter, and checks that it never leads to wrong land.

    python3 tests/descriptions/follow.py [PROGRAM [ROWS]]

PROGRAM is the path of `township`, by default ./township. ROWS is a file in the form of written.tsv, which is the
default. Each description is given to the program with the field notes of samples/b1.csv. Where it is refused, its
first message is followed: the only reading is taken if there is one; otherwise, what the message says to write or to
delete is written or deleted. This is repeated for the message of the text that comes of it, some rounds long.
Advice that names several readings, or only says what is wrong, is not followed, since it doesn't decide.

A row passes if the land that this ends in is the land understood, or if it ends in no land. A row that is
ambiguous, or not expressible by lots and aliquot parts, passes only if it ends in no land. A file in which fewer rows
end in the land understood than floors.tsv asks for fails (floors.py). The script prints the share of the refused
descriptions, by weight, that is cured in one round. The last line is `N passed, M failed`, and the status is 0 where
nothing failed.
"""

import pathlib
import re
import subprocess
import sys
import tempfile

sys.dont_write_bytecode = True

from check import NOTES, ROWS, Program, Row, ended  # noqa: E402
from floors import floor_faults  # noqa: E402

ROUNDS = 12

# What the last line of a message begins with, before a description that can be taken as it is.
ENDING = "perhaps: "


class Message:
    """The message of a refused description: where it is refused, and the help, on one line."""

    def __init__(self, refusal, text):
        self.place = int(refusal.split(" ")[-1])
        lines = text.split("\n")
        carets = [number for number, line in enumerate(lines) if re.fullmatch(r" +\| *\^+", line)]
        self.width = lines[carets[0]].count("^") if carets else 0
        after = lines[carets[0] + 1:] if carets else []
        self.description = None
        self.help = ""
        for line in after:
            line = line.strip()
            if line.startswith(ENDING):
                self.description = line.partition(": ")[2]
            elif line:
                self.help += (" " if self.help else "") + line


class Follower(Program):
    """The program, whose messages are followed."""

    def message(self, text):
        """The message of a text that is refused, or None."""
        self.description.write_bytes(text.encode())
        words = [self.path, "acres", str(NOTES), str(self.description)]
        run = subprocess.run(words, capture_output=True)
        if run.returncode != 1:
            return None
        return Message(run.stdout.decode().strip(), run.stderr.decode())


def sign_at(text, message):
    """The refused characters: where they begin and end in the text's characters."""
    start = len(text.encode()[:message.place].decode(errors="replace"))
    return start, min(start + max(message.width, 0), len(text))


def joined_before(text, start, written):
    """Where what is written begins: with the characters before the refused ones, if they begin it."""
    for first in range(max(0, start - 12), start + 1):
        before = text[first:start].rstrip()
        if before and not before[0].isspace() and written.lower().startswith(before.lower()):
            return first
    return start


def followed(text, message):
    """The text with what the message says to write or to delete. None if it says neither."""
    if message.description is not None:
        return message.description
    advice = message.help
    start, end = sign_at(text, message)
    delete = re.fullmatch(r"delete `([^`]*)`", advice)
    if delete:
        return text[:start] + text[start:].replace(delete[1], "", 1)
    if "this can be read in several ways" in advice:
        return None
    write = re.search(r"\bwrite ([TS]?[^;:]*?)(?: instead of .*| without .*| before .*|)$", advice)
    if not write or write[1].startswith(("a comma", "it as", "decimal", "; ")):
        return None
    written = write[1]
    first = joined_before(text, start, written)
    after = text[end:]
    # A fraction's digit that is written again.
    digit = re.match(r" ?[24](?!\d)", after)
    if digit and text[start:end] in ("/", "%") and written.endswith(digit[0].strip()):
        after = after[digit.end():]
    return text[:first] + written + after


def rounds_of(row, program):
    """The lands of the texts that following the messages makes: one for each round, the last of which is read or
    followed no further; with the number of rounds."""
    text = row.description
    for number in range(ROUNDS):
        message = program.message(text)
        if message is None:
            return text, number
        text_after = followed(text, message)
        if text_after is None or text_after == text:
            return None, number
        text = text_after
    return None, ROUNDS


def fault_of(row, program, end):
    """What is wrong with the end of following a row's messages."""
    if end is None:
        return None
    land, _ = program.normal(end)
    if land is None:
        return None
    if row.kind() != "expressible":
        return f"{row.kind()}, but followed to {end!r}"
    understood, error = program.land(row.land)
    if error or land != understood:
        return f"followed to {end!r}, other land than {row.land!r}"
    return None


def rows_in(path):
    lines = pathlib.Path(path).read_text(encoding="utf-8").split("\n")[1:]
    fields = [line.split("\t") for line in lines if line]
    return [Row((line + ["other"])[:6]) for line in fields]


def main():
    if len(sys.argv) > 3:
        raise SystemExit("usage: follow.py [PROGRAM [ROWS]]")
    path = sys.argv[1] if len(sys.argv) > 1 else "./township"
    file = sys.argv[2] if len(sys.argv) > 2 else ROWS
    rows = rows_in(file)
    failures = []
    refused = cured = cured_at_last = 0.0
    cured_rows = 0
    with tempfile.TemporaryDirectory() as folder:
        program = Follower(path, folder)
        for row in rows:
            if program.normal(row.description)[0] is not None:
                continue
            end, rounds = rounds_of(row, program)
            fault = fault_of(row, program, end)
            if fault:
                failures.append(f"{row.id}: {fault}")
            if row.kind() == "expressible":
                weight = float(row.weight)
                refused += weight
                if end is not None and not fault and program.normal(end)[0] is not None:
                    cured += weight if rounds == 1 else 0
                    cured_at_last += weight
                    cured_rows += 1
    print(f"expressible and refused: {refused:.1f} percent of all, by weight")
    print(f"cured in one round: {100 * cured / refused:.1f} percent of these; in {ROUNDS}: "
          f"{100 * cured_at_last / refused:.1f}")
    print(f"rows that end in the land understood: {cured_rows}")
    passed = len(rows) - len(failures)
    failures += floor_faults(file, cured=cured_rows)
    return ended(passed, failures)


if __name__ == "__main__":
    sys.exit(main())
