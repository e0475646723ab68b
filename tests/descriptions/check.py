#!/usr/bin/env python3
"""Checks the descriptions of written.tsv: their format and, with the program, their land.

    python3 tests/descriptions/check.py [PROGRAM]

Without PROGRAM, only the format is checked. PROGRAM is the path of `township`. With it, each land understood
must be accepted on samples/b1.csv, the readings of an ambiguous row must be different lands, and a description
that is accepted as it is must be the land understood, or one of the readings.

README.md in this folder explains the columns. The last line is `N passed, M failed`, and the status is 0 where
nothing failed.
"""

import collections
import pathlib
import re
import subprocess
import sys
import tempfile

FOLDER = pathlib.Path(__file__).resolve().parent
NOTES = FOLDER.parent.parent / "samples" / "b1.csv"
ROWS = FOLDER / "written.tsv"
README = FOLDER / "README.md"

HEADING = ["id", "source", "weight_percent", r"description (\n \t escaped)", "land understood", "forms"]
AMBIGUOUS = "AMB: "
NOT_EXPRESSIBLE = "not expressible by lots and aliquot parts: "
TOWNSHIP = "T. 2 N., R. 3 W."
OTHER_TOWNSHIP = re.compile(r"T\. [1-9]\d? [NS]\., R\. [1-9]\d? [EW]\.")
ROWS_OF_A_FORM = 4
# Names that README.md lists in addition to the forms. They need no minimum number of rows.
NOT_FORMS = {"joint", "formal", "other"}


class Row:
    """A description with the land that an examiner understands."""

    def __init__(self, fields):
        self.id, self.source, self.weight, escaped, self.land, forms = fields
        self.escaped = escaped
        self.description = escaped.replace(r"\n", "\n").replace(r"\t", "\t")
        self.forms = forms.split(" ")

    def kind(self):
        if self.land.startswith(AMBIGUOUS):
            return "ambiguous"
        return "not expressible" if self.land.startswith(NOT_EXPRESSIBLE) else "expressible"

    def readings(self):
        """The lands, in formal language: one, several for an ambiguous row, none for one not expressible."""
        kind = self.kind()
        if kind == "ambiguous":
            return self.land[len(AMBIGUOUS):].split(" || ")
        return [self.land] if kind == "expressible" else []


class Program:
    """The program, run on samples/b1.csv."""

    def __init__(self, path, folder):
        self.path = path
        self.description = pathlib.Path(folder) / "description.txt"

    def normal(self, description):
        """The canonical text of the description, or None where it is refused, and the refusal."""
        self.description.write_bytes(description.encode())
        run = subprocess.run([self.path, "normal", str(NOTES), str(self.description)], capture_output=True)
        output = run.stdout.decode()
        if run.returncode == 0:
            return output, ""
        if run.returncode == 1 and output.startswith("refused "):
            return None, output.strip()
        raise SystemExit(f"{self.path}: status {run.returncode} for {description!r}")

    def land(self, reading):
        """The text that distinguishes the land of a reading from others, and an error or None.

        A reading that is accepted is told apart by its canonical text. One in another township has to be
        refused for its township alone: the rest of it is accepted under the township of the notes.
        """
        text, refusal = self.normal(reading)
        if text is not None:
            return text, None
        heading = OTHER_TOWNSHIP.match(reading)
        if heading and heading[0] != TOWNSHIP and refusal == "refused 61 at 0":
            text, refusal = self.normal(TOWNSHIP + reading[heading.end():])
            if text is not None:
                return text.replace(TOWNSHIP, heading[0], 1), None
        return None, f"{reading!r}: {refusal}"


def names_listed(section):
    """The short names in the tables of a section of README.md: rows that begin with a name in backquotes."""
    text = README.read_text(encoding="utf-8").split(f"\n## {section}\n")[1].split("\n## ")[0]
    return re.findall(r"^\| `([a-z-]+)` \|", text, re.MULTILINE)


def format_faults(row, names, sources):
    """What is wrong with the format of a row."""
    if not re.fullmatch(r"W\d{3}", row.id):
        yield "the id is not W and three digits"
    if row.source not in sources:
        yield f"README.md does not list the source {row.source!r}"
    if not re.fullmatch(r"\d+\.\d{4}", row.weight) or float(row.weight) <= 0:
        yield "the weight is not a positive number with four decimals"
    if not row.description.strip() or re.search(r"[\x00-\x08\x0b-\x1f\x7f]", row.description):
        yield "the description is empty or contains a control character"
    for form in row.forms:
        if form not in names:
            yield f"README.md does not list the form {form!r}"
    if len(set(row.forms)) != len(row.forms):
        yield "a form is listed twice"
    if {"formal", "other"} & set(row.forms) and len(row.forms) > 1:
        yield "`formal` and `other` go with no other form"
    readings = row.readings()
    if row.kind() == "not expressible":
        if not row.land[len(NOT_EXPRESSIBLE):].strip():
            yield "the reason is missing"
    elif row.kind() == "ambiguous" and len(readings) < 2:
        yield "an ambiguous row needs at least two readings"
    for reading in readings:
        if not re.fullmatch(r"(T\. .+, )?secs?\. [0-9a-zA-Z,;/ .]+\.", reading):
            yield f"not formal language: {reading!r}"


def land_faults(row, program):
    """What is wrong with the land of a row, by the program."""
    lands = []
    for reading in row.readings():
        land, error = program.land(reading)
        if error:
            yield error
        elif land in lands:
            yield f"the same land as an earlier reading: {reading!r}"
        else:
            lands.append(land)
    as_it_is, _ = program.normal(row.description)
    if as_it_is is not None and as_it_is not in lands:
        yield f"accepted as it is, as other land: {as_it_is!r}"


def read_rows():
    lines = ROWS.read_text(encoding="utf-8").split("\n")
    if lines[-1] != "" or lines[0].split("\t") != HEADING:
        raise SystemExit(f"{ROWS}: the heading or the last line end is missing")
    rows = []
    for number, line in enumerate(lines[1:-1], 2):
        fields = line.split("\t")
        if len(fields) != len(HEADING):
            raise SystemExit(f"{ROWS}:{number}: {len(fields)} fields instead of {len(HEADING)}")
        rows.append(Row(fields))
    return rows


def table(title, counts):
    print(title)
    for name, count in counts.items():
        print(f"  {count:4}  {name}")


def ended(passed, failures):
    """Shows what failed, and the last line of a script; and returns its status."""
    for failure in failures:
        print(failure)
    print(f"{passed} passed, {len(failures)} failed")
    return 1 if failures else 0


def main():
    if len(sys.argv) > 2:
        raise SystemExit("usage: check.py [PROGRAM]")
    rows = read_rows()
    names = names_listed("The forms")
    sources = names_listed("The sources")
    failures = []
    passed = 0

    def judge(what, faults):
        nonlocal passed
        faults = list(faults)
        failures.extend(f"{what}: {fault}" for fault in faults)
        passed += not faults

    for row in rows:
        judge(row.id, format_faults(row, names, sources))
    ids = collections.Counter(row.id for row in rows)
    judge("ids", [f"{name} occurs {count} times" for name, count in ids.items() if count > 1])
    descriptions = collections.Counter(row.escaped for row in rows)
    judge("descriptions", [f"{text!r} occurs {n} times" for text, n in descriptions.items() if n > 1])
    weight = sum(float(row.weight) for row in rows)
    judge("weights", [] if abs(weight - 100) < 0.1 else [f"the sum is {weight:.4f}, not 100"])
    forms = collections.Counter(form for row in rows for form in row.forms)
    for name in names:
        short = name not in NOT_FORMS and forms[name] < ROWS_OF_A_FORM
        judge(name, [f"{forms[name]} rows instead of {ROWS_OF_A_FORM} or more"] if short else [])
    kinds = collections.Counter(row.kind() for row in rows)

    accepted = collections.Counter()
    if len(sys.argv) == 2:
        with tempfile.TemporaryDirectory() as folder:
            program = Program(sys.argv[1], folder)
            for row in rows:
                judge(f"{row.id} land", land_faults(row, program))
                if program.normal(row.description)[0] is not None:
                    accepted[row.kind()] += 1

    table("rows by form", {name: forms[name] for name in names})
    table("rows by kind", kinds)
    if len(sys.argv) == 2:
        table("accepted as they are, by kind", accepted)
    else:
        print("the lands are not checked: no program was given")
    for failure in failures:
        print(failure)
    failed = len({failure.split(":")[0] for failure in failures})
    print(f"{passed} passed, {failed} failed")
    return 1 if failed else 0


if __name__ == "__main__":
    sys.exit(main())
