#!/usr/bin/env python3
"""Measures how many descriptions have the right reading, by form and by source.

    python3 tests/descriptions/suggested.py [--record] [PROGRAM [READER [ROWS]]]

PROGRAM is the path of `township`, by default ./township. READER is the program of crates/twp_trials; with
the word `readings`, it prints the readings of descriptions. ROWS is a file in the form of written.tsv, which is the
default. The land of each reading is compared with the land understood, on the field notes of samples/b1.csv.

A row fails, as wrong,
- if it has readings, but none of them is the land understood;
- if it is ambiguous, and has one reading, or lacks a reading that an examiner would ask about;
- if it is not expressible, and has a reading that the program accepts as land.

A row without a reading doesn't fail, nor one all of whose readings the program refuses, which is counted as refused.
But outcomes.tsv has, for each file in this folder, how many rows of each kind have which outcome, and how many readings
those with several have. If that has changed, the file fails, so that neither a lost nor a new reading goes unnoticed.
`--record` writes what it is now; look at the difference before it is committed. A file in which fewer rows end well than
floors.tsv asks for fails, too, and isn't recorded (floors.py).

The last line is `N passed, M failed`, and the status is 0 where nothing failed.
"""

import collections
import pathlib
import re
import subprocess
import sys
import tempfile

sys.dont_write_bytecode = True

from check import FOLDER, ROWS, Program, ended  # noqa: E402
from floors import floor_faults  # noqa: E402
from follow import rows_in  # noqa: E402

READER = FOLDER.parent.parent / "crates" / "twp_trials" / "out" / "twp_trials"
RECORD = FOLDER / "outcomes.tsv"
OUTCOMES = ["as written", "one", "several", "refused", "none", "wrong"]
KINDS = ["expressible", "ambiguous", "not expressible"]
COLUMNS = ["file", "kind", "rows"] + OUTCOMES + ["readings of several"]


def readings_of(rows, reader):
    """The texts of the readings of each row, by the program that prints them."""
    texts = "".join(row.description.replace("\n", r"\n").replace("\t", r"\t") + "\n" for row in rows)
    run = subprocess.run([reader, "readings"], input=texts.encode(), capture_output=True, check=True)
    lines = [line for line in run.stdout.decode().split("\n") if line and not line.startswith("  ")]
    found = []
    at = 0
    while at < len(lines):
        last = at + 1 + int(lines[at])
        found.append([line.replace(r"\n", "\n").replace(r"\t", "\t") for line in lines[at + 1:last]])
        at = last
    if len(found) != len(rows) or at > len(lines):
        raise SystemExit(f"{reader}: {len(found)} answers to {len(rows)} descriptions")
    return found


def with_usual_heading(text):
    """The text with its township and range, if it begins with them, as a canonical description writes them."""
    heading = re.match(r"\s*T\.?\s*(\d+)\s*([NS])\.?\s*,?\s*R\.?\s*(\d+)\s*([EW])\.?", text, re.IGNORECASE)
    if not heading:
        return text
    tier, side, range_, other = heading.groups()
    return f"T. {tier} {side.upper()}., R. {range_} {other.upper()}." + text[heading.end():]


def outcome(row, readings, program):
    """What became of a row: one of OUTCOMES."""
    understood = [program.land(reading)[0] for reading in row.readings()]
    lands = [land for land, _ in map(program.land, map(with_usual_heading, readings)) if land is not None]
    if not lands:
        return "refused" if readings else "none"
    if row.kind() == "not expressible":
        return "wrong"
    if row.kind() == "ambiguous":
        missing = [land for land in understood if land not in lands]
        return "wrong" if len(lands) == 1 or missing else "several"
    if understood[0] not in lands:
        return "wrong"
    if len(lands) > 1:
        return "several"
    return "as written" if readings == [row.description] else "one"


def share(counts, names, whole):
    return 100 * sum(counts[name] for name in names) / whole if whole else 0.0


def table(title, counts):
    """Prints, for each name, the percentage of the expressible weight with each outcome."""
    print(f"{title:<18}" + "".join(f"{name:>12}" for name in ["weight"] + OUTCOMES))
    for name, by_outcome in sorted(counts.items()):
        whole = sum(by_outcome.values())
        shares = "".join(f"{share(by_outcome, [outcome], whole):12.1f}" for outcome in OUTCOMES)
        print(f"{name:<18}{whole:12.1f}{shares}")


def recorded():
    """The lines of outcomes.tsv by file and kind."""
    if not RECORD.exists():
        return {}
    lines = RECORD.read_text(encoding="utf-8").split("\n")
    if lines[0].split("\t") != COLUMNS:
        raise SystemExit(f"{RECORD}: the heading is not {' '.join(COLUMNS)}")
    rows = [line.split("\t") for line in lines[1:] if line]
    return {(row[0], row[1]): [int(count) for count in row[2:]] for row in rows}


def record(name, lines):
    """Writes the lines of a file to outcomes.tsv, in the place of what it had."""
    kept = {key: counts for key, counts in recorded().items() if key[0] != name}
    kept.update(lines)
    order = sorted(kept, key=lambda key: (key[0], KINDS.index(key[1])))
    rows = [COLUMNS] + [[*key, *map(str, kept[key])] for key in order]
    RECORD.write_text("".join("\t".join(row) + "\n" for row in rows), encoding="utf-8")


def record_faults(name, lines, command):
    """What is different from outcomes.tsv, with the command that writes what it is now."""
    before = {key: counts for key, counts in recorded().items() if key[0] == name}
    for key in sorted({**before, **lines}):
        if before.get(key) != lines.get(key):
            names = COLUMNS[2:]
            old, new = before.get(key, [0] * len(names)), lines.get(key, [0] * len(names))
            changes = [f"{what} {a} -> {b}" for what, a, b in zip(names, old, new) if a != b]
            yield f"{name}.tsv, {key[1]}: {', '.join(changes)}; to record it: {command}"


def main():
    words = sys.argv[1:]
    is_recording = words[:1] == ["--record"]
    words = words[is_recording:]
    if len(words) > 3 or any(word.startswith("--") for word in words):
        raise SystemExit("usage: suggested.py [--record] [PROGRAM [READER [ROWS]]]")
    words += ["./township", str(READER), str(ROWS)][len(words):]
    rows = rows_in(words[2])
    path = pathlib.Path(words[2]).resolve()
    by_form = collections.defaultdict(collections.Counter)
    by_source = collections.defaultdict(collections.Counter)
    by_kind = collections.defaultdict(collections.Counter)
    number_of = collections.defaultdict(collections.Counter)
    several = collections.defaultdict(collections.Counter)
    failures = []
    with tempfile.TemporaryDirectory() as folder:
        program = Program(words[0], folder)
        for row, readings in zip(rows, readings_of(rows, words[1])):
            result = outcome(row, readings, program)
            by_kind[row.kind()][result] += float(row.weight)
            number_of[row.kind()][result] += 1
            if result == "several":
                several[row.kind()][len(readings)] += 1
            if result == "refused":
                print(f"refused: {row.id}: {row.description!r} is read as {readings}")
            if result == "wrong":
                failures.append(f"{row.id}: {row.description!r} is read as {readings}, not as {row.land!r}")
            if row.kind() == "expressible":
                by_source[row.source][result] += float(row.weight)
                for form in row.forms:
                    by_form[form][result] += float(row.weight)
    table("by form", by_form)
    table("by source", by_source)
    table("by kind", by_kind)
    for kind in KINDS:
        for count, number in sorted(several[kind].items()):
            print(f"{kind}, with {count} readings: {number} rows")
    expressible = by_kind["expressible"]
    whole = sum(expressible.values())
    print(f"the right reading alone: {share(expressible, ['as written', 'one'], whole):.1f} percent of the expressible "
          f"weight; alone or among several: {share(expressible, ['as written', 'one', 'several'], whole):.1f}")
    passed = len(rows) - len(failures)
    if path.parent == FOLDER:
        lines = {(path.stem, kind): [sum(number_of[kind].values()), *(number_of[kind][name] for name in OUTCOMES),
                                     sum(count * number for count, number in several[kind].items())] for kind in KINDS}
        read = sum(number_of["expressible"][name] for name in ("as written", "one", "several"))
        faults = floor_faults(path, read=read, asked=number_of["ambiguous"]["several"])
        if is_recording and not faults:
            record(path.stem, lines)
        command = " ".join(["python3 tests/descriptions/suggested.py --record", *words])
        faults += record_faults(path.stem, lines, command)
        failures += faults
        passed += not faults
    return ended(passed, failures)


if __name__ == "__main__":
    sys.exit(main())
