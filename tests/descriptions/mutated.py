#!/usr/bin/env python3
"""Damages descriptions that are read right, one place at a time, and checks that none is then read as other land.

    python3 tests/descriptions/mutated.py [PROGRAM [READER]]

PROGRAM is the path of `township`, by default ./township, and READER the program of crates/twp_trials. The rows are
those of each .tsv file in this folder that have one reading, which is the land understood. A mutant is a row's text
with one damage. The places of the damages are drawn with a fixed seed, for each row and kind by itself, so that a new
row leaves the mutants of the others as they are.

What a mutant means is known, since it is known what was damaged:

| kind of damage | example | a single reading is right if it is |
|---|---|---|
| a slash to a space | `NE/4` to `NE 4` | the row's land |
| a fraction to a space and its digit | `NE1/4`, `NE¼` to `NE 4` | the row's land |
| a fraction without its slash | `NE1/4` to `NE14` | the row's land |
| a line end to a space | | the row's land |
| `and` for a comma | `NE/4, SW/4` to `NE/4 and SW/4` | the row's land |
| a lost comma | `Lot 1, NE/4` to `Lot 1 NE/4` | the row's land |
| a lost comma between two digits | `Lots 1,2` to `Lots 12` | that, or the same with the number that is there now |
| a run that lost its comma | `NENE,SWSW` to `NENESWSW` | that, or the same with the two parts as one |
| a lost `and` | `NE/4 & SW/4` to `NE/4 SW/4` | the row's land |
| a lost word that isn't land | `the`, `acres`, `Idaho` | the row's land |
| a lost word that is land | `S/2`, `Sec.`, `14:`, `Lots` | land of the row's sections that touches the row's land |
| a lost word of an exception | `less`, `but`, `thereof` | land of the row's sections |
| a doubled word that isn't land | `the the` | the row's land |
| a doubled word that is land | `NE/4 NE/4` | land of the row's sections that touches the row's land |
| a changed digit | `14` to `19` | that, or the same with the number that is there now |
| two digits exchanged | `14` to `41` | that, or the same with the number that is there now |
| a digit as a letter | `14` to `l4`, `10` to `1O` | the row's land |
| `of` put in | `NE/4, SW/4` to `NE/4 of SW/4` | that, or the same with parts that are now parts of others |
| `of` taken out | `N/2 of NE/4` to `N/2 NE/4` | the row's land |

- The first five kinds, and those of words that aren't land, keep the land: any other land is known to be wrong.
- A comma or an `and` that is lost between two parts with white space keeps it, too. `NE/4 SW/4` may be one part for
  whoever sees only the mutant; so it needs both readings, or none, but not that one alone.
- In a run without white space, one part is meant to be the reading (docs/DESCRIPTIONS.md). Such a reading isn't wrong,
  but has to state its assumption: a line of its assumptions names the run in backquotes, or the mutant fails. Only a
  run with all its fractions, written as in a description (`NE1/4SW1/4`), needs no such line, since it is a part in the
  formal language as it is; these runs are counted separately, and there are at most FORMAL_MOST of them.
- A digit that became a letter may be read as the digit only if the reading says so: a line of its assumptions names the
  number with the letter, or the mutant fails.
- The number of a section, a lot, a township, or a range that was changed is plainly the new one for whoever sees only
  the mutant. Its single reading isn't wrong if it is the row's, or has the new number in one place or in each, and
  everything else as it was. It may be the row's if the number also stands elsewhere, or isn't one of land.
- A text that lost or doubled a word of land is another text, which may well mean other land. Land in another township
  or section, or land that has no square in common with the row's, is something else entirely, and counts as wrong. A
  number that was lost, also in words, may leave another (`twenty six` to `twenty`); and if the township and range was
  lost, the reading need not have it.
- Without its `less`, `N2 less SENE` says `N2 SENE`, which has nothing in common with the row's land. So a text that
  lost a word of its exception has only to stay in the row's sections.
- With `of`, `A, B` becomes a part of a part. Whether `A and B of C` divides one or both isn't asked here.

Of several readings, it is counted whether one of them is right; a reading that the program refuses is no reading, and
a mutant whose readings are all refused is counted as refused. A mutant fails if it has one reading, and that is wrong,
or doesn't state an assumption that it has to state.
Lands are compared by lands.py, which is first checked against the program on some hundreds of readings. It is a fault,
too, if there are fewer mutants than FEWEST, since then the reader reads too few of the rows. The last line is
`N passed, M failed`, and the status is 0 where nothing failed.
"""

import collections
import random
import re
import subprocess
import sys
import tempfile

sys.dont_write_bytecode = True

from check import FOLDER, Program, ended  # noqa: E402
from floors import floors  # noqa: E402
from follow import rows_in  # noqa: E402
from lands import LOTS, WHOLE, Refused, land_of, square  # noqa: E402
from suggested import READER, with_usual_heading  # noqa: E402

SEED = 20261129
# At most so many mutants of one kind are drawn for each row, and more of the kinds that keep the land.
EACH = 2
EACH_SAME = 8
# The reader takes 4 MiB of standard input at most.
PIECE = 4_000_000
# Fewer mutants than these are a fault: the reader reads too few of the rows.
FEWEST = 20_000
# Readings on which lands.py is compared with the program.
COMPARED = 400
# It is a fault if more runs than this that have all their fractions are read as one part.
FORMAL_MOST = 1

SAME, NUMBER, JOINED, RUN, TOUCHES, SECTIONS = "same", "number", "joined", "run", "touches", "sections"
LETTER = "letter"
KINDS = {
    "a slash to a space": SAME,
    "a fraction to a space and its digit": SAME,
    "a fraction without its slash": SAME,
    "a line end to a space": SAME,
    "`and` for a comma": SAME,
    "a lost comma": SAME,
    "a lost comma between two digits": NUMBER,
    "a run that lost its comma": RUN,
    "a lost `and`": SAME,
    "a lost word that isn't land": SAME,
    "a lost word that is land": TOUCHES,
    "a lost word of an exception": SECTIONS,
    "a doubled word that isn't land": SAME,
    "a doubled word that is land": TOUCHES,
    "a changed digit": NUMBER,
    "two digits exchanged": NUMBER,
    "a digit as a letter": LETTER,
    "`of` put in": JOINED,
    "`of` taken out": SAME,
}
OUTCOMES = ["right", "as it says", "run, told", "run, formal", "UNTOLD", "WRONG", "several with", "several without",
            "refused", "none"]

FRACTION = re.compile(r"(?<=[NSEWnsew])(\.?) ?(1 ?/ ?([24])|[½¼])(?![0-9])")
STEP = r"(?:(?:[NS][EW]|[NSEW])\.?\s?(?:1/[24]|/[24]|[½¼])|(?:[NS][EW]|[NSEW])[24](?![0-9])|[NS][EW])"
PART_BEFORE = re.compile(rf"(?<![A-Za-z0-9])(?:{STEP}(?:\s?of (?:the )?)?)*{STEP}$", re.IGNORECASE)
PART_AFTER = re.compile(rf"(?:the )?{STEP}(?:(?:\s?of (?:the )?)?{STEP})*", re.IGNORECASE)
RUN_BEFORE = re.compile(r"[^\s,;:]*(?:[NSEW]|[NSEW][24]|[24½¼])$", re.IGNORECASE)
RUN_AFTER = re.compile(rf"{STEP}[^\s,;:]*", re.IGNORECASE)
NUMBER_WORD = re.compile(r"[A-Za-z]?\d+[NSEW]?", re.IGNORECASE)
FORMAL_RUN = re.compile(r"(?:[NS][EW](?:1/4|¼)|[NSEW](?:1/2|½))+", re.IGNORECASE)
AND_WORDS = {"and", "AND", "&", "+"}
NUMBER_WORDS = set("""one two three four five six seven eight nine ten eleven twelve thirteen fourteen fifteen sixteen
    seventeen eighteen nineteen twenty thirty forty first second third fourth fifth sixth seventh eighth ninth tenth
    zero""".split())
EXCEPTION_WORDS = set("""except excepting excepted exception less ls but save excluding excluded exclusive excl ex exc
    not minus without thereof l/e l&e s/e s&e everything""".split())
LAND_WORDS = NUMBER_WORDS | EXCEPTION_WORDS | set("""lot lots lt lts l sec secs section sections sect township
    township's twp twps tp range rge rng rg r t all entire whole thru through to inclusive incl said same each both only
    - – — | aliq aliquot fractional fr that being described following""".split())


def core_of(word):
    return word.strip(".,:;()[]\"'").lower()


def is_land(word):
    """Whether a word can say which land is meant: names, numbers, steps, and what takes land away."""
    core = core_of(word)
    if re.search(r"[0-9½¼]|north|south|east|west|half|halves|quarter", core):
        return True
    letters = re.sub(r"[^a-z]", "", core)
    return not letters or not letters.strip("nsew") or any(
        piece in LAND_WORDS for piece in [core] + re.split(r"[^a-z]+", core))


def is_number(word):
    """Whether a word has a number, or a part of one."""
    return bool(re.search(r"[0-9]", word)) or any(piece in NUMBER_WORDS for piece in re.split(r"[^a-z]+", word.lower()))


def replaced(text, start, end, new):
    return text[:start] + new + text[end:]


def slashes(text, _):
    for match in re.finditer("/", text):
        yield "a slash to a space", replaced(text, *match.span(), " ")


def fractions(text, _):
    for match in FRACTION.finditer(text):
        digit = match[3] or {"½": "2", "¼": "4"}[match[2]]
        yield "a fraction to a space and its digit", replaced(text, *match.span(), f"{match[1]} {digit}")
        if match[3]:
            yield "a fraction without its slash", replaced(text, *match.span(2), f"1{digit}")


def line_ends(text, _):
    for match in re.finditer(r"\n", text.rstrip()):
        yield "a line end to a space", replaced(text, *match.span(), " ")


def commas(text, _):
    for match in re.finditer(",", text):
        start, end = match.span()
        before, after = text[:start], text[end:]
        if not re.match(r"\s*(?:and\b|&|,|$)", after) and not re.match(r"\d{3}(?!\d)", after):
            yield "`and` for a comma", f"{before} and{'' if after[:1].isspace() else ' '}{after}"
        if before[-1:].isdigit() and after[:1].isdigit():
            yield "a lost comma between two digits", before + after
        elif RUN_BEFORE.search(before) and RUN_AFTER.match(after):
            yield "a run that lost its comma", before + after, RUN_BEFORE.search(before)[0], RUN_AFTER.match(after)[0]
        else:
            yield "a lost comma", before + after


def words(text, _):
    for match in re.finditer(r"[^\s;]+;?", text):
        start, end = match.span()
        core = core_of(match[0])
        if core == "of":
            continue
        land = "a {} word that is land" if is_land(match[0]) else "a {} word that isn't land"
        yield land.format("doubled"), replaced(text, end, end, f" {match[0]}"), match[0]
        # One blank beside the word goes with it, but no line end.
        if text[end:end + 1] in (" ", "\t"):
            end += 1
        elif text[:start].endswith((" ", "\t")):
            start -= 1
        lost = replaced(text, start, end, "")
        if lost.strip():
            kind = land.format("lost")
            if core in EXCEPTION_WORDS:
                kind = "a lost word of an exception"
            elif match[0] in AND_WORDS:
                kind = "a lost `and`"
            yield kind, lost, match[0]


def ofs(text, _):
    for match in re.finditer(r"\bof[ \t]+", text, re.IGNORECASE):
        yield "`of` taken out", replaced(text, *match.span(), "")
    for match in re.finditer(r",[ \t]*(?:and )?|[ \t]+", text):
        before, after = PART_BEFORE.search(text[:match.start()]), PART_AFTER.match(text[match.end():])
        if before and after:
            yield "`of` put in", replaced(text, *match.span(), " of "), before[0], after[0]


def number_places(text, numbers):
    """Where the text has the digits of a number of land."""
    for match in re.finditer(r"(?<![\d/.])\d+(?!\d*[./]\d|\d*/)", text):
        start, digits = match.start(), match[0]
        is_step = digits in ("2", "4") and re.search(r"[NSEW]['.]? ?$", text[:start], re.IGNORECASE)
        values = {int(digits)} | ({int(digits) // 10} if len(digits) > 2 and digits[-1] == "0" else set())
        if not is_step and values & numbers:
            yield match


def digits(text, numbers):
    for match in number_places(text, numbers):
        old = match[0]
        for at, digit in enumerate(old):
            for new in "0123456789":
                if new != digit:
                    changed = replaced(old, at, at + 1, new)
                    yield "a changed digit", replaced(text, *match.span(), changed), old, changed
        for at in range(len(old) - 1):
            changed = old[:at] + old[at + 1] + old[at] + old[at + 2:]
            if changed != old:
                yield "two digits exchanged", replaced(text, *match.span(), changed), old, changed


def letters(text, numbers):
    for match in number_places(text, numbers):
        # Not in the number of a parcel, which isn't land.
        if NUMBER_WORD.fullmatch(re.search("[A-Za-z0-9]*$", text[:match.start()])[0]
                                 + re.match("[A-Za-z0-9]*", text[match.start():])[0]) is None:
            continue
        for at, digit in enumerate(match[0]):
            for letter in {"1": "lI", "0": "O"}.get(digit, ""):
                changed = replaced(match[0], at, at + 1, letter)
                yield "a digit as a letter", replaced(text, *match.span(), changed), match[0], changed


DAMAGES = [slashes, fractions, line_ends, commas, words, ofs, digits, letters]


class Mutant:
    """A damaged text of a row, which is read as `reading` if undamaged."""

    def __init__(self, name, row, reading, kind, text, change):
        self.name, self.row, self.reading = name, row, reading
        self.kind, self.text, self.change = kind, text, change


def mutants_of(name, row, reading):
    """The mutants of a row, at most EACH of each kind."""
    numbers = {int(number) for text in (reading, row.land) for number in formal_numbers(text)}
    found = collections.defaultdict(dict)
    for damage in DAMAGES:
        for kind, text, *change in damage(row.description, numbers):
            if text.strip() != row.description.strip():
                found[kind].setdefault(text, change)
    for kind, texts in found.items():
        each = EACH_SAME if KINDS[kind] in (SAME, RUN) else EACH
        drawn = random.Random(f"{SEED} {name} {kind}").sample(sorted(texts), min(each, len(texts)))
        for text in drawn:
            yield Mutant(name, row, reading, kind, text, texts[text])


NUMBER_TOKEN = re.compile(r"(?<![/\d])\d+(?![/\d])")


def formal_numbers(text):
    return NUMBER_TOKEN.findall(text)


def with_number(texts, old, new):
    """The formal texts with a number in the place of another: in one place, and in all."""
    for text in texts:
        places = [match.span() for match in NUMBER_TOKEN.finditer(text) if int(match[0]) == old]
        for place in places:
            yield replaced(text, *place, str(new))
        for place in reversed(places):
            text = replaced(text, *place, str(new))
        yield text


def with_fused(texts):
    """The formal texts with two numbers beside each other as one."""
    for text in texts:
        for match in re.finditer(r"(?<![/\d])(\d+)(?=(?:\s*,\s*|\s+and\s+|\D{1,12}?)(\d+)(?![/\d]))", text):
            end = text.index(match[2], match.end()) + len(match[2])
            yield replaced(text, match.start(), end, match[1] + match[2])


def with_joined(texts):
    """The formal texts with a part that is now of the next one, and those in which it shares this with others."""
    for text in texts:
        groups = text.rstrip(". ").split(";")
        for number, group in enumerate(groups):
            head = re.match(r"(?:.*?\bsec\w*\.?\s*\d+|)\s*[,:]?\s*", group, re.IGNORECASE | re.DOTALL)[0]
            parts = re.split(r"\s*,\s*(?:and\s+)?|\s+and\s+", group[len(head):].strip())
            for at in range(len(parts) - 1):
                for first in range(at + 1):
                    for last in range(at + 1, len(parts)):
                        shared = [f"{a} of {b}" for a in parts[first:at + 1] for b in parts[at + 1:last + 1]]
                        new = f"{head}{', '.join(parts[:first] + shared + parts[last + 1:])}"
                        yield ";".join(groups[:number] + [new] + groups[number + 1:])


def steps_of(text):
    """The steps of a part as it is written, from the largest to the smallest."""
    found = re.findall(r"[NS]\.?[EW]|[NSEW]", re.sub(r"\b(?:the|of)\b", "", text, flags=re.IGNORECASE), re.IGNORECASE)
    return [step.replace(".", "").lower() for step in reversed(found)]


def with_part_of_part(row_land, before, after):
    """The row's land with a part that is now of the next one, by their places."""
    try:
        small, large = square(steps_of(before)), square(steps_of(after))
        joined = square(steps_of(after) + steps_of(before))
    except Refused:
        return
    sections = dict(row_land[1])
    for section, places in row_land[1]:
        yield row_land[0], frozenset({**sections, section: places & ~small & ~large | joined}.items())


def by_number(places, old, new):
    """The places of the section `new` with the lots that have the numbers of those of `old`. Parts stay."""
    for number, lot in LOTS[old].items():
        if places & lot:
            places = places & ~lot | LOTS[new].get(number, 0)
    return places


def is_moved(land, row_land, old, new):
    """Whether a land is the row's, but for land of the section `old` that is now in the section `new`: by its places,
    by the numbers of its lots, or by those of the lots that are excepted."""
    mine, rows = dict(land[1]), dict(row_land[1])
    if old == new or land[0] != row_land[0] or old not in rows or rows.get(new, 0) & ~mine.get(new, 0):
        return False
    moved = mine.pop(new, 0) & ~rows.pop(new, 0)
    stays, had = mine.pop(old, 0), rows.pop(old)
    if mine != rows:
        return False
    return (stays | moved == had or stays | by_number(moved, new, old) == had
            or not stays and WHOLE & ~by_number(WHOLE & ~had, old, new) == moved)


def has_other_lot(land, row_land, old, new):
    """Whether a land is the row's, but that the lot `new` of a section is excepted, and not the lot `old`."""
    mine, rows = dict(land[1]), dict(row_land[1])
    for section, places in rows.items():
        out, into = LOTS[section].get(new, 0), LOTS[section].get(old, 0)
        if out and into and places & out == out and not places & into:
            if land[0] == row_land[0] and mine == {**rows, section: (places | into) & ~out}:
                return True
    return False


def is_of_sections(mutant, text, land, row_land):
    """Whether a land is in the row's sections, and touches the row's land if it has to."""
    rows = dict(row_land[1])
    has_heading = re.match(r"\s*T", text, re.IGNORECASE)
    if (has_heading and land[0] != row_land[0]) or any(section not in rows for section, _ in land[1]):
        return False
    return KINDS[mutant.kind] == SECTIONS or any(places & rows[section] for section, places in land[1])


def says(mutant, text, land, row_land):
    """Whether a reading of other land than the row's is what the mutant says now."""
    texts = [mutant.reading, mutant.row.land]
    how = KINDS[mutant.kind]
    if how in (TOUCHES, SECTIONS):
        old_and_new = [(old, new) for old, _ in row_land[1] for new, _ in land[1] if is_number(mutant.change[0])]
        return (is_of_sections(mutant, text, land, row_land)
                or any(is_moved(land, row_land, *pair) for pair in old_and_new))
    if how in (JOINED, RUN):
        return land in map(land_of, with_joined(texts)) or land in with_part_of_part(row_land, *mutant.change)
    if how == NUMBER and not mutant.change:
        return land in map(land_of, with_fused(texts))
    if how == NUMBER:
        old, new = mutant.change
        pairs = {(int(old), int(new))}
        if len(old) > 2 and old.endswith("0") and new.endswith("0"):
            pairs.add((int(old) // 10, int(new) // 10))
        return any(is_moved(land, row_land, *pair) or has_other_lot(land, row_land, *pair)
                   or any(land_of(text, True) == land for text in with_number(texts, *pair)) for pair in pairs)
    return False


def is_told(mutant, assumptions):
    """Whether an assumption names what was damaged: the number with the letter, or a run that isn't in the row."""
    named = [name for line in assumptions for name in re.findall("`([^`]+)`", line)]
    if KINDS[mutant.kind] == LETTER:
        return any(re.search(rf"(?<![A-Za-z0-9]){mutant.change[1]}(?!\d)", name) for name in named)
    return any(mutant.text.count(name) > mutant.row.description.count(name) for name in named)


def is_formal(mutant):
    """Whether a run that lost its comma is written as in the formal language."""
    return FORMAL_RUN.fullmatch("".join(mutant.change))


def outcome(mutant, readings):
    """What became of a mutant: one of OUTCOMES. The readings are texts with lists of assumptions."""
    row_land = land_of(mutant.row.land)
    lands = {}
    for text, assumptions in readings:
        lands.setdefault(land_of(with_usual_heading(text)), (text, assumptions))
    refused = lands.pop(None, None) is not None
    if not lands:
        return "refused" if refused else "none"
    right = [land for land, (text, _) in lands.items() if land == row_land or says(mutant, text, land, row_land)]
    if len(lands) > 1:
        return "several with" if right else "several without"
    if not right:
        return "WRONG"
    if KINDS[mutant.kind] == LETTER and not is_told(mutant, lands[right[0]][1]):
        return "UNTOLD"
    if row_land in lands:
        return "right"
    if KINDS[mutant.kind] != RUN:
        return "as it says"
    if is_told(mutant, lands[right[0]][1]):
        return "run, told"
    return "run, formal" if is_formal(mutant) else "UNTOLD"


def escaped(text):
    return text.replace("\n", r"\n").replace("\t", r"\t")


def all_readings(texts, reader):
    """The readings of each text, with their assumptions."""
    lines = [escaped(text).encode() + b"\n" for text in texts]
    output = []
    while lines:
        size = count = 0
        while count < len(lines) and size + len(lines[count]) <= PIECE:
            size += len(lines[count])
            count += 1
        with tempfile.TemporaryFile() as file:
            file.write(b"".join(lines[:count]))
            file.seek(0)
            run = subprocess.run([reader, "readings"], stdin=file, stdout=subprocess.PIPE, check=True)
        output += run.stdout.decode().split("\n")[:-1]
        del lines[:count]
    found = []
    at = 0
    while at < len(output):
        readings = []
        for _ in range(int(output[at])):
            at += 1
            readings.append((output[at].replace(r"\n", "\n").replace(r"\t", "\t"), []))
            while at + 1 < len(output) and output[at + 1].startswith("  "):
                at += 1
                readings[-1][1].append(output[at])
        found.append(readings)
        at += 1
    if len(found) != len(texts):
        raise SystemExit(f"{reader}: {len(found)} answers to {len(texts)} texts")
    return found


def model_faults(texts, path):
    """Where lands.py and the program differ on some formal texts."""
    texts = random.Random(SEED).sample(sorted(texts), min(COMPARED, len(texts)))
    by_land = {}
    with tempfile.TemporaryDirectory() as folder:
        program = Program(path, folder)
        for text in texts:
            canonical, error = program.land(text)
            land = land_of(text)
            if (canonical is None) != (land is None):
                yield f"lands.py has {'no ' if land is None else ''}land for {text!r}, but the program: {error}"
            elif canonical is not None:
                if land_of(canonical) != land:
                    yield f"lands.py has other land for {text!r} than for its canonical text {canonical!r}"
                if by_land.setdefault(land, canonical) != canonical:
                    yield f"lands.py has one land for {canonical!r} and {by_land[land]!r}"


def rows_read_right(reader):
    """Each row that has one reading, which is the land understood: a name, the row, and the reading."""
    paths = [FOLDER / f"{name}.tsv" for name in sorted(floors())]
    rows = [(f"{path.stem} {row.id}", row) for path in paths for row in rows_in(path)]
    for (name, row), readings in zip(rows, all_readings([row.description for _, row in rows], reader)):
        if row.kind() == "expressible" and len(readings) == 1:
            text = with_usual_heading(readings[0][0])
            if land_of(text) is not None and land_of(text) == land_of(row.land):
                yield name, row, text


def main():
    if len(sys.argv) > 3:
        raise SystemExit("usage: mutated.py [PROGRAM [READER]]")
    program, reader = (sys.argv[1:] + ["./township", str(READER)][len(sys.argv) - 1:])[:2]
    rows = list(rows_read_right(reader))
    mutants = [mutant for row in rows for mutant in mutants_of(*row)]
    found = all_readings([mutant.text for mutant in mutants], reader)
    failures = list(model_faults({with_usual_heading(text) for readings in found for text, _ in readings}
                                 | {row.land for _, row, _ in rows}, program))
    if len(mutants) < FEWEST:
        failures.append(f"{len(mutants)} mutants of {len(rows)} rows that are read right, fewer than {FEWEST}")
    counts = collections.defaultdict(collections.Counter)
    for mutant, readings in zip(mutants, found):
        result = outcome(mutant, readings)
        counts[mutant.kind][result] += 1
        if result in ("WRONG", "UNTOLD"):
            texts = " || ".join(text for text, _ in readings)
            what = f", not as {mutant.row.land!r}" if result == "WRONG" else ", and doesn't tell that it assumes this"
            failures.append(f"{mutant.name}, {mutant.kind}: {mutant.text!r} is read as {texts!r}{what}")
    print(f"{'of ' + str(len(rows)) + ' rows':<36}{'mutants':>8}" + "".join(f"{name:>16}" for name in OUTCOMES))
    counts["all"] = sum(counts.values(), collections.Counter())
    if counts["all"]["run, formal"] > FORMAL_MOST:
        failures.append(f"{counts['all']['run, formal']} formal runs that may lack a comma, more than {FORMAL_MOST}")
    for kind in [*KINDS, "all"]:
        print(f"{kind:<36}{sum(counts[kind].values()):8}" + "".join(f"{counts[kind][name]:16}" for name in OUTCOMES))
    return ended(max(0, len(mutants) - len(failures)), failures)


if __name__ == "__main__":
    sys.exit(main())
