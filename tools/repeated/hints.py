"""The hints: tests/program/hints.toml has the words of each, and the rows of tests/program name them."""

import re
from typing import Dict, List, Set

from reading import ROOT, Compared, text_of

WHAT = "hints in the tables of the program, and in the rows of the tests"

WORDS = "tests/program/hints.toml"
ROWS = "tests/program/rows"
#: The rows that are not runs of the program.
LOT_TABLES = "tests/program/lot-tables.toml"

#: The tables: files below the crates, and the constant in each; without one, all texts of the file are hints.
TABLES = {
    "hints/table.rt": "HINTS",
    "note_hints.rt": "HINTS",
    "half_mile_hints.rt": "",
    "lot_hints.rt": "LOT_HINTS",
    "rows.rt": "HINTS",
}

#: A hint of so many words, such as `write N1/2`, has no name.
FEW = 2

#: What follows a text that ends with `write `.
DISTANCES = "{quarter} and {corner}"


def compare() -> Compared:
    named = dict(re.findall(r'^([a-z0-9-]+) = "(.*)"$', text_of(WORDS), re.M))
    differences: List[str] = []
    shown: Set[str] = set()
    for table, constant in TABLES.items():
        hints = hints_of(table, constant)
        shown |= hints
        if not hints:
            differences.append(f"{table}: no hints are found")
    differences += [f"{WORDS}: lacks the hint: {words}" for words in sorted(shown - set(named.values()))]
    differences += [f"{WORDS}: the program has no such hint: {words}" for words in sorted(set(named.values()) - shown)]
    files = [*sorted((ROOT / ROWS).glob("*.toml")), ROOT / LOT_TABLES]
    for row in files:
        differences += [f"{row.name}: {each}" for each in written_out(row.read_text(encoding="utf-8"), named)]
    used = set(re.findall(r"\{hint:([a-z0-9-]+)", "".join(text_of(str(row)) for row in files)))
    differences += [f"{ROWS}: no row shows the hint {name}" for name in sorted(set(named) - used)]
    return len(shown), differences


def hints_of(table: str, constant: str) -> Set[str]:
    """The hints of more than a few words in a table."""
    found: Set[str] = set()
    for file in sorted(ROOT.glob(f"crates/*/src/**/{table}")):
        text = re.sub(r"^ *//.*\n", "", file.read_text(encoding="utf-8"), flags=re.M)
        if constant:
            # Other files of this name have no such table.
            text = "".join(re.findall(rf"^(?:pub\(crate\) )?const {constant}: .*?^(?:\]|\");$", text, re.M | re.S))
        if '&str = "' in text:
            # The columns of a table of text, of which the fifth is the hint.
            texts = [line.split("|", 4)[4].strip() for line in text.splitlines() if line.count("|") >= 4]
        else:
            texts = [re.sub(r"\\\n\s*", "", each) for each in re.findall(r'"((?:[^"\\]|\\.|\\\n)*)"', text)]
        found |= {f"{each}{DISTANCES}" if each.endswith(" write ") else each for each in texts}
    return {each for each in found if len(each.split()) > FEW}


def written_out(text: str, named: Dict[str, str]) -> List[str]:
    """A line for each hint that rows have in its words."""
    found = []
    for name, words in named.items():
        # A line of help is a hint, possibly with what a reading assumes, or a section line and a hint.
        form = re.sub(r"\\\{\w+\\\}", r"\\S+", re.escape(words))
        lines = re.findall(rf"^  (?:[^|\n]*; )?{form}(?:; .*)?$", text, re.M)
        found += [f"write {{hint:{name}}} in place of its words: {line.strip()}" for line in lines]
    return found
