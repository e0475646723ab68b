#!/usr/bin/env python3
"""Writes the lists of words in twp_words from the table of words, and compares the lists of other crates with it.

    python3 tools/words.py              writes the functions of twp_words, and the list in docs/DESCRIPTIONS.md
    python3 tools/words.py --check      reports what differs from the table; the status is 1 if anything does
    python3 tools/words.py --take       copies the words of the lists in other crates into the table
    python3 tools/words.py WORD ..      shows the classes of words

The table is crates/twp_words/words.tsv: each row is a word, with its classes. A class is a function of twp_words, a
list in the definitions of twp_rules, or a list of words in a hint; crates/twp_words/classes.tsv says what each function
is. A class with a value, as in `letters_of=NE`, says what is written for the word.
"""

import re
import sys
import textwrap
from collections import defaultdict
from pathlib import Path
from typing import Dict, Iterable, Iterator, List, Set, Tuple

from spec_lists import Unread, lists_of
from word_functions import FORMS, Class, Table, sources_of

ROOT = Path(__file__).resolve().parents[1]
WORDS = "crates/twp_words/words.tsv"
CLASSES = "crates/twp_words/classes.tsv"
SOURCES = "crates/twp_words/src"
SPECS = "crates/twp_rules/specs"
SIGNS = "crates/twp_sentences/src/descriptions/hints/signs.rt"
DOCUMENT = "docs/DESCRIPTIONS.md"
#: The most columns of a line in the document.
DOCUMENT_COLUMNS = 120

#: The list of words in the document: what they are, and their classes.
LISTED = (
    ("states", "is_state is_state_of_two"),
    ("meridians", "is_meridian is_meridian_of_two are_meridian_letters"),
    ("townships and ranges", "is_township_name is_range_name"),
    ("halves and quarters", "is_half is_quarter"),
    ("sections, with a slip", "is_worn_section"),
    ("corners, with a slip", "is_worn_corner"),
    ("exceptions", "exceptions"),
    ("the unit of acreage", "is_acres"),
)
#: Those that are names, with a capital.
NAMES = ("states", "meridians")
#: The list in the document is between these two lines.
BEGIN, END = "<!-- Made by tools/words.py: -->", "<!-- End of the list that tools/words.py makes. -->"

#: Characters that a table shows as letters, besides a backslash, a space that can't be seen, and an empty text.
ESCAPES = {"\t": "\\t", "\n": "\\n", "\r": "\\r"}


# The table.


def shown(text: str) -> str:
    """A text as the table shows it."""
    text = text.replace("\\", "\\\\")
    for sign, letters in ESCAPES.items():
        text = text.replace(sign, letters)
    text = re.sub("^ | $", r"\\s", text)
    return text or "\\0"


def meant(text: str) -> str:
    """A text that the table shows."""
    signs = {letters[1]: sign for sign, letters in ESCAPES.items()}
    signs.update({"\\": "\\", "s": " ", "0": ""})
    return re.sub(r"\\(.)", lambda found: signs[found[1]], text)


def table_of(text: str) -> Table:
    """The words of each class, from the rows of words.tsv."""
    table: Table = defaultdict(dict)
    for line in rows_in(text):
        word, classes = line.split("\t")
        for one in classes.split(" "):
            name, mark, value = one.partition("=")
            values = table[name].setdefault(meant(word), [])
            values += [meant(value)] if mark else []
    return table


def rows_in(text: str) -> List[str]:
    """The rows of a table, without the comment above them and the names of its columns."""
    lines = [line for line in text.splitlines() if line != "#" and not line.startswith("# ")]
    return lines[1:]


def text_of_table(table: Table, comment: Iterable[str]) -> str:
    """words.tsv with these words."""
    words = {word for some in table.values() for word in some}
    lines = [f"{shown(word)}\t{classes_shown(word, table)}" for word in words]
    return "\n".join([*comment, "word\tclasses", *sorted(lines)]) + "\n"


def classes_shown(word: str, table: Table) -> str:
    """The classes of a word as the table shows them. A class ends at the next space, so a value contains none."""
    classes = []
    for name, words in table.items():
        if word in words:
            values = [shown(value).replace(" ", "\\s") if value else "" for value in words[word]]
            classes += [f"{name}={value}" for value in values] or [name]
    return " ".join(sorted(classes))


def comment_of(text: str) -> List[str]:
    """The comment above a table."""
    return [line for line in text.splitlines() if line == "#" or line.startswith("# ")]


def classes_of(text: str) -> List[Class]:
    """The rows of classes.tsv."""
    found = []
    for line in rows_in(text):
        name, module, form, within, meaning = line.split("\t")
        found.append(Class(name, module, form, tuple(within.split()), meaning))
    return found


# What is wrong with the table.


def faults_of(table: Table, classes: List[Class], lists: Table) -> Iterator[str]:
    """What is wrong with the table itself, and where lists of other crates differ from it."""
    functions = {it.name for it in classes if it.form in FORMS}
    for name in sorted(set(table) - functions - set(lists)):
        yield f"{name}: a class of {WORDS} that is no function of {CLASSES} and no list of another crate"
    for it in classes:
        if it.form != "module":
            yield from faults_of_class(it, table)
    for name, words in lists.items():
        yield from differences(name, table.get(name, {}), words)


def faults_of_class(it: Class, table: Table) -> Iterator[str]:
    """What is wrong with the words of a class that is a function."""
    words = table.get(it.name, {})
    if it.form not in (*FORMS, "list") or not words:
        yield f"{it.name}: a class of {CLASSES} without words, or of an unknown form"
    for word, values in words.items():
        wider = [table.get(name, {}) for name in it.within]
        if wider and not any(word in one and (not values or one[word] == values) for one in wider):
            yield f"{it.name}: {word} is in none of {', '.join(it.within)}"
        if it.form == "list":
            continue
        if not re.fullmatch("[!-~]+ [!-~]+" if it.form == "two words" else "[!-~]+", word) or word != word.lower():
            yield f"{it.name}: {word} is not in lowercase, or not of the form: {it.form}"
        if len(values) != (it.form in ("text", "number")) or (it.form == "number" and not values[0].isdigit()):
            yield f"{it.name}: {word} has no value, or one too many"


def differences(name: str, table: Dict[str, List[str]], words: Dict[str, List[str]]) -> Iterator[str]:
    """How a list of another crate differs from the table."""
    for word in sorted(set(table) | set(words)):
        if word not in words:
            yield f"{name}: `{shown(word)}` is in {WORDS}, and not in the list"
        elif word not in table:
            yield f"{name}: `{shown(word)}` is in the list, and not in {WORDS}"
        elif sorted(table[word]) != sorted(words[word]):
            yield f"{name}: `{shown(word)}` is written {words[word]} in the list, and {table[word]} in {WORDS}"


def lists_elsewhere() -> Table:
    """The lists of twp_rules and of the hints, by name."""
    lists: Table = defaultdict(dict)
    found = lists_of(path.read_text() for path in sorted((ROOT / SPECS).glob("*.antt")))
    for name, entries in found.items():
        for entry in entries:
            values = lists[name].setdefault(entry.seen.decode(), [])
            values += [] if entry.written is None else [entry.written.decode()]
    lists.update(hints_in((ROOT / SIGNS).read_text()))
    return lists


def hints_in(text: str) -> Table:
    """The lists of words by which hints name signs, such as that of `<acres>`."""
    texts = {name: words.replace("\\\n", " ") for name, words in
             re.findall(r'^const (\w+): &str =\s+"([^"]*)";$', text, re.M)}
    arms = re.search(r"fn texts_of\(.*?\n}\n", text, re.S)[0]
    lists: Table = {}
    for name, words, constant in re.findall(r'^ +"(<[\w-]+>)" => (?:"([^"]*)"|(\w+)),$', arms, re.M):
        listed = of_escapes(texts[constant] if constant else words).lower()
        lists[name] = {word: [] for word in listed.split()}
    return lists


def of_escapes(text: str) -> str:
    """The text that a literal in the code means."""
    text = re.sub(r"\\u\{(\w+)\}", lambda found: chr(int(found[1], 16)), text)
    return text.replace("\\\\", "\\")


# The list in the document.


def with_listed(text: str, table: Table) -> str:
    """The document, with the words that it lists."""
    before, _, rest = text.partition(BEGIN + "\n")
    _, _, after = rest.partition(END + "\n")
    lines = []
    for what, classes in LISTED:
        line = f"- {what}: {listed(what, classes.split(), table)}"
        lines += textwrap.wrap(line, DOCUMENT_COLUMNS, subsequent_indent="  ")
    return "\n".join([before + BEGIN, *lines, END, after])


def listed(what: str, classes: List[str], table: Table) -> str:
    """The words of some classes as the document shows them: letters first, then words."""
    words = {word for name in classes for word in table.get(name, {})}
    letters = {word for name in classes if name.endswith("_letters") for word in table[name]}
    letters |= {word for word in words if what == "states" and len(word) == 2}
    names = [word.title() if what in NAMES else word for word in sorted(words - letters)]
    return ", ".join([*names, *(word.upper() for word in sorted(letters))])


# The commands.


def read_table() -> Tuple[Table, List[Class]]:
    """The table, and what its classes are."""
    return table_of((ROOT / WORDS).read_text()), classes_of((ROOT / CLASSES).read_text())


def check() -> List[str]:
    """What differs from the table."""
    table, classes = read_table()
    faults = list(faults_of(table, classes, lists_elsewhere()))
    text = (ROOT / WORDS).read_text()
    if text != text_of_table(table, comment_of(text)):
        faults.append(f"{WORDS}: a row is not in its place, or a class in its row: run python3 tools/words.py")
    for module, source in sources_of(table, classes).items():
        path = ROOT / SOURCES / f"{module}.rt"
        if not path.exists() or path.read_text() != source:
            faults.append(f"{SOURCES}/{module}.rt: run python3 tools/words.py, and commit what it changes")
    document = (ROOT / DOCUMENT).read_text()
    if document != with_listed(document, table):
        faults.append(f"{DOCUMENT}: run python3 tools/words.py, and commit what it changes")
    return faults


def write() -> None:
    """Write the functions, the table with its rows in order, and the words that the document lists."""
    table, classes = read_table()
    text = (ROOT / WORDS).read_text()
    (ROOT / WORDS).write_text(text_of_table(table, comment_of(text)))
    for module, source in sources_of(table, classes).items():
        (ROOT / SOURCES / f"{module}.rt").write_text(source)
    document = (ROOT / DOCUMENT).read_text()
    (ROOT / DOCUMENT).write_text(with_listed(document, table))


def take() -> None:
    """Copy the lists of other crates into the table, as they are."""
    table, classes = read_table()
    functions: Set[str] = {it.name for it in classes}
    text = (ROOT / WORDS).read_text()
    taken = {name: words for name, words in table.items() if name in functions}
    taken.update(lists_elsewhere())
    (ROOT / WORDS).write_text(text_of_table(taken, comment_of(text)))


def main(arguments: List[str]) -> int:
    """Do what the arguments say. Return the exit status."""
    if arguments == ["--check"]:
        faults = check()
        print("\n".join(faults), end="\n" if faults else "")
        return 1 if faults else 0
    if arguments == ["--take"]:
        take()
    elif arguments:
        table, _ = read_table()
        for word in arguments:
            print(f"{word}: {classes_shown(word, table) or 'not known'}")
    else:
        write()
    return 0


if __name__ == "__main__":
    try:
        sys.exit(main(sys.argv[1:]))
    except Unread as unread:
        sys.exit(f"{SPECS}: {unread}")
