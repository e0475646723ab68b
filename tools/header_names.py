#!/usr/bin/env python3
"""Writes the constants of include/township.h that repeat what is said elsewhere.

The names of the refusals are those of the tables in docs/REFUSALS.md and of the pages in PAGES, which
tests/documents/sources.sh compares with the code, and the version is that of the library. With --check, nothing is
written: the status is 1 if the header differs, or the version of a package in bindings/.
"""
from __future__ import annotations

import re
import sys
from pathlib import Path
from typing import Iterator, NamedTuple

TOP = Path(__file__).resolve().parents[1]
HEADER = TOP / "include" / "township.h"
REFUSALS = TOP / "docs" / "REFUSALS.md"
#: The pages with refusals of calls that the program does not make.
PAGES = [TOP / "docs" / name for name in ("TOWNSHIPS.md", "LOTS-FORMAT.md", "SEVERAL-TOWNSHIPS.md",
                                        "PHRASES.md")]
VERSION = TOP / "crates" / "twp_calls" / "src" / "version.rt"

#: The packages' own statements of their version.
PACKAGES = {
    TOP / "bindings" / "python" / "src" / "township" / "_version.py": r'^__version__ = "(.*)"$',
    TOP / "bindings" / "rust" / "Cargo.toml": r'^version = "(.*)"$',
}

#: The lines that are written are between these two.
BEGIN, END = "/* Made by tools/header_names.py: */", "/* End of the lines that tools/header_names.py makes. */"


class Group(NamedTuple):
    """Refusals that are numbered together."""

    numbers: range
    prefix: str
    subject: str


GROUPS = (
    Group(range(1, 20), "NOTES_", "Field notes"),
    Group(range(20, 30), "PLAT_", "The plat that field notes make"),
    Group(range(30, 38), "DESIGNATION_", "The name of a township"),
    Group(range(38, 40), "SPLIT_", "A text with the land of several townships"),
    Group(range(40, 50), "TEXT_", "The text of a description"),
    Group(range(50, 60), "PHRASES_", "Phrases that are not land"),
    Group(range(60, 80), "LAND_", "The land that a description names"),
    Group(range(80, 86), "", "A list of tracts"),
    Group(range(86, 102), "LOTS_", "A lot table, and land measured by it"),
)


def main() -> int:
    """Write the header, or check it. Return the exit status."""
    header = HEADER.read_text()
    version = the_only(r'^pub\(crate\) const VERSION: &str = "(.*)";$', VERSION)
    made = with_lines(header, [*version_lines(version), "", *refusal_lines(), ""])
    if sys.argv[1:] != ["--check"]:
        HEADER.write_text(made)
        return 0
    wrong = [file for file, pattern in PACKAGES.items() if the_only(pattern, file) != version]
    for file in wrong:
        print(f"{file.relative_to(TOP)}: the version is not that of the library, {version}")
    if made != header:
        print("include/township.h: run python3 tools/header_names.py, and commit what it changes")
    return 1 if wrong or made != header else 0


def the_only(pattern: str, file: Path) -> str:
    """Return the only text that matches a pattern in a file."""
    [found] = re.findall(pattern, file.read_text(), re.MULTILINE)
    return str(found)


def version_lines(version: str) -> Iterator[str]:
    """Yield the version, as a text and as numbers."""
    yield "/* The version of this header; township_version returns the version of the library. */"
    yield f'#define TOWNSHIP_VERSION "{version}"'
    numbers = [int(number) for number in version.split(".")]
    for name, number in zip(("MAJOR", "MINOR", "PATCH"), numbers):
        yield f"#define TOWNSHIP_VERSION_{name} {number}"
    yield "/* The version as one number, for comparisons: 1,000,000 * MAJOR + 1,000 * MINOR + PATCH. */"
    major, minor, patch = numbers
    yield f"#define TOWNSHIP_VERSION_NUMBER {1_000_000 * major + 1_000 * minor + patch}"


def refusal_lines() -> Iterator[str]:
    """Yield a constant for each refusal, by groups."""
    rows = re.findall(r"^\| (\d+) \| ([A-Z][A-Za-z]*) \|", REFUSALS.read_text(), re.MULTILINE)
    for page in PAGES:
        rows += re.findall(r"^\| (\d+) `([A-Z][A-Za-z]*)` \|", page.read_text(), re.MULTILINE)
    refusals = {int(number): name for number, name in rows}
    yield "/* The numbers of refusals, explained in docs/REFUSALS.md and the pages that it names. */"
    for group in GROUPS:
        yield f"/* {group.subject}: */"
        for number in sorted(set(group.numbers) & set(refusals)):
            yield f"#define TOWNSHIP_REFUSAL_{group.prefix}{in_capitals(refusals[number])} {number}u"


def in_capitals(name: str) -> str:
    """Return a name such as `NoLine` in the form `NO_LINE`."""
    return re.sub(r"(?<!^)(?=[A-Z])", "_", name).upper()


def with_lines(header: str, lines: list[str]) -> str:
    """Return the header with these lines between the two marks."""
    before, _, rest = header.partition(BEGIN + "\n")
    _, _, after = rest.partition(END + "\n")
    return "\n".join([before + BEGIN, *lines[:-1], END, after])


if __name__ == "__main__":
    sys.exit(main())
