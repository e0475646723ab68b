"""Counts in the documents of what the repository contains, or of what its tests do."""

import re
from typing import Callable, List, NamedTuple, Tuple

from reading import ROOT, Compared, number_of, text_of

WHAT = "counts in documents of wrong bodies, of definitions, of crates of the kit, and of tests"


class Count(NamedTuple):
    """A sentence with numbers, and what they have to be."""

    document: str
    sentence: str
    numbers: Callable[[], Tuple[int, ...]]


def number_in(path: str, form: str) -> Callable[[], Tuple[int, ...]]:
    """The number that the only text of this form has in a file."""
    return lambda: tuple(map(number_of, re.findall(form, text_of(path), re.M)))


def wrong_bodies() -> Tuple[int, int]:
    """How many wrong bodies each run of the gate tries, and in how many crates."""
    found = list(ROOT.glob("crates/*/must-fail/*.edit"))
    return len(found), len({edit.parent for edit in found})


def wrong_bodies_and_crates() -> Tuple[int, int, int]:
    return (*wrong_bodies(), len(re.findall(r"^\w+.*?:", text_of("crates.txt"), re.M)))


def lines_of_readings() -> Tuple[int]:
    """The lines of the definitions that the readings rest on, in hundreds."""
    form = r"^### The readings of what people write$.*?([\d,]+) lines\.$"
    [lines] = re.findall(form, text_of("docs/TRUST.md"), re.M | re.S)
    return (round(number_of(lines), -2),)


CASES = number_in("tests/library/run.sh", r"model\.py --count (\d+)")
DAMAGED = number_in("tests/program/damaged.sh", r"^count=(\d+)$")
MUTANTS = number_in("tests/descriptions/mutated.py", r"^FEWEST = ([\d_]+)$")
STACK = number_in("tests/program/limits.sh", r"^stack=(\d+)$")

COUNTS = (
    Count("docs/DECISIONS.md", r"it now contains ([\d,]+), in (\d+) crates", wrong_bodies),
    Count("docs/PERFORMANCE.md", r"There are ([\d,]+) now, in (\d+) of (\d+) crates", wrong_bodies_and_crates),
    Count("docs/DECISIONS.md", r"about ([\d,]+) lines \(`TRUST.md`\)", lines_of_readings),
    Count("tests/README.md", r"on ([\d,]+) by `tests/library/run.sh`", CASES),
    Count("CONTRIBUTING.md", r"compares them on ([\d,]+)\.", CASES),
    Count("CONTRIBUTING.md", r"runs it on ([\d,]+) damaged inputs", DAMAGED),
    Count("docs/PROMISES.md", r"and on ([\d,]+) damaged ones", MUTANTS),
    Count("docs/PROMISES.md", r"tries (\d+) KiB of stack", STACK),
    Count("docs/ARCHITECTURE.md", r"should provide (\d+) KiB", STACK),
)


def compare() -> Compared:
    differences: List[str] = []
    for count in COUNTS:
        text = " ".join(text_of(count.document).split())
        found = [tuple(map(number_of, it.groups())) for it in re.finditer(count.sentence, text)]
        if found != [count.numbers()]:
            differences.append(f"{count.document}: {count.sentence} has {found}, and not {count.numbers()}")
    return len(COUNTS) + 1, differences + kit_crates()


def kit_crates() -> List[str]:
    """The crates of the kit that the README trusts are those that crates.txt names."""
    rows = re.findall(r"^(\w+).*?:(.*)$", text_of("crates.txt"), re.M)
    used = {crate for _, below in rows for crate in below.split()} - {name for name, _ in rows}
    [trusted] = re.findall(r"the contracts of the kit's crates \((.*?)\)", text_of("README.md"), re.S)
    if set(re.findall(r"`(\w+)`", trusted)) != used:
        return [f"README.md: the crates of the kit are {', '.join(sorted(used))}"]
    return []
