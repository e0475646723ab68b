"""The ranges of refusals that sentences give, as in `41 to 44`: those of docs/REFUSALS.md."""

import re
from typing import Dict, List, Set, Tuple

from reading import ROOT, Compared, text_of

WHAT = "ranges of refusals in sentences"

REFUSALS = "docs/REFUSALS.md"

#: Where sentences give ranges.
SENTENCES = (
    *("README.md", "CONTRIBUTING.md", "include/township.h", "man/township.1.in", "tools/man_page.sh", "docs/*.md"),
    *("bindings/*/README.md", "bindings/python/src/**/*.py", "bindings/rust/src/**/*.rs", "crates/*/src/**/*.rt"),
)


#: What is before a range of refusals that begins with a number that much else begins with.
BEFORE_SMALL = re.compile(r"([Rr]efusals?|, with a number from|wrong:|[Ee]xamples for) $")

#: Parts of a stage that have places of one kind: of the records of field notes, and of the tokens of a description.
PARTS = {(2, 10), (41, 43)}

#: The refusals of what items name, with that of land that a plat lacks, which no field notes lead to.
ITEMS = {(61, 68)}

#: The indexes of the west-run section lines.
OTHERS = {(42, 83)}


def compare() -> Compared:
    allowed = allowed_ranges(stages_of(text_of(REFUSALS))) | PARTS | ITEMS
    firsts = {first for first, _ in allowed}
    compared = 0
    differences: List[str] = []
    for path in sorted({str(file.relative_to(ROOT)) for pattern in SENTENCES for file in ROOT.glob(pattern)}):
        text = " ".join(text_of(path).split())
        for found in re.finditer(r"(?<![\w/.])(\d+) to (\d+)\b", text):
            numbers = (int(found.group(1)), int(found.group(2)))
            is_small = numbers[0] < 20 and not BEFORE_SMALL.search(text[: found.start()][-40:])
            if is_small or numbers[0] not in firsts or numbers in OTHERS:
                continue
            compared += 1
            if numbers not in allowed:
                about = text[max(0, found.start() - 40) : found.end()]
                differences.append(f"{path}: no range of refusals: {about}")
    return compared, differences


def stages_of(text: str) -> Dict[str, List[int]]:
    """The numbers of the refusals of each stage, by its heading."""
    stages: Dict[str, List[int]] = {}
    heading = ""
    for line in text.splitlines():
        if line.startswith("## "):
            heading = line
        row = re.match(r"\| (\d+) \| [A-Z][A-Za-z]* \|", line)
        if row:
            stages.setdefault(heading, []).append(int(row.group(1)))
    return {heading: sorted(numbers) for heading, numbers in stages.items()}


def allowed_ranges(stages: Dict[str, List[int]]) -> Set[Tuple[int, int]]:
    """From the first number of a stage to its last one, or to that of a later stage; also without the first one, which
    may be that of input that is too large."""
    numbers = list(stages.values())
    allowed = set()
    for index, stage in enumerate(numbers):
        allowed |= {(stage[0], later[-1]) for later in numbers[index:]}
        allowed.add((stage[1], stage[-1]))
    return allowed
