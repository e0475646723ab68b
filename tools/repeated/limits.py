"""The limits of the input: the definitions say them, and the code, the header, and sentences repeat them."""

import re
from typing import Dict, List, NamedTuple, Set

from reading import HEADER, ROOT, Compared, number_of, text_of

WHAT = "limits in the code, the header, and sentences"


class Limit(NamedTuple):
    """A limit: the definition, and the constants that repeat it, each with the form of its line."""

    definition: str
    name: str
    repeated: Dict[str, str]


LIMITS = (
    Limit(
        "crates/twp_notes/specs/FieldNotes.antt",
        "NOTES_MOST",
        {
            "crates/twp_notes/src/fault.rt": r"const MOST_BYTES: u32 = ",
            HEADER: r"#define TOWNSHIP_NOTES_MOST ",
        },
    ),
    Limit(
        "crates/twp_grammar/specs/Sentences.antt",
        "TEXT_LIMIT",
        {"crates/twp_read/src/fault.rt": r"const TEXT_LIMIT: usize = ", HEADER: r"#define TOWNSHIP_DESCRIPTION_MOST "},
    ),
    Limit(
        "crates/twp_answers/specs/Tracts.antt",
        "TRACTS_LIMIT",
        {"crates/twp_answers/src/tract_fault.rt": r"const TRACTS_LIMIT: u32 = ", HEADER: r"#define TOWNSHIP_LIST_MOST "},
    ),
    Limit(
        "crates/twp_plat/specs/LotRecords.antt",
        "LOTS_TEXT_MOST",
        {"crates/twp_plat/src/lots/fault.rt": r"const MOST_BYTES: u32 = ", HEADER: r"#define TOWNSHIP_LOTS_TEXT_MOST "},
    ),
    Limit(
        "crates/twp_calls/specs/Splits.antt",
        "SPLIT_LIMIT",
        {"crates/twp_calls/src/split.rt": r"const LIMIT: usize = ", HEADER: r"#define TOWNSHIP_SPLIT_MOST "},
    ),
    Limit(
        "crates/twp_answers/specs/Tracts.antt",
        "TRACTS_MOST",
        {
            "crates/twp_answers/src/tract_fault.rt": r"const TRACTS_MOST: u32 = ",
            HEADER: r"#define TOWNSHIP_TRACTS_MOST ",
        },
    ),
    Limit(
        "crates/twp_answers/specs/Tracts.antt",
        "NAME_MOST",
        {
            "crates/twp_answers/src/tract.rt": r"const NAME_MOST: usize = ",
            "crates/twp_explain/src/rows.rt": r"const NAME_MOST: usize = ",
            HEADER: r"#define TOWNSHIP_NAME_MOST ",
        },
    ),
)

#: Where sentences for users are. The logs of measurements have numbers of their own.
SENTENCES = (
    *("README.md", "SECURITY.md", HEADER, "man/township.1.in", "bindings/*/README.md", "docs/*.md"),
    *("bindings/python/src/**/*.py", "bindings/rust/src/**/*.rs", "crates/twp_explain*/src/**/*.rt"),
    *("crates/twp_notes/src/fault.rt", "crates/twp_read/src/fault.rt", "crates/twp_answers/src/tract_fault.rt"),
)
NO_SENTENCES = {"docs/BENCHMARKS.md", "docs/PERFORMANCE.md", "docs/TRUST.md"}


#: The size of a struct of the header, which is no limit.
STRUCT_SIZE = re.compile(r"`township_\w+`: [\d,]+ bytes\.")

#: What is read of standard input: a description, a line feed, and one byte more than notes may have.
JOINED = {
    "crates/twp_program/src/joined.rt": r"const MOST_BYTES: usize = ",
    "tests/library/c/case_records.py": r"^JOINED_MOST = ",
    "bindings/python/tests/test_cases.py": r"^JOINED_MOST = ",
}


def compare() -> Compared:
    values = {limit.name: defined(limit) for limit in LIMITS}
    joined = values["TEXT_LIMIT"] + 1 + values["NOTES_MOST"] + 1
    compared, differences = compare_constants(values, joined)
    in_sentences, further = compare_sentences(values, joined)
    return compared + in_sentences, differences + further


def compare_constants(values: Dict[str, int], joined: int) -> Compared:
    repeated = [(limit.name, values[limit.name], limit.repeated) for limit in LIMITS]
    repeated.append(("JOINED_MOST", joined, JOINED))
    compared = 0
    differences: List[str] = []
    for name, value, places in repeated:
        for place, form in places.items():
            compared += 1
            found = [number_of(number) for number in re.findall(form + r"([\d_]+)", text_of(place), re.M)]
            if found != [value]:
                differences.append(f"{place}: {name} is {value}, and here it is {found}")
    return compared, differences


def compare_sentences(values: Dict[str, int], joined: int) -> Compared:
    sizes = {values["NOTES_MOST"], values["TEXT_LIMIT"], values["TRACTS_LIMIT"], joined}
    compared = 0
    differences: List[str] = []
    for path in files_of_sentences():
        text = STRUCT_SIZE.sub("", " ".join(text_of(path).split()))
        for form, allowed in (
            # No smaller or larger number is near a limit.
            (r"(?<![\d,])(\d{1,3},\d{3},\d{3}|\d{2,3},\d{3}|\d{5,7}) bytes", sizes),
            (r"(?<![\d,])(\d{1,2},\d{3}|\d{3,5}) tracts", {values["TRACTS_MOST"], values["TRACTS_MOST"] + 1}),
            (r"\b1 to (\d+) (?:bytes of )?printable", {values["NAME_MOST"]}),
            (r"\bat most (\d+) are allowed", {values["NAME_MOST"]}),
        ):
            found = [number_of(number) for number in re.findall(form, text)]
            compared += len(found)
            differences += [
                f"{path}: {number} is not a limit: {in_order(allowed)}" for number in found if number not in allowed
            ]
    return compared, differences


def defined(limit: Limit) -> int:
    """The value in the definition."""
    [number] = re.findall(rf"^{limit.name} = (\d+)$", text_of(limit.definition), re.M)
    return int(number)


def files_of_sentences() -> List[str]:
    found = {str(file.relative_to(ROOT)) for pattern in SENTENCES for file in ROOT.glob(pattern)}
    return sorted(found - NO_SENTENCES)


def in_order(numbers: Set[int]) -> str:
    return ", ".join(str(number) for number in sorted(numbers))
