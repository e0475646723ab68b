"""The numbers of the rules of readings, of their manners, and of their assumptions: the definitions state them, and the
header and the bindings repeat them. The words for assumptions are those of the crate twp_suggest; the bindings and the
extension for PostgreSQL repeat them."""

import re
from typing import Dict, List

from reading import HEADER, PYTHON, RUST, Compared, text_of

WHAT = "rules of readings in the header and the bindings"

SQL = "postgresql/src/suggest.c"

DEFINITIONS = "crates/twp_calls/specs/Suggestions.antt"

ASSUMPTIONS = "crates/twp_suggest/src/assumptions.rt"

#: Where the words for the standard lots are, which a reading assumes if no plat is known.
STANDARD_LOTS = {
    f"{RUST}/readings/assumption.rs": r'^const STANDARD_LOTS: &str = "(.*)";$',
    SQL: r'^#define STANDARD_LOTS "(.*)"$',
    "docs/DESCRIPTIONS.md": r"^\| (the plat .*?) \| the whole reading",
    "docs/HTTP.md": r"end with `(.*?)`",
}


def compare() -> Compared:
    text = text_of(DEFINITIONS)
    numbers = {plain(name): int(number) for name, number in re.findall(r"^number_of \(?(\w+).* = (\d+)$", text, re.M)}
    manners = {plain(name): int(number) for name, number in re.findall(r"^manner_of (\w+) = (\d+)$", text, re.M)}
    assumes = numbers_in(r"^number_of_assumption \(Some (\w+)\) = (\d+)$", text)
    header = text_of(HEADER)
    wanted = {**numbers, **{f"manner {name}": number for name, number in manners.items()}}
    differences: List[str] = []
    for place, found in (
        (HEADER, {**numbers_in(r"^#define TOWNSHIP_RULE_(\w+) (\d+)u", header), **manners_in(header, manners)}),
        (f"{PYTHON}/_readings.py", {**in_order("RULES", 1, PYTHON), **manners_in_order(PYTHON)}),
        (f"{RUST}/readings/rule.rs", {**rust_rules(), **{f"manner {name}": n for name, n in manners.items()}}),
    ):
        if found != wanted:
            differences.append(f"{place}: the rules are {found}, and those of {DEFINITIONS} are {wanted}")
    words = words_in(r'Assumption::(\w+) => (?:\{\s*)?"(.*)"', text_of(ASSUMPTIONS))
    in_python = words_in(r'^    "([a-z ]+)": "(.*)",$', text_of(f"{PYTHON}/_readings.py"))
    for place, found in (
        (HEADER, numbers_in(r"^#define TOWNSHIP_ASSUMES_(\w+) (\d+)u", header)),
        (f"{PYTHON}/_readings.py", {name: number for number, name in enumerate(in_python, 1)}),
        (f"{RUST}/readings/assumption.rs", rust_assumptions()),
        (ASSUMPTIONS, {name: assumes.get(name) for name in words}),
    ):
        if found != assumes:
            differences.append(f"{place}: the assumptions are {found}, and not {assumes}")
    for place, found in (
        (f"{PYTHON}/_readings.py", in_python),
        (f"{RUST}/readings/assumption.rs",
         words_in(r'Assumption::(\w+) => (?:\{\s*)?"(.*)"', text_of(f"{RUST}/readings/assumption.rs"))),
        (SQL, words_in(r'^    \{TOWNSHIP_ASSUMES_(\w+), "(.*)"\},$', text_of(SQL))),
    ):
        if found != words:
            differences.append(f"{place}: the words for what is assumed are {found}, and not {words}")
    # The library knows nothing of this assumption: the package for Python has the words that the others repeat.
    [standard] = re.findall(r'^STANDARD_LOTS = "(.*)"$', text_of(f"{PYTHON}/_readings.py"), re.M)
    for place, form in STANDARD_LOTS.items():
        if re.findall(form, text_of(place), re.M) != [standard]:
            differences.append(f"{place}: the words for the standard lots are not `{standard}`")
    return 3 * len(wanted) + 7 + len(STANDARD_LOTS), differences


def plain(name: str) -> str:
    """`FractionDigit` and `FRACTION_DIGIT` as `fraction digit`."""
    if not name.isupper():
        name = re.sub(r"(?<!^)(?=[A-Z])", "_", name)
    return name.lower().replace("_", " ")


def numbers_in(form: str, text: str) -> Dict[str, int]:
    return {plain(name): int(number) for name, number in re.findall(form, text, re.M)}


def words_in(form: str, text: str) -> Dict[str, str]:
    return {plain(name): words for name, words in re.findall(form, text, re.M)}


def manners_in(header: str, manners: Dict[str, int]) -> Dict[str, int]:
    found = {}
    for name in manners:
        for number in re.findall(rf"^#define TOWNSHIP_{name.upper().replace(' ', '_')} (\d+)u", header, re.M):
            found[f"manner {name}"] = int(number)
    return found


def in_order(constant: str, first: int, folder: str) -> Dict[str, int]:
    """The names in a tuple of Python, by their place."""
    [inside] = re.findall(rf"^{constant} = \((.*?)\n?\)$", text_of(f"{folder}/_readings.py"), re.M | re.S)
    return {name: first + index for index, name in enumerate(re.findall(r'"([a-z ]+)"', inside))}


def manners_in_order(folder: str) -> Dict[str, int]:
    return {f"manner {name}": index for name, index in in_order("MANNERS", 0, folder).items()}


def rust_assumptions() -> Dict[str, int]:
    text = text_of(f"{RUST}/readings/assumption.rs")
    [inside] = re.findall(r"^const ASSUMPTIONS: \[Assumption; \d+\] = \[(.*?)\];", text, re.M | re.S)
    return {plain(name): 1 + index for index, name in enumerate(re.findall(r"Assumption::(\w+)", inside))}


def rust_rules() -> Dict[str, int]:
    [inside] = re.findall(r"^const RULES: \[Rule; \d+\] = \[(.*?)\];", text_of(f"{RUST}/readings/rule.rs"), re.M | re.S)
    return {plain(name): 1 + index for index, name in enumerate(re.findall(r"Rule::(\w+)", inside))}
