"""The numbers of the two ways to read a phrase, and the words for them: the definitions state the numbers, and the crate
twp_phrases has the words; the header, the bindings, and the extension for PostgreSQL repeat them."""

import re
from typing import List

from reading import HEADER, PYTHON, RUST, Compared, text_of
from rules import numbers_in, words_in

WHAT = "ways to read a phrase in the header, the bindings, and the extension"

DEFINITIONS = "crates/twp_calls/specs/UnreadCalls.antt"

WORDS = "crates/twp_phrases/src/unread.rt"

SQL = "postgresql/src/unread.c"


def compare() -> Compared:
    wanted = numbers_in(r"^ways_of ambiguity\.(\w+) = (\d+)$", text_of(DEFINITIONS))
    words = words_in(r'Ambiguity::(\w+) => (?:\{\s*)?"(.*)"', text_of(WORDS))
    [inside] = re.findall(r"^WAYS = \(\n(.*?)^\)$", text_of(f"{PYTHON}/_readings.py"), re.M | re.S)
    in_python = dict(zip(wanted, re.findall(r'^    "(.*)",$', inside, re.M)))
    rust = text_of(f"{RUST}/readings/unread.rs")
    sql = text_of(SQL)
    differences: List[str] = []
    for place, found in (
        (HEADER, numbers_in(r"^#define TOWNSHIP_WAYS_(\w+) (\d+)u", text_of(HEADER))),
        (WORDS, {name: wanted.get(name) for name in words}),
        (f"{RUST}/readings/unread.rs", {
            name: wanted.get(name) for name in words_in(r"ffi::WAYS_(\w+) => Some\(Ways::(\w+)\)", rust)
        }),
    ):
        if found != wanted:
            differences.append(f"{place}: the ways are {found}, and those of {DEFINITIONS} are {wanted}")
    for place, said in (
        (f"{PYTHON}/_readings.py", in_python),
        (f"{RUST}/readings/unread.rs", words_in(r'Ways::(\w+) => (?:\{\s*)?"(.*)"', rust)),
        (SQL, words_in(r'^    \{TOWNSHIP_WAYS_(\w+), "(.*)"\},$', sql)),
    ):
        if said != words:
            differences.append(f"{place}: the words for the ways are {said}, and not {words}")
    return 6 * len(wanted), differences
