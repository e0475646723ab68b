"""The calls of the library: the lists and tests that have to name each of them."""

import re
from typing import List, Set

from reading import HEADER, PYTHON, ROOT, Compared, text_of

WHAT = "names of calls in lists and tests"

#: Where each call is named, as in C: a file, or several files that together name each.
NAMED = (
    "crates/*/src/lib.rt",
    "packaging/libtownship.map",
    "tests/library/c/township_test.c tests/library/c/land.c tests/library/c/lots.c tests/library/c/lot_lands.c "
    "tests/library/c/lot_lists.c tests/library/c/lists.c tests/library/c/many.c tests/library/c/explanations.c "
    "tests/library/c/readings.c tests/library/c/lot_readings.c tests/library/c/designations.c "
    "tests/library/c/split.c",
    "tests/library/c/threads.c",
    "tests/library/c/growth_test.c",
    "tools/reading_list/promises.txt",
    "docs/PROMISES.md",
)

#: Calls that a file need not name: one that takes no memory, and so can't be refused any; and those that a document has
#: rows for by their kind, such as "the explaining calls".
NOT_NAMED = {"tests/library/c/growth_test.c": "township_version", "docs/PROMISES.md": r"township_explain_\w+|\w+_parts"}


def compare() -> Compared:
    calls = re.findall(r"^township_answer (township_\w+)\(", text_of(HEADER), re.M)
    compared = 0
    differences: List[str] = []
    for place in NAMED:
        named = words_of(place)
        for call in calls:
            if re.fullmatch(NOT_NAMED.get(place, ""), call):
                continue
            compared += 1
            if call not in named:
                differences.append(f"{place}: {call} is not named")
    # The tests of the Python package have a list of its functions, by their names there.
    tested = words_of("bindings/python/tests/test_library.py")
    for name in re.findall(r'^(\w+) = _call\(\s*"township_\w+"', text_of(f"{PYTHON}/_library.py"), re.M):
        compared += 1
        if name not in tested:
            differences.append(f"bindings/python/tests/test_library.py: {name} is not named")
    return compared, differences


def words_of(paths: str) -> Set[str]:
    """The words of files whose names or patterns are given."""
    files = [file for path in paths.split() for file in sorted(ROOT.glob(path))]
    return {word for file in files for word in re.findall(r"\w+", text_of(str(file.relative_to(ROOT))))}
