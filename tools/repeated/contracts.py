"""The contracts that docs/PROMISES.md and docs/CONTRACTS.md cite: each function, clause, type, and definition exists. So
does each function that docs/ARCHITECTURE.md names with its module."""

import re
from typing import List, Set

from reading import ROOT, Compared, text_of

WHAT = "names of contracts, clauses, and functions in docs/PROMISES.md, docs/CONTRACTS.md, and docs/ARCHITECTURE.md"

DOCUMENTS = ("docs/PROMISES.md", "docs/CONTRACTS.md")

#: Names in the code: functions, types, and clauses; and names in the definitions: these, and the fields of records.
IN_CODE = r"\b(?:fn|struct|enum|trait|type|ensures) (\w+)|\bghost (\w+)"
IN_SPECS = r"^(?:abbrev |unfoldable |pub |record |data )+(\w+)|^  (?:pub )?((?:\w+ )+):"

#: What else is in the second column.
OTHERS = {"impl", "mutated.py"}

MAP = "docs/ARCHITECTURE.md"

#: A function, as in: `hundredths` in `area` of `twp_measure`.
FUNCTION = r"`(\w+)` in `(\w+)` of `(twp_\w+)`"


def compare() -> Compared:
    known = names_in("src/**/*.rt", IN_CODE) | names_in("specs/**/*.antt", IN_SPECS) | OTHERS
    known |= {path.stem for path in ROOT.glob("crates/*/src/**/*.rt")} | {path.name for path in ROOT.glob("crates/*")}
    compared = 0
    differences: List[str] = []
    for document in DOCUMENTS:
        for number, line in enumerate(text_of(document).splitlines(), 1):
            cell = line.rstrip(" |").rpartition(" | ")[2] if line.startswith("| ") else ""
            for cited in re.findall(r"`([^`]+)`", cell):
                name = re.split(r"::|\.", re.sub("<.*", "", cited))[-1]
                if (ROOT / cited).exists() or cited.endswith("..") or cited.startswith("_"):
                    continue
                compared += 1
                if name not in known and cited not in OTHERS:
                    differences.append(f"{document}:{number}: there is no {cited}")
    found = re.findall(FUNCTION, text_of(MAP))
    for name, module, crate in found:
        code = "".join(text_of(str(path.relative_to(ROOT))) for path in ROOT.glob(f"crates/{crate}/src/**/{module}.rt"))
        if not re.search(rf"\b(?:fn|struct|trait) {name}\b", code):
            differences.append(f"{MAP}: there is no {name} in {module} of {crate}")
    return compared + len(found), differences


def names_in(pattern: str, form: str) -> Set[str]:
    text = "\n".join(path.read_text(encoding="utf-8") for path in ROOT.glob(f"crates/*/{pattern}"))
    return {name for found in re.findall(form, text, re.M) for names in found for name in names.split()}
