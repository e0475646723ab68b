"""The names in the last column of docs/GLOSSARY.md: each is defined in the crate that is named before it."""

import re
from typing import List

from reading import ROOT, Compared, text_of

WHAT = "names of docs/GLOSSARY.md in their crates"

GLOSSARY = "docs/GLOSSARY.md"

#: Where a name is defined: an item or a method, a definition, a field, or a variant.
DEFINED = (
    r"(?:abbrev|unfoldable) pub {0} |pub (?:record|data|struct|enum|trait|type|fn) {0}\b|\bfn {0}\b"
    r"|^ +(?:pub )?{0}(?: :| \{{|[:,(])"
)


def compare() -> Compared:
    compared = 0
    differences: List[str] = []
    for number, line in enumerate(text_of(GLOSSARY).splitlines(), 1):
        cell = line.rstrip(" |").rpartition(" | ")[2] if line.startswith("| ") else ""
        for crate, names in re.findall(r"`(twp_\w+)`(?:: ((?:`\w+`|, |its )+))?", cell):
            compared += 1
            folder = ROOT / "crates" / crate
            if not folder.is_dir():
                differences.append(f"{GLOSSARY}:{number}: there is no crate {crate}")
            files = [*folder.glob("src/**/*.rt"), *folder.glob("specs/**/*.antt")]
            code = "\n".join(path.read_text(encoding="utf-8") for path in files)
            for name in re.findall(r"`(\w+)`", names):
                compared += 1
                if not re.search(DEFINED.format(name), code, re.M):
                    differences.append(f"{GLOSSARY}:{number}: {crate} does not define {name}")
        unread = re.findall(r"`\w+`", re.sub(r"`twp_\w+`(?:: (?:`\w+`|, |its )+)?", "", cell))
        differences += [f"{GLOSSARY}:{number}: {name} is after no crate" for name in unread]
    return compared, differences
