"""Writes docs/TRUST.md: the definitions that have to be read to believe the program's promises.

    python3 tools/reading_list            writes the page
    python3 tools/reading_list --check    compares it with the one that is there; the status is 1 if they differ
    python3 tools/reading_list --why IsRounded    shows how the headline comes to rest on a definition

The page is page.md with what the contracts in promises.txt rest on (closure.py), in the kit, too, which is found by
`rt doc`, or in the folder that RATTLE_KIT names.
"""

import argparse
import difflib
import os
import re
import subprocess
import sys
import textwrap
from pathlib import Path
from string import Template

from closure import Outside, Sources, Untraced, closure

HERE = Path(__file__).resolve().parent
ROOT = HERE.parent.parent
PAGE = ROOT / "docs" / "TRUST.md"
# No row of a table has more bytes. The comment of a definition with more characters is cut after its first sentence.
ROW = 300
COMMENT = 190
# What the proofs use of the kit's crates, and where it is stated there.
KIT_CRATES = {
    "arrayvec": ("short lists of a known maximum length, as lists", "arrayvec/specs/ArrayVec.antt"),
    "csv": ("how bytes are read as records and fields", "csv/specs/Reading.antt"),
    "itoa": ("the decimal digits of a number (`decimal`, in the table below)", "itoa/src"),
    "thiserror": ("the texts of faults, which no clause of the headline mentions", "thiserror/README.md"),
}


class Reading:
    """What some clauses and types rest on, in the order in which it can be read."""

    def __init__(self, sources, start):
        self.uses, self.outside = closure(sources, start)
        crates = list(sources.crates)
        self.rank = lambda file: crates.index(file.crate) if file.is_ours else -1

    def types(self):
        """The types and the traits of the code, crates from the lowest."""
        found = [it for it in self.uses if it.file.is_code]
        return sorted(found, key=lambda it: (self.rank(it.file), it.file.module, it.first))

    def modules(self, chosen):
        """These definitions, module by module: crates from the lowest, and a module after those that it uses."""
        entries, ordered = {}, []
        for it in self.uses:
            if not it.file.is_code:
                entries.setdefault(it.file, []).append(it)

        def place(file):
            if file not in ordered:
                used = [it for entry in entries[file] for it in self.uses[entry] if not isinstance(it, Outside)]
                for below in (it.file for it in used if it.file in entries and it.file is not file):
                    place(below)
                ordered.append(file)

        for file in sorted(entries, key=lambda it: (self.rank(it), it.module)):
            place(file)
        ordered.sort(key=self.rank)
        found = [sorted(set(entries[it]) & set(chosen), key=lambda entry: entry.first) for it in ordered]
        return [it for it in found if it]

    def chain_to(self, name, start):
        """A shortest chain of uses to a definition of this name, or nothing."""
        chains, seen = [[it] for it in start], set(start)
        for chain in chains:
            if chain[-1].name == name:
                return chain
            new = [it for it in self.uses[chain[-1]] if not isinstance(it, Outside) and it not in seen]
            seen.update(new)
            chains += [[*chain, it] for it in new]
        return []


def promises(sources):
    """The contracts of each promise, by its title; first those of the headline."""
    found = {}
    for line in (HERE / "promises.txt").read_text(encoding="utf-8").splitlines():
        if line.startswith(" "):
            crate, *modules, name = line.strip().split("::")
            found[title].append(sources.find_declared(crate, ".".join(modules), name, name))
            if not found[title][-1]:
                raise Untraced(f"promises.txt: there is no function {line.strip()}")
        elif line and not line.startswith("#"):
            title = line
            found[title] = []
    return found


def filled(text):
    return textwrap.fill(text, 108, break_long_words=False, break_on_hyphens=False) + "\n"


def row(cells):
    return "| " + " | ".join(it.replace("|", "\\|") for it in cells) + " |"


def table(heads, rows):
    lines = [row(heads), "|" + "---|" * len(heads), *map(row, rows)]
    if long := next((it for it in lines if len(it.encode()) > ROW), None):
        raise Untraced(f"docs/TRUST.md: the row is too long: {long}")
    return "\n".join(lines) + "\n"


def lines_of(entry):
    return str(entry.first) if entry.first == entry.last else f"{entry.first}–{entry.last}"


def link(entry):
    """The name as a link to its lines; of the kit, the name alone."""
    path = entry.file.path.relative_to(ROOT) if entry.file.is_ours else None
    return f"[`{entry.name}`](../{path}#L{entry.first}-L{entry.last})" if path else f"`{entry.name}`"


def described(what, said, entries):
    """A table of entries with their comments."""
    rows = []
    for it in entries:
        if not it.comment and it.file.is_ours:
            raise Untraced(f"{it.file.path}:{it.first}: {it.name} has no comment")
        is_cut = it.file.is_code or len(it.comment) > COMMENT
        comment = re.sub(r"\. .*", ".", it.comment) if is_cut else it.comment
        comment = f"{comment.rstrip('.')}; contracts see it as `{it.value}`" if it.value else comment
        rows.append([link(it), lines_of(it), comment])
    return table([what, "lines", said], rows)


def size_of(entries):
    return sum(it.size for it in entries)


def counts(entries):
    """How many modules, definitions, and their lines there are among these, and how many types and their lines."""
    ours = [it for it in entries if it.file.is_ours]
    definitions, types = [[it for it in ours if it.file.is_code is is_code] for is_code in (False, True)]
    numbers = len({it.file for it in definitions}), len(definitions), size_of(definitions), len(types), size_of(types)
    return [f"{it:,}" for it in numbers]


def listing(reading, chosen):
    """The types and the definitions among these, with a sentence each."""
    ours = {it for it in chosen if it.file.is_ours}
    page = "Types and traits of the code:\n\n"
    page += described("type", "what it is", [it for it in reading.types() if it in ours])
    for entries in reading.modules(ours):
        file = entries[0].file
        title = " ".join(line[3:] for line in re.match(r"(?:-- .*\n)*", file.text)[0].splitlines())
        page += f"\n### `{file.crate}` `{file.module}`\n\n{filled(title)}\n"
        page += described("definition", "what it says", entries)
    return page


def kit_crates(sources):
    """The crates of the kit that the runs depend on, directly or not."""
    below, waiting = set(), ["twp_answers"]
    while waiting:
        waiting += (new := set(sources.crates.get(waiting.pop(), [])) - below)
        below |= new
    rows = [[f"`{it}`", KIT_CRATES[it][0], f"`{KIT_CRATES[it][1]}`"] for it in sorted(below - set(sources.crates))]
    return table(["crate", "what is used", "where"], rows)


def words(outside):
    """The names of the kit, by the file and line of each, or by the module of the logic that has it."""
    found = {}
    for it in sorted(outside, key=lambda it: (not it.where.endswith((".antt", ".rt")), it.where, it.line, it.name)):
        found.setdefault(f"`{it.where}`", []).append(f"`{it.name}`" + (f" ({it.line})" if it.line else ""))
    return table(["where", "names, with their lines"], [[where, ", ".join(names)] for where, names in found.items()])


def other_promise(sources, title, contracts, known):
    """What another promise rests on in addition to what is listed already: the names, module by module."""
    reading = Reading(sources, contracts)
    chosen = set(reading.uses) - set(known) - set(contracts)
    modules, definitions, lines, _, _ = counts(chosen)
    page = f"### {title}\n\n" + filled(f"Contracts: {', '.join(map(link, contracts))}.")
    page += f"\nBesides the headline's, {definitions} definitions in {modules} modules, {lines} lines.\n\n"
    rows = [it for entries in reading.modules(chosen) for it in module_rows(entries)]
    page += table(["module", "lines", "definitions"], rows) + "\n"
    types = [f"`{it.name}`" for it in reading.types() if it in chosen]
    return page + (filled(f"Types: {', '.join(types)}.") + "\n" if types else "")


def module_rows(entries):
    """A module's definitions by their names alone, in as many rows as it takes."""
    rows, file = [], entries[0].file
    title = f"`{file.crate}` `{file.module}`"
    where = f"[{title}](../{file.path.relative_to(ROOT)})" if file.is_ours else title
    for it in entries:
        if not rows or len(row(rows[-1]).encode()) + len(it.name.encode()) + 4 > ROW:
            rows.append([where, "0", ""])
        rows[-1] = [where, str(int(rows[-1][1]) + it.size), ", ".join(filter(None, [rows[-1][2], f"`{it.name}`"]))]
    return rows


def page_of(sources):
    """The whole page."""
    (_, contracts), *others = promises(sources).items()
    run, *laws = contracts
    accepted = Reading(sources, sources.named_in(run, re.findall(r"ensures acres (\{[^}]*\})", run.text)))
    whole = Reading(sources, contracts)
    read = set(whole.uses) - set(contracts)
    totals = [["what an accepted answer means", *counts(accepted.uses)], ["the whole headline", *counts(read)]]
    of_kit = [entries for entries in whole.modules(whole.uses) if not entries[0].file.is_ours]
    count, size = sum(map(len, of_kit)), sum(map(size_of, of_kit))
    files = [f"### `{it[0].file.crate}/specs/{it[0].file.module}.antt`" for it in of_kit]
    types = [it for it in whole.types() if not it.file.is_ours]
    types = [f"`{it.name}` (`{it.file.path.relative_to(sources.kit)}`, {it.first})" for it in types]
    parts = {
        "totals": table(["to believe", "modules", "definitions", "lines", "types", "lines"], totals),
        "of_kit": f"In the kit, {count} more definitions, in {size} lines, say how `csv` reads bytes as records.",
        "run": link(run),
        "clauses": textwrap.indent(run.text, "    "),
        "laws": described("law", "what it says", laws),
        "accepted": listing(accepted, accepted.uses),
        "refused": listing(whole, read - set(accepted.uses)),
        "crates": kit_crates(sources),
        "of_csv": "\n".join(f"{it}\n\n{described('definition', 'what it says', of)}" for it, of in zip(files, of_kit)),
        "types": filled(f"Types: {', '.join(types)}.").rstrip("\n"),
        "words": words(whole.outside),
        "others": "".join(other_promise(sources, *it, whole.uses) for it in others).rstrip("\n"),
    }
    return Template((HERE / "page.md").read_text(encoding="utf-8")).substitute(parts)


def check(page):
    """Shows where the page that is there differs; the status of the program."""
    found = PAGE.read_text(encoding="utf-8") if PAGE.exists() else ""
    names = ("docs/TRUST.md", "what it should be")
    differences = list(difflib.unified_diff(found.split("\n"), page.split("\n"), *names, lineterm="", n=0))
    if differences:
        print("docs/TRUST.md is out of date: run `make trust`", *differences[:40], sep="\n")
    return 1 if differences else 0


def why(sources, name):
    """Prints a chain of definitions from the headline's contract to this one."""
    contracts = next(iter(promises(sources).values()))
    chain = Reading(sources, contracts).chain_to(name, contracts)
    for it in chain:
        print(f"{it.name}  {os.path.relpath(it.file.path, ROOT if it.file.is_ours else sources.kit)}:{lines_of(it)}")
    if not chain:
        print(f"the headline does not rest on {name}")
    return 0 if chain else 1


def kit_folder():
    """The folder of the kit's crates and guides."""
    if named := os.environ.get("RATTLE_KIT"):
        return Path(named) / "rattle"
    try:
        printed = subprocess.run(["rt", "doc"], capture_output=True, text=True, check=True).stdout
    except (OSError, subprocess.CalledProcessError):
        sys.exit("reading_list: cannot find the kit: `rt doc` failed, and RATTLE_KIT is not set")
    return Path(printed.strip()).parent / "rattle"


def main():
    parser = argparse.ArgumentParser(prog="reading_list", description="Writes docs/TRUST.md.")
    parser.add_argument("--check", action="store_true", help="compare the page and write nothing")
    parser.add_argument("--why", metavar="NAME", help="show how the headline comes to rest on a definition")
    arguments = parser.parse_args()
    try:
        sources = Sources(ROOT, kit_folder())
        if arguments.why:
            return why(sources, arguments.why)
        page = page_of(sources)
    except Untraced as error:
        sys.exit(f"reading_list: {error}")
    if arguments.check:
        return check(page)
    PAGE.write_text(page, encoding="utf-8")
    return 0


if __name__ == "__main__":
    sys.exit(main())
