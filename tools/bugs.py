#!/usr/bin/env python3
"""Tries the wrong bodies of all crates, or of some: `bugs.py [--lanes N] [NAME..]`.

They are in crates/NAME/must-fail, which the gate tries, and in crates/NAME/must-fail-release. This proves the crates and
the libraries that they depend on, and tries the edits over these proofs, many in one check (tools/wrong_bodies.py). A
name may also be that of one edit, such as twp_grid/lot_count_of_section_six.

Some wrong bodies can't be refused by any contract, such as one that answers that memory ran out. Those are listed,
as lines `EDIT: REASON`, in the file let-through beside them. They must still be let through, and don't count.

What it says of each edit is also in the file bugs.log. The last line is `N refused, 0 let through`. The status is 1 if an
edit was let through that isn't listed, if a listed one is refused, or if one could not be tried.

What an edit came to is kept in the folder .bugs, under the checksum of all that it rests on: these scripts, the kit, the
sources, definitions, and proofs of the crate and of those below it, and the edit. So only what has changed is tried again;
with --anew, all of them are.

At most N checks run at a time; without --lanes, as many as there are processors and memory for.

tools/edits.py names the edits that don't fit the code any more.
"""
import argparse
import concurrent.futures
import functools
import hashlib
import json
import os
import pathlib
import re
import subprocess
import sys
import threading

import wrong_bodies
from edits import FOLDERS, LIST, ROOT
from kit import loaded_rt

# The scripts that decide what is said of an edit.
TOOL = ("bugs.py", "edits.py", "kit.py", "wrong_bodies.py")
LOG = ROOT / "bugs.log"
STORE = ROOT / ".bugs"
# The most memory that a check takes, in bytes; for some crates it is half as much.
MEMORY = 3_000_000_000
ENDED = re.compile(r"must-fail (\w+)/(\S+)\.edit: (refused|NOT REFUSED|BAD EDIT|NOT TRIED)")
# What stays so wherever the same is tried.
SETTLED = ("refused", "NOT REFUSED")


def edits_of(crate):
    """The edits of a crate: the file of each, by its name."""
    files = (it for folder in FOLDERS for it in (ROOT / "crates" / crate / folder).glob("*.edit"))
    return {it.stem: it for it in sorted(files, key=lambda it: it.name)}


def crates():
    return sorted({it.parent.name for folder in FOLDERS for it in (ROOT / "crates").glob(f"*/{folder}")})


def chosen(names):
    """The edits to try, by their crate."""
    found = {}
    for name in names or crates():
        crate, _, edit = name.partition("/")
        edits = [edit.removesuffix(".edit")] if edit else list(edits_of(crate))
        if not edits or any(it not in edits_of(crate) for it in edits):
            sys.exit(f"bugs.py: there is no such edit: {crate}/{edit or '*'}")
        found.setdefault(crate, []).extend(it for it in edits if it not in found.get(crate, []))
    return found


def listed():
    """The edits that are known to be let through, as CRATE/EDIT."""
    found = set()
    for crate in crates():
        file = ROOT / "crates" / crate / FOLDERS[1] / LIST
        for line in file.read_text().splitlines() if file.is_file() else []:
            edit, _, reason = line.partition(": ")
            if edit not in edits_of(crate) or not reason.strip():
                sys.exit(f"bugs.py: {file.relative_to(ROOT)} has lines `EDIT: REASON`, of edits beside it: {line}")
            found.add(f"{crate}/{edit}")
    return found


def prove(names):
    """Proves crates, and the libraries that they depend on."""
    command = [sys.executable, str(ROOT / "tools" / "prove.py"), *names]
    if subprocess.run(command, stdout=subprocess.DEVNULL, check=False).returncode:
        sys.exit("bugs.py: not all crates are proved")


def lanes():
    """How many checks can run at a time."""
    with open("/proc/meminfo", encoding="ascii") as it:
        free = int(re.search(r"MemAvailable:\s+(\d+) kB", it.read())[1]) * 1024
    return max(1, min(os.cpu_count() or 1, free // MEMORY))


class Verdicts:
    """What edits came to in earlier runs, each in a file whose name is the checksum of all that this rests on."""

    def __init__(self, store, kit, anew):
        self.store, self.anew = store, anew
        texts = [(ROOT / "tools" / it).read_bytes() for it in TOOL]
        self.tool = hashlib.sha256(repr((kit, texts)).encode()).hexdigest()

    @functools.lru_cache(maxsize=None)
    def sum_of(self, crate):
        """The checksum of a crate, and of those below it."""
        folder = pathlib.Path(crate.folder)
        files = sorted(it for part in ("src", "specs", "proofs") for it in (folder / part).rglob("*") if it.is_file())
        own = [(str(it.relative_to(folder)), it.read_bytes()) for it in files]
        below = [(it.name, self.sum_of(it)) for it in crate.deps]
        return hashlib.sha256(repr((crate.name, own, list(crate.of_kit), below)).encode()).hexdigest()

    def file_of(self, crate, edit):
        # Whether it is in one folder or the other makes no difference.
        all_of_it = (self.tool, self.sum_of(crate), edit.stem, edit.read_bytes())
        return self.store / hashlib.sha256(repr(all_of_it).encode()).hexdigest()

    def said(self, crate, edit):
        """What was said of an edit, or None if it wasn't tried, or is to be tried again."""
        try:
            found = None if self.anew else json.loads(self.file_of(crate, edit).read_text(encoding="utf-8"))
        except (OSError, ValueError):
            return None
        return found if isinstance(found, str) and result_of(found) in SETTLED else None

    def keep(self, crate, edit, said):
        if result_of(said) in SETTLED:
            file = self.file_of(crate, edit)
            self.store.mkdir(exist_ok=True)
            new = file.with_suffix(f".{os.getpid()}")
            new.write_text(json.dumps(said), encoding="utf-8")
            new.replace(file)


def result_of(said):
    """What a text says of an edit, in a word or two."""
    found = ENDED.search(said)
    return found and found[3]


def tried(edits, known, many, anew, tell):
    """Tries the edits, several crates at a time, and returns the result of each, by CRATE/EDIT."""
    rt = loaded_rt("rtlib.guarded", "rtlib.crates_below", *wrong_bodies.NEEDED)
    if rt is None:
        sys.exit("bugs.py: this kit's rt can't be used for that; `rt must-fail` tries edits that are in must-fail/")
    # Only the main thread may start the kit's guard.
    rt.rtlib.guarded()
    found = {it.name: it for it in rt.rtlib.crates_below(str(ROOT))}
    verdicts, alone, results = Verdicts(STORE, version(), anew), threading.Lock(), {}

    def one(name):
        crate, files = found[name], [edits_of(name)[it] for it in edits[name]]
        told = {it: said for it in files if (said := verdicts.said(crate, it))}
        left = [it for it in files if it not in told]
        if left:
            kept = ROOT / "crates" / name / "out" / "incremental"
            through = [str(it) for it in left if f"{name}/{it.stem}" in known]
            words = [str(it) for it in left], ["--jobs", "1"], kept if kept.is_dir() else None, through
            told.update(zip(left, [said for _, said in wrong_bodies.must_fail_all(rt, crate, *words)]))
        with alone:
            for it in files:
                tell(told[it])
                results[f"{name}/{it.stem}"] = result_of(told[it])
                verdicts.keep(crate, it, told[it])

    # Crates with the most edits come first, so that none of them runs alone at the end.
    with concurrent.futures.ThreadPoolExecutor(many) as pool:
        list(pool.map(one, sorted(edits, key=lambda it: -len(edits[it]))))
    return results


def version():
    """The kit, as it names itself."""
    return subprocess.run(["rt", "version"], capture_output=True, text=True, check=True).stdout.strip()


def given(words):
    """The command line's options and names."""
    parser = argparse.ArgumentParser(prog="bugs.py", usage="%(prog)s [--anew] [--lanes N] [NAME ...]")
    parser.add_argument("--anew", action="store_true")
    parser.add_argument("--lanes", type=int, metavar="N")
    parser.add_argument("names", nargs="*", metavar="NAME")
    options = parser.parse_args(words)
    if options.lanes is not None and options.lanes < 1:
        parser.error("--lanes needs a number of at least 1")
    return options


def main(words):
    options = given(words)
    edits, known = chosen(options.names), listed()
    prove(edits)
    with open(LOG, "w", encoding="utf-8") as log:

        def tell(line):
            print(line, flush=True)
            print(line, file=log, flush=True)

        tell(f"The wrong bodies of {', '.join(options.names) or 'all crates'}, with {version()}")
        results = tried(edits, known, options.lanes or lanes(), options.anew, tell)
        return ended(edits, known, results, tell)


def ended(edits, known, results, tell):
    """Tells what the edits came to, and returns the status."""
    every = [f"{crate}/{edit}" for crate, names in edits.items() for edit in names]
    refused = [it for it in every if results.get(it) == "refused" and it not in known]
    through = [it for it in every if results.get(it) == "NOT REFUSED" and it not in known]
    untried = [it for it in every if results.get(it) not in SETTLED]
    stale = [it for it in every if results.get(it) == "refused" and it in known]
    told = {"let through": through, "not tried, or bad": untried, f"listed in {LIST}, but refused": stale}
    for what, found in told.items():
        for it in found:
            tell(f"{what}: {it}")
    tell(f"{len(refused)} refused, {len(through)} let through")
    return 1 if through or untried or stale else 0


if __name__ == "__main__":
    sys.exit(main(sys.argv[1:]))
