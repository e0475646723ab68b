#!/usr/bin/env python3
"""Checks that each wrong body fits the code, and that the named ones are tried: `python3 tools/edits.py`.

The wrong bodies of a crate are edits in its folder must-fail, which every run of the tests tries, and in
must-fail-release, which `make bugs` tries. An edit has a line `file:` and pairs of lines `old:` and `new:`. It fits if
each old text is in its file exactly once; one that doesn't isn't tried any more. Its name begins with the module of a
file that it changes: `heading_` or `usual_heading_` for src/usual/heading.rt. No two edits of a crate have the same
name or the same text. Beside those for releases, the file let-through names those that no contract refuses, each with
its reason.

tests/named-wrong-bodies.tsv lists the wrong bodies that the proofs must refuse in any case: what each does, and its
edits, which must be in must-fail, or the tests that refuse it, each as a file and a text that is in it.

It prints what is wrong. The status is 1 if anything is.
"""
import os.path
import re
import sys
from pathlib import Path

ROOT = Path(__file__).resolve().parent.parent
FOLDERS = ("must-fail", "must-fail-release")
# What may be beside the edits: notes, and for releases the list of those that no contract refuses.
LIST = "let-through"
BESIDE = {"must-fail": r".*\.md", "must-fail-release": rf".*\.md|{LIST}"}
NAME = re.compile(r"[A-Za-z0-9_-][A-Za-z0-9_.-]*\.edit")
SOURCES = ("src/", "specs/", "proofs/")
NAMED = "tests/named-wrong-bodies.tsv"
COLUMNS = ["wrong body", "edits", "tests"]


def misfit(text, crate):
    """Why an edit can't be applied to the files of a crate, or None if it can. The kit applies it by the same rules."""
    path, old, texts = "", None, {}
    for line in text.split("\n"):
        word, _, rest = line.partition(":")
        if line.startswith("file: "):
            path = rest.strip()
            if os.path.normpath(path) != path or not path.startswith(SOURCES):
                return f"{path} is not a file of src/, specs/, or proofs/"
        elif line.startswith("old: "):
            old = rest[1:]
        elif word == "new":
            if not path or not old:
                return "a line `new:` comes before `file:` or `old:`"
            if path not in texts and not (crate / path).is_file():
                return f"there is no file {path}"
            before = texts.get(path) or (crate / path).read_text(encoding="utf-8")
            if before.count(old) != 1:
                return f"{path} has {before.count(old)} times: {old}"
            texts[path] = before.replace(old, rest.removeprefix(" "))
            old = None
    changed = [it for it, new in texts.items() if new != (crate / it).read_text(encoding="utf-8")]
    return None if changed else "it changes nothing"


def has_modules_name(stem, text):
    """Whether the name of an edit begins with the module of a file that it changes, with or without its folders."""
    modules = [Path(it.strip()).with_suffix("").parts[1:] for it in re.findall(r"(?m)^file: (.*)$", text)]
    return any(stem.startswith("_".join(it[at:]) + "_") for it in modules for at in range(len(it)))


def misfits(root):
    """What is wrong with the edits of all crates."""
    seen = {}
    for folder in sorted(it for name in FOLDERS for it in root.glob(f"crates/*/{name}")):
        crate = folder.parent
        for file in sorted(folder.iterdir()):
            name = f"{crate.name}/{folder.name}/{file.name}"
            if NAME.fullmatch(file.name) and file.is_file():
                text = file.read_text(encoding="utf-8")
                same = {seen.setdefault((crate, it), name) for it in (text, file.name)} - {name}
                if why := misfit(text, crate) or (same and f"its name or its text is that of {same.pop()}, too"):
                    yield f"{name}: {why}"
                elif not has_modules_name(file.stem, text):
                    yield f"{name}: its name doesn't begin with the module of a file that it changes"
            elif not re.fullmatch(BESIDE[folder.name], file.name):
                yield f"{name}: an edit has a name of letters, digits, `_`, `-`, and `.`, which ends in .edit"
            elif file.name == LIST:
                for line in file.read_text(encoding="utf-8").splitlines():
                    edit, _, reason = line.partition(": ")
                    if not (folder / f"{edit}.edit").is_file() or not reason.strip():
                        yield f"{name}: it has lines `EDIT: REASON`, of edits beside it: {line}"


def lacking(root):
    """What the list of named wrong bodies has that isn't there."""
    heading, *rows = [line.split("\t") for line in (root / NAMED).read_text(encoding="utf-8").splitlines()]
    if heading != COLUMNS or not rows:
        yield f"{NAMED}: the heading is not {', '.join(COLUMNS)}, or there are no rows"
        return
    seen = set()
    for row in rows:
        body, edits, tests = (row + ["", ""])[:3]
        if len(row) > 3 or not (edits or tests) or body in seen:
            yield f"{NAMED}: {body}: it has no edit and no test, or is there twice"
        seen.add(body)
        for crate, _, edit in (it.partition("/") for it in edits.split()):
            if not (root / "crates" / crate / FOLDERS[0] / f"{edit}.edit").is_file():
                yield f"{NAMED}: {body}: there is no crates/{crate}/{FOLDERS[0]}/{edit}.edit"
        for test in filter(None, tests.split("; ")):
            path, _, text = test.partition(": ")
            if not text or not (root / path).is_file() or text not in (root / path).read_text(encoding="utf-8"):
                yield f"{NAMED}: {body}: {path} has no text: {text}"


def main():
    if sys.argv[1:]:
        sys.exit("usage: python3 tools/edits.py")
    found = [*misfits(ROOT), *lacking(ROOT)]
    print("\n".join(found), end="\n" if found else "")
    return 1 if found else 0


if __name__ == "__main__":
    sys.exit(main())
