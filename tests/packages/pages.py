#!/usr/bin/env python3
"""Follows what the texts in packages name: each page, such as `docs/BATCH.md`, and each example and sample, such as
`samples/b1.csv`, must be in the package, or in one that it depends on. The packages are unpacked, each into a folder of
its own that has its name (packaging/unpacked.sh).

    python3 tests/packages/pages.py UNPACKED

The texts are the documents, man pages, headers, and scripts, and the sources in Python and Rust. No README may begin its
first instruction in a repository that the reader doesn't have. The last line is 'N passed, M failed'.
"""
from __future__ import annotations

import re
import sys
from pathlib import Path
from typing import Dict, Iterator, List, Set

#: A page that a text names: in docs/, or in capitals alone.
PAGE = re.compile(r"(?<![\w/])(?:docs/)?([A-Z][A-Z-]+[.]md)\b")
#: An example or a sample that a text names.
EXAMPLE = re.compile(r"(?<![\w/])((?:examples|samples)/\w+[.]\w+)")
#: What is read, besides the documents.
SOURCES = {".1", ".c", ".css", ".h", ".html", ".js", ".json", ".md", ".py", ".rs", ".sql"}
#: An archive of the sources, also that of the Debian source package, has all pages.
SOURCES_OF = re.compile(r".*-source[.]tar[.]gz|township_.*[.](tar[.]gz|dsc)")


def texts_of(folder: Path) -> Iterator[Path]:
    """The texts in a package."""
    for file in folder.rglob("*"):
        if file.is_file() and not file.is_symlink() and "DEBIAN" not in file.parts:
            if file.suffix in SOURCES or "doc" in file.parts or file.name == "METADATA":
                yield file


def needed_by(folder: Path) -> Set[str]:
    """The names of the packages that a Debian package depends on."""
    control = folder / "DEBIAN" / "control"
    if not control.exists():
        return set()
    unfolded = re.sub(r"\n ", " ", control.read_text(encoding="utf-8"))
    depends = re.search(r"^Depends: (.*)$", unfolded, re.M)
    return set(re.findall(r"([a-z0-9.+-]+)(?: \([^)]*\))?(?:,|$)", depends[1])) if depends else set()


def main() -> int:
    folders = sorted(folder for folder in Path(sys.argv[1]).iterdir() if folder.is_dir())
    by_name: Dict[str, Path] = {folder.name.split("_")[0]: folder for folder in folders if folder.suffix == ".deb"}
    passed = 0
    wrong: List[str] = []
    for folder in folders:
        if SOURCES_OF.fullmatch(folder.name):
            continue
        there = [folder, *(by_name[name] for name in sorted(needed_by(folder)) if name in by_name)]
        has = {file.name for each in there for file in each.rglob("*.md")}
        # A folder may be a link to another one, which rglob doesn't follow.
        has |= {f"{name}/{file.name}" for each in there for name in ("examples", "samples")
                for found in each.rglob(name) if found.is_dir() for file in found.iterdir()}
        for text in texts_of(folder):
            words = text.read_text(encoding="utf-8", errors="replace")
            for page in sorted({*PAGE.findall(words), *EXAMPLE.findall(words)}):
                if page in has:
                    passed += 1
                else:
                    wrong.append(f"{folder.name}: {text.relative_to(folder)} names {page}, which isn't there")
            if text.name in ("README.md", "METADATA"):
                first = re.search(r"^## .*\n+(.*)", words, re.M)
                if first and first[1].startswith("In the repository"):
                    wrong.append(f"{folder.name}: {text.relative_to(folder)} begins in the repository")
                else:
                    passed += 1
    print("".join(f"FAILED: {each}\n" for each in wrong), end="")
    print(f"{passed} passed, {len(wrong)} failed")
    return 1 if wrong or not passed else 0


if __name__ == "__main__":
    sys.exit(main())
