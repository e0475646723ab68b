#!/usr/bin/env python3
"""Prints the notices of the crates of the Rattle kit that are compiled into the program and the library.

    python3 packaging/notices.py [--debian]

Which crates these are follows from crates.txt, and from what the kit says that each of its crates carries. If a
crate offers a choice of licenses, the MIT license is the one that is taken. With --debian, it prints the file `copyright`
of the Debian packages in its machine-readable form (DEP-5), with what LICENSE says; the text of a license that every
Debian system has is replaced with its place there, as Debian's policy wants.
"""

import shutil
import subprocess
import sys
from pathlib import Path

ROOT = Path(__file__).resolve().parent.parent
#: What is packaged: the program, and the library.
PACKAGED = ("twp_cmd", "twp_c")
#: The first words of a license that every Debian system has, and where it is there.
APACHE = "Apache License\n                        Version 2.0"
APACHE_IN_DEBIAN = """\
Licensed under the Apache License, version 2.0. On Debian systems, its text is in the file
/usr/share/common-licenses/Apache-2.0."""
HEADING = """\
Notices of third parties

The program and the library contain code of the following crates, which the Rattle kit ports from Rust.
"""


def kit_folder() -> Path:
    """The folder of the kit, which has the page that `rt doc` names."""
    if shutil.which("rt") is None:
        sys.exit("there is no rt on the path: install the Rattle kit")
    return Path(subprocess.check_output(["rt", "doc"], text=True).strip()).parent


def dependencies() -> dict[str, list[str]]:
    """The crates of this repository, each with those that it depends on."""
    crates = {}
    for line in (ROOT / "crates.txt").read_text(encoding="utf-8").splitlines():
        if ":" in line and not line.startswith("#"):
            name, below = line.split(":", 1)
            crates[name.split()[0]] = below.split()
    return crates


def kit_crates_of(packaged: str, crates: dict[str, list[str]]) -> set[str]:
    """The crates of the kit that a crate of this repository depends on, directly or through others of them."""
    found: set[str] = set()
    seen: set[str] = set()
    left = [packaged]
    while left:
        name = left.pop()
        if name in seen:
            continue
        seen.add(name)
        if name in crates:
            left += crates[name]
        else:
            found.add(name)
    return found


def carried_by(crate: str, kit: Path) -> list[str]:
    """The crates whose code a crate of the kit carries, itself included, as the kit says."""
    lines = (kit / "rlibs" / f"{crate}.rlib" / "format").read_text(encoding="utf-8").splitlines()
    return [line.split()[1] for line in lines if line.startswith("carries ")]


def licenses_of(crate: str, kit: Path) -> list[Path]:
    """The files with the notices of a crate of the kit."""
    files = sorted((kit / "rattle" / crate).glob("LICENSE*"))
    if not files:
        sys.exit(f"the kit's crate {crate} has no file LICENSE*: find out on what terms it may be passed on")
    if any(file.name == "LICENSE-MIT" for file in files):
        return [file for file in files if file.name != "LICENSE-APACHE"]
    return files


def text_of(file: Path, in_debian: bool) -> str:
    """The text of a notice, or where Debian has it."""
    text = file.read_text(encoding="utf-8").strip()
    return APACHE_IN_DEBIAN if in_debian and text.startswith(APACHE) else text


def all_notices(in_debian: bool) -> dict[str, list[str]]:
    """The notices, each with the crates that share it."""
    kit = kit_folder()
    crates = dependencies()
    direct = set().union(*(kit_crates_of(packaged, crates) for packaged in PACKAGED))
    carried = sorted({name for crate in direct for name in carried_by(crate, kit)})
    notices: dict[str, list[str]] = {}
    for crate in carried:
        for file in licenses_of(crate, kit):
            notices.setdefault(text_of(file, in_debian), []).append(crate)
    return notices


def name_of(notice: str, crates: list[str]) -> str:
    """The name of a license: the notices of crates differ in more than their holders."""
    if "UNICODE LICENSE V3" in notice:
        return "Unicode-3.0"
    return "Apache-2.0" if "Apache License" in notice else f"MIT-{crates[0]}"


def holders_in(notice: str) -> list[str]:
    """The copyright holders that a notice names."""
    lines = (line.strip() for line in notice.splitlines())
    return [line for line in lines if line.startswith(("Copyright (c)", "Copyright ©"))]


def field(name: str, first: str, lines: list[str]) -> str:
    """A field of several lines."""
    return "\n".join([f"{name}: {first}".rstrip(), *(f" {line}" if line.strip() else " ." for line in lines)])


def print_debian(notices: dict[str, list[str]]) -> None:
    """Print the file `copyright` of the Debian packages."""
    license_text = (ROOT / "LICENSE").read_text(encoding="utf-8").strip()
    names = {notice: name_of(notice, crates) for notice, crates in notices.items()}
    holders = sorted({holder for notice in notices for holder in holders_in(notice)})
    comment = [f"{', '.join(crates)}: {names[notice]}" for notice, crates in notices.items()]
    print("Format: https://www.debian.org/doc/packaging-manuals/copyright-format/1.0/\nUpstream-Name: township\n")
    print("Files: *\nCopyright: the authors of township")
    print(field("License", "none-chosen", license_text.splitlines()) + "\n")
    print("Files: township lib/*")
    print(field("Copyright", "the authors of township", holders))
    print("License: " + " and ".join(["none-chosen", *names.values()]))
    print(field("Comment", "These contain code of crates that the Rattle kit ports from Rust:", comment) + "\n")
    for notice, name in names.items():
        print(field("License", name, notice.splitlines()) + "\n")


def main() -> None:
    in_debian = sys.argv[1:] == ["--debian"]
    notices = all_notices(in_debian)
    if in_debian:
        print_debian(notices)
        return
    print(HEADING)
    for notice, names in notices.items():
        print(f"{'-' * 80}\n{', '.join(names)}\n\n{notice}\n")


if __name__ == "__main__":
    main()
