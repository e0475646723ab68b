#!/usr/bin/env python3
"""Tests the fields of Debian packages that decide what apt does: their versions, and what they depend on, where a package
that the test images have anyway would hide that it is missing. The packages are unpacked (packaging/unpacked.sh).

    python3 tests/packages/fields.py UNPACKED VERSION

The last line is 'N passed, M failed'.
"""
from __future__ import annotations

import re
import sys
from pathlib import Path
from typing import Dict, Set

from comparisons import ended, same

#: What each package depends on. One of ours has to have the same version.
NEEDED: Dict[str, Set[str]] = {
    "township": {"libc6", "sse4.2-support", "township-doc"},
    "township-doc": set(),
    "libtownship1": {"libc6", "sse4.2-support"},
    "libtownship-dev": {"libtownship1", "township-doc"},
    "python3-township": {"libtownship1", "python3", "township-doc"},
}
SERVER = re.compile(r"postgresql-(\d+)-township")


def needed_by(name: str) -> Set[str]:
    """What a package has to depend on."""
    server = SERVER.fullmatch(name)
    if server:
        return {"libc6", f"postgresql-{server[1]}", "sse4.2-support", "township-doc"}
    return NEEDED[name]


folder, version = Path(sys.argv[1]), sys.argv[2]
for package in sorted(folder.glob("*.deb")):
    text = re.sub(r"\n ", " ", (package / "DEBIAN" / "control").read_text(encoding="utf-8"))
    fields = dict(line.split(": ", 1) for line in text.splitlines() if ": " in line)
    name = fields["Package"]
    same(f"the version of {name}", version, fields["Version"])
    same(f"the sources of {name}", "township", fields.get("Source", name))
    needed = dict(re.findall(r"([a-z0-9.+-]+)(?::any)?(?: \(([^)]*)\))?(?:, |$)", fields.get("Depends", "")))
    same(f"what {name} depends on", needed_by(name), set(needed))
    for other in sorted(set(needed) & set(NEEDED)):
        same(f"the version of {other} that {name} depends on", f"= {version}", needed[other])
    scripts = {file.name for file in (package / "DEBIAN").iterdir()} - {"control", "md5sums", "shlibs", "symbols", "triggers"}
    # Those of debhelper for compiled Python and for the service, which is not enabled.
    same(f"the scripts of {name}", {"postinst", "postrm", "prerm"} if name == "python3-township" else set(), scripts)
ended()
