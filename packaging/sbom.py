#!/usr/bin/env python3
"""Prints the bill of materials of the packages in a folder, in the form SPDX 2.3 (JSON).

    python3 packaging/sbom.py dist

It has each file with its checksum, the crates of the Rattle kit whose code is compiled into them (packaging/notices.py),
and what each says on its license. Debian 12 has no tool that makes such a file.
"""
from __future__ import annotations

import hashlib
import json
import subprocess
import sys
import time
from pathlib import Path
from typing import Any
from uuid import NAMESPACE_URL, uuid5

from notices import ROOT, all_notices, name_of

#: What is listed with its license text, since SPDX has no such license.
OURS = "LicenseRef-none-chosen"


def said_by(script: str, option: str) -> str:
    """What a script in this folder says."""
    return subprocess.check_output(["sh", str(ROOT / "packaging" / script), option], text=True).strip()


def digest(file: Path, name: str) -> str:
    """A checksum of a file."""
    return hashlib.new(name, file.read_bytes()).hexdigest()


def file_entry(file: Path) -> dict[str, Any]:
    """A file, with the checksums that SPDX wants."""
    return {
        "SPDXID": f"SPDXRef-File-{digest(file, 'sha1')}",
        "fileName": f"./{file.name}",
        "checksums": [{"algorithm": name.upper(), "checksumValue": digest(file, name)} for name in ("sha1", "sha256")],
        "licenseConcluded": "NOASSERTION",
        "copyrightText": "NOASSERTION",
    }


def package_entry(name: str, version: str, declared: str) -> dict[str, Any]:
    """A package, ours or a crate of the kit."""
    return {
        "SPDXID": f"SPDXRef-Package-{name.replace('_', '-')}",
        "name": name,
        "versionInfo": version,
        "downloadLocation": "NOASSERTION",
        "filesAnalyzed": False,
        "licenseConcluded": "NOASSERTION",
        "licenseDeclared": declared,
        "copyrightText": "NOASSERTION",
    }


def main() -> None:
    version, commit = said_by("version.sh", "--debian"), said_by("sources.sh", "--commit")
    made = time.strftime("%Y-%m-%dT%H:%M:%SZ", time.gmtime(int(said_by("sources.sh", "--date"))))
    kit = subprocess.check_output(["rt", "version"], text=True).split("\n")[0].strip()
    notices = all_notices(in_debian=False)
    texts = {f"LicenseRef-{name_of(notice, crates)}": notice for notice, crates in notices.items()}
    licenses: dict[str, list[str]] = {}
    for notice, crates in notices.items():
        for crate in crates:
            licenses.setdefault(crate, []).append(f"LicenseRef-{name_of(notice, crates)}")
    ours = package_entry("township", version, OURS)
    crates = [package_entry(name, f"in {kit}", " AND ".join(sorted(of))) for name, of in sorted(licenses.items())]
    files = [file_entry(file) for file in sorted(Path(sys.argv[1]).iterdir()) if file.is_file()]
    document = {
        "spdxVersion": "SPDX-2.3",
        "dataLicense": "CC0-1.0",
        "SPDXID": "SPDXRef-DOCUMENT",
        "name": f"township-{version}",
        "documentNamespace": f"https://spdx.org/spdxdocs/township-{uuid5(NAMESPACE_URL, commit + version)}",
        "creationInfo": {"created": made, "creators": ["Tool: packaging/sbom.py"]},
        "comment": f"Made from the commit {commit}.",
        "packages": [ours, *crates],
        "files": files,
        "hasExtractedLicensingInfos": [
            {"licenseId": name, "extractedText": text}
            for name, text in sorted({**texts, OURS: (ROOT / "LICENSE").read_text(encoding="utf-8")}.items())
        ],
        "relationships": [
            {"spdxElementId": "SPDXRef-DOCUMENT", "relationshipType": "DESCRIBES", "relatedSpdxElement": ours["SPDXID"]},
            *(
                {"spdxElementId": crate["SPDXID"], "relationshipType": "STATIC_LINK", "relatedSpdxElement": ours["SPDXID"]}
                for crate in crates
            ),
            *(
                {"spdxElementId": ours["SPDXID"], "relationshipType": "CONTAINS", "relatedSpdxElement": file["SPDXID"]}
                for file in files
            ),
        ],
    }
    print(json.dumps(document, indent=1, ensure_ascii=False))


if __name__ == "__main__":
    main()
