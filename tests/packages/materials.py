#!/usr/bin/env python3
"""Tests the bill of materials of the packages in a folder: that it lists each file with its checksum, and each crate of the
kit that NOTICES lists, with a license whose text it has.

    python3 tests/packages/materials.py dist NOTICES

The last line is 'N passed, M failed'.
"""
from __future__ import annotations

import hashlib
import json
import sys
from pathlib import Path

from comparisons import ended, same

#: These are made after the bill, or are the bill.
NOT_LISTED = (".spdx.json", "BUILDINFO", "SHA256SUMS")


folder, notices = map(Path, sys.argv[1:])
bill, = folder.glob("*.spdx.json")
document = json.loads(bill.read_text(encoding="utf-8"))
same("the form", ["SPDX-2.3", "CC0-1.0", "SPDXRef-DOCUMENT"], [document[k] for k in ("spdxVersion", "dataLicense", "SPDXID")])

listed = {
    file["fileName"]: next(each["checksumValue"] for each in file["checksums"] if each["algorithm"] == "SHA256")
    for file in document["files"]
}
there = {
    f"./{file.name}": hashlib.sha256(file.read_bytes()).hexdigest()
    for file in folder.iterdir()
    if not file.name.endswith(NOT_LISTED)
}
same("the files", there, listed)

blocks = notices.read_text(encoding="utf-8").split("-" * 80 + "\n")[1:]
crates = {name for block in blocks for name in block.splitlines()[0].split(", ")}
same("the crates of the kit", {"township", *crates}, {package["name"] for package in document["packages"]})
named = {each for package in document["packages"] for each in package["licenseDeclared"].split(" AND ")}
same("the licenses", named, {each["licenseId"] for each in document["hasExtractedLicensingInfos"]})
same("texts of licenses", True, all(each["extractedText"].strip() for each in document["hasExtractedLicensingInfos"]))
identifiers = [entry["SPDXID"] for entry in [document, *document["packages"], *document["files"]]]
same("identifiers are unique", len(identifiers), len(set(identifiers)))
ends = {each[end] for each in document["relationships"] for end in ("spdxElementId", "relatedSpdxElement")}
same("relationships are between what is listed", set(), ends - set(identifiers))
ended()
