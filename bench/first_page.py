"""Prints how many bytes a browser receives when it opens the page at an address for the first time.

These are its files, packed as browsers take them, and the first answers, with the drawing.
"""
from __future__ import annotations

import gzip
import json
import re
import sys
import urllib.request
from typing import Dict, Optional

#: A file that is named in the page, and one that a module names.
NAMED = re.compile(rb'(?:href|src)="(static/[a-z.]+)"|from "\./([a-z.]+)"')


def received(address: str, body: Optional[bytes] = None) -> bytes:
    """What a browser receives from an address."""
    headers = {"Accept-Encoding": "gzip", "Content-Type": "application/json"}
    with urllib.request.urlopen(urllib.request.Request(address, body, headers)) as response:
        data: bytes = response.read()
        assert response.headers["Content-Encoding"] == "gzip", address
        return data


def sizes_at(address: str) -> Dict[str, int]:
    """The size of each file and of each answer."""
    sizes: Dict[str, int] = {}
    paths = [""]
    while paths:
        path = paths.pop()
        data = received(f"{address}/{path}")
        sizes[path] = len(data)
        for file, module in NAMED.findall(gzip.decompress(data)):
            name = file.decode() or f"static/{module.decode()}"
            if name not in sizes and name not in paths:
                paths.append(name)
    shown = {"township": "T. 2 N., R. 3 W.", "draw": True, "targets": True}
    for kind, fields in (("plat", {}), ("land", {"description": "sec. 14, NE1/4."})):
        path = f"api/v1/{kind}"
        sizes[path] = len(received(f"{address}/{path}", json.dumps({**shown, **fields}).encode()))
    return sizes


if __name__ == "__main__":
    print(sum(sizes_at(sys.argv[1]).values()))
