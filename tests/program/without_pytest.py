#!/usr/bin/env python3
"""Runs the rows on files, on a machine without pytest and with any Python from 3.9: `without_pytest.py PROGRAM ROWS`.
ROWS is a file that `rows.py` wrote elsewhere. The last line is 'N passed, M failed'."""
from __future__ import annotations

import json
import sys
import tempfile
from pathlib import Path

from rows import Way, all_runs
from running import fault_of


def main() -> int:
    program, rows = sys.argv[1:]
    runs = [run for run in all_runs(json.loads(Path(rows).read_text(encoding="utf-8"))) if run.way is Way.FILES]
    with tempfile.TemporaryDirectory() as folder:
        faults = [fault_of(program, run, Path(folder)) for run in runs]
    failed = [fault for fault in faults if fault]
    for fault in failed:
        print(f"FAILED: {fault}")
    print(f"{len(runs) - len(failed)} passed, {len(failed)} failed")
    return 1 if failed else 0


if __name__ == "__main__":
    sys.exit(main())
