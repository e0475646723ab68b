"""Each run of each row in the folder `rows`."""
from __future__ import annotations

from pathlib import Path

import pytest

from rows import Run, all_runs, tables
from running import fault_of


@pytest.mark.parametrize("run", all_runs(tables()), ids=str)
def test_row(run: Run, program: str, folder: Path) -> None:
    fault = fault_of(program, run, folder)
    if fault:
        pytest.fail(fault, pytrace=False)
