"""The program that the rows are run on: `python3 -m pytest tests/program --program FILE`."""
from __future__ import annotations

import tempfile
from pathlib import Path
from typing import Iterator

import pytest

TOP = Path(__file__).resolve().parents[2]


def pytest_addoption(parser: pytest.Parser) -> None:
    parser.addoption("--program", default=str(TOP / "township"), help="the program to test, by default ./township")
    calls = TOP / "crates" / "twp_trials" / "out" / "twp_trials"
    parser.addoption("--calls", default=str(calls), help="the program of single calls, by default twp_trials's")


@pytest.fixture(scope="session")
def program(request: pytest.FixtureRequest) -> str:
    return str(Path(request.config.getoption("--program")).resolve(strict=True))


@pytest.fixture(scope="session")
def calls(request: pytest.FixtureRequest) -> str:
    return str(Path(request.config.getoption("--calls")).resolve(strict=True))


@pytest.fixture(scope="session")
def folder() -> Iterator[Path]:
    """An empty folder, which each test leaves empty."""
    with tempfile.TemporaryDirectory() as name:
        yield Path(name)
