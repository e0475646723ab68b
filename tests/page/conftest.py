"""The server that is tested, and the browser: `python3 -m pytest tests/page`."""
from __future__ import annotations

import contextlib
import os
import re
import shutil
import subprocess
import sys
import time
from pathlib import Path
from typing import Iterator, List, Sequence

import pytest

from asking import Interface
from page import Page
from wire import complete

TOP = Path(__file__).resolve().parents[2]


def pytest_addoption(parser: pytest.Parser) -> None:
    parser.addoption("--keep-pictures", action="store_true", help="write the pictures of the page anew")


@pytest.fixture(scope="session")
def server(tmp_path_factory: pytest.TempPathFactory) -> Iterator[Interface]:
    """The server, on a free port."""
    with started(tmp_path_factory.mktemp("server") / "said") as interface:
        yield interface


@contextlib.contextmanager
def started(said: Path, port: int = 0, program: Sequence[str] = ("-m", "township")) -> Iterator[Interface]:
    """A server that runs meanwhile, on this port or on a free one. What it prints is in a file."""
    command = [sys.executable, *program, "serve", "--port", str(port)]
    environment = {**os.environ}
    environment.setdefault("PYTHONPATH", str(TOP / "bindings" / "python" / "src"))
    environment.setdefault("TOWNSHIP_LIBRARY", str(TOP / "lib" / "libtownship.so"))
    with said.open("wb") as file, subprocess.Popen(command, stderr=file, env=environment) as process:
        try:
            yield Interface(port_in(said), process.pid, said)
        finally:
            process.terminate()


@pytest.fixture(scope="module")
def office(tmp_path_factory: pytest.TempPathFactory) -> Iterator[Interface]:
    """A server of its own."""
    with started(tmp_path_factory.mktemp("office") / "said") as interface:
        yield interface


@pytest.fixture(scope="module")
def slow(tmp_path_factory: pytest.TempPathFactory) -> Iterator[Interface]:
    """A server with answers that never end."""
    program = [str(Path(__file__).with_name("slow.py"))]
    with started(tmp_path_factory.mktemp("slow") / "said", program=program) as interface:
        complete(interface)
        yield interface


def port_in(said: Path) -> int:
    """Wait for the address that the server prints, and return its port. A busy machine takes its time."""
    for _ in range(1200):
        found = re.match(r"township: http://127\.0\.0\.1:([0-9]+)/ ", said.read_text())
        if found:
            return int(found[1])
        time.sleep(0.05)
    raise AssertionError(said.read_text())


@pytest.fixture(scope="session")
def driver(tmp_path_factory: pytest.TempPathFactory) -> Iterator[object]:
    """A browser without a window, which saves files in a folder of its own."""
    webdriver = pytest.importorskip("selenium.webdriver")
    if shutil.which("chromium") is None or shutil.which("chromedriver") is None:
        pytest.skip("chromium and chromium-driver are not installed")
    from selenium.webdriver.chrome.service import Service

    options = webdriver.ChromeOptions()
    options.binary_location = shutil.which("chromium")
    for word in _words():
        options.add_argument(word)
    downloads = tmp_path_factory.mktemp("downloads")
    options.add_experimental_option("prefs", {"download.default_directory": str(downloads)})
    options.set_capability("goog:loggingPrefs", {"browser": "ALL", "performance": "ALL"})
    driver = webdriver.Chrome(service=Service(shutil.which("chromedriver")), options=options)
    driver.downloads = downloads
    try:
        yield driver
    finally:
        driver.quit()


def _words() -> List[str]:
    words = ["--headless=new", "--window-size=1280,1000", "--disable-gpu", "--disable-dev-shm-usage"]
    words += ["--disable-background-networking", "--disable-component-update", "--no-first-run"]
    # Chromium refuses its sandbox to root.
    return words + (["--no-sandbox"] if os.geteuid() == 0 else [])


@pytest.fixture
def first(server: Interface, driver: object) -> Page:
    """The page as it is opened for the first time."""
    page = Page(driver, server)
    page.open_afresh()
    return page


@pytest.fixture
def page(first: Page) -> Page:
    """The page with a nominal township."""
    first.start_nominal()
    return first
