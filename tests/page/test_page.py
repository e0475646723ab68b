"""The page as a whole: its drawing of a section, and what it keeps, restores, and asks again."""
from __future__ import annotations

import xml.etree.ElementTree as ET
from pathlib import Path

from asking import SAMPLES
from conftest import started
from page import Page


def test_a_section_alone(page: Page) -> None:
    page.open_section(14)
    page.wait_for_text("#drawing", "SECTION 14")
    assert page.value("#view") == "14"
    page.one("#save-drawing").click()
    saved = page.saved("plat.svg")
    assert ET.fromstring(saved).tag.endswith("svg") and "Section 14" in saved
    page.one("#view option").click()
    page.wait_for_text("#drawing", "TOWNSHIP 2 NORTH")


def test_reloading_loses_nothing(page: Page) -> None:
    page.type("#corner-53", "79.60")
    page.tab("land")
    page.type("#description", "sec. 7, lot 1.")
    page.wait_for_text("#land-answer", "acres")
    answer = page.text("#land-answer")
    page.open()
    page.wait_for_text("#land-answer", answer)
    assert page.value("#description") == "sec. 7, lot 1."
    assert page.value("#corner-53") == "79.60"


def test_what_was_replaced_comes_back(page: Page) -> None:
    """Whatever replaces a text but typing can be undone, and redone: picked readings, opened files, regular lines."""
    page.type("#corner-53", "79.60")
    page.wait_for(lambda: "W,6,7,40.00,79.60" in page.value("#notes"))
    page.settle()
    page.one("#new-notes").click()
    page.wait_for(lambda: "W,6,7,40.00,79.60" not in page.value("#notes"))
    page.one("#undo").click()
    page.wait_for(lambda: page.value("#corner-53") == "79.60")
    page.one("#redo").click()
    page.wait_for(lambda: page.value("#corner-53") == "80.00")
    page.tab("land")
    page.type("#description", "sec. 14: NE¼NE¼ SW¼SW¼")
    page.wait_for_text("#readings", "Which was meant?")
    page.one("#readings button").click()
    page.wait_for_text("#land-answer", "80.00 acres")
    page.one("#undo").click()
    page.wait_for_text("#land-answer", "2.50 acres")
    assert page.value("#description") == "sec. 14: NE¼NE¼ SW¼SW¼"
    page.tab("tracts")
    page.put("#tracts", "mine,sec. 1.\n")
    page.one("#open-tracts").send_keys(str(SAMPLES / "tracts.csv"))
    page.wait_for(lambda: "sec. 7" in page.value("#tracts"))
    page.one("#undo").click()
    page.wait_for(lambda: page.value("#tracts") == "mine,sec. 1.\n")


def test_a_server_that_was_restarted_is_asked_again(driver: object, tmp_path: Path) -> None:
    with started(tmp_path / "first") as first:
        page = Page(driver, first)
        page.open_afresh()
        page.start_nominal()
        page.tab("land")
    page.put("#description", "sec. 14.")
    page.wait_for_text("#land-answer", "the server does not answer; the page asks again until it does")
    # Nothing is shown of the answer before.
    assert page.all("#drawing .land") == []
    with started(tmp_path / "second", first.port):
        page.wait_for_text("#land-answer", "640.00 acres")
        assert page.all("#drawing .land") != []


def test_no_other_host_and_no_complaints(page: Page) -> None:
    page.hosts()
    page.complaints()
    page.open_afresh()
    page.start_nominal()
    for panel in ("land", "compare", "tracts", "plat"):
        page.tab(panel)
    page.tab("land")
    page.type("#description", "sec. 14.")
    page.wait_for_text("#land-answer", "640.00 acres")
    assert page.hosts() == {f"127.0.0.1:{page.server.port}"}
    assert page.complaints() == []
