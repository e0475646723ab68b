"""The list of cases, and the names of their files."""
from __future__ import annotations

import pytest

from casework import describe, listed, manage, name_of_case
from page import Page


@pytest.mark.parametrize(
    "name, file",
    [
        ("Smith/Jones: ../lease 7", "Smith_Jones_ .._lease 7.json"),
        ("..Peña & Søn. ", "Peña _ Søn.json"),
        ("///", "case.json"),
        ("", "sec. 14_ NE1_4.json"),
    ],
)
def test_the_name_of_a_file(page: Page, name: str, file: str) -> None:
    """It has no characters that a system takes for something else, and doesn't begin or end with a period."""
    describe(page, "sec. 14, NE1/4.", "160.00 acres")
    manage(page)
    page.put("#case-name", name)
    page.one("#save-case").click()
    assert '"kind": "township case"' in page.saved(file)


def test_the_list_shows_what_another_tab_changes(page: Page) -> None:
    describe(page, "sec. 14.", "640.00 acres")
    driver = page.driver
    first = driver.current_window_handle
    driver.switch_to.new_window("tab")
    try:
        page.open()
        page.start_nominal()
        describe(page, "sec. 15, NE1/4.", "160.00 acres")
        second = driver.current_window_handle
        driver.switch_to.window(first)
        page.wait_for(lambda: listed(page) == ["sec. 15, NE1/4.", "sec. 14."])
        # It is still the own case that is chosen.
        assert name_of_case(page) == "sec. 14."
        driver.switch_to.window(second)
        describe(page, "sec. 16.", "640.00 acres")
        driver.switch_to.window(first)
        page.wait_for(lambda: listed(page) == ["sec. 16.", "sec. 14."])
        driver.switch_to.window(second)
    finally:
        driver.close()
        driver.switch_to.window(first)
