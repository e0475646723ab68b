"""Cases: nothing is lost, whatever is opened, replaced, or deleted."""
from __future__ import annotations

import json
from pathlib import Path
from typing import Iterator

import pytest
import township

from asking import SAMPLE
from casework import choose, describe, link_in, link_of, listed, loaded, manage, name_of_case
from page import Page


def test_cases_have_names(page: Page) -> None:
    describe(page, "sec. 14.", "640.00 acres")
    assert name_of_case(page) == "sec. 14."
    manage(page)
    page.type("#case-name", "Smith lease")
    page.wait_for(lambda: name_of_case(page) == "Smith lease")
    page.open()
    assert name_of_case(page) == "Smith lease" and page.value("#case-name") == "Smith lease"
    loaded(page, page.one("#new-case").click)
    assert name_of_case(page) == "empty case" and page.value("#case-name") == "" and page.value("#description") == ""
    page.start_nominal("T. 5 N., R. 1 E.")
    assert sorted(listed(page)) == ["Smith lease", "T. 5 N., R. 1 E."]
    choose(page, "Smith lease")
    assert page.value("#description") == "sec. 14." and page.value("#case-name") == "Smith lease"


def test_names_of_cases_that_turn_the_text_round(page: Page) -> None:
    manage(page)
    page.put("#case-name", "A\u202ehtimS")
    page.wait_for(lambda: name_of_case(page) == "A\\u202ehtimS")


def test_a_case_is_saved_to_a_file_and_opened_from_it(page: Page, tmp_path: Path) -> None:
    page.one("#open-notes").send_keys(str(SAMPLE))
    page.wait_for_text("#plat-answer", "23,037.57")
    page.put("#lots-text", "section,lot,acres\nT,2,N,3,W\n5,1,40.45\n")
    page.tab("compare")
    page.put("#first", "sec. 1.")
    page.put("#second", "sec. 2.")
    page.tab("tracts")
    page.put("#tracts", "Ñ,sec. 14: NE¼NE¼ SW¼SW¼\n")
    page.tab("land")
    page.put("#description", "sec. 14.\n")
    manage(page)
    page.type("#case-name", "Smith: lease/1")
    page.wait_for_text("#land-answer", "640.00 acres")
    page.one("#save-case").click()
    text = page.saved("Smith_ lease_1.json")
    names = ("notes", "lots-text", "description", "first", "second", "tracts")
    before = {name: page.value(f"#{name}") for name in names}
    assert all(before.values())
    page.open_afresh()
    page.start_nominal()
    describe(page, "sec. 15, NE1/4.", "160.00 acres")
    file = tmp_path / "case.json"
    file.write_text(text)
    manage(page)
    loaded(page, lambda: page.one("#open-case").send_keys(str(file)))
    page.wait_for_text("#said", "case.json is opened as a case of its own.")
    page.wait_for_text("#land-answer", "640.00 acres")
    assert {name: page.value(f"#{name}") for name in before} == before
    # The own work is beside it.
    assert sorted(listed(page)) == ["Smith: lease/1", "sec. 15, NE1/4."]


@pytest.mark.parametrize(
    "text, said",
    [
        ("", "it is not a case that this page has saved."),
        ("sec. 14.", "it is not a case that this page has saved."),
        ("[]", "it is not a case that this page has saved."),
        ('{"description": "sec. 14."}', "it is not a case that this page has saved."),
        ('{"kind": "township case", "county": "Ada"}', "this page does not know what it carries as “county”."),
        ('{"kind": "township case", "notes": 1}', "this page does not know what it carries as “notes”."),
        ('{"kind": "township case", "toString": "x"}', "this page does not know what it carries as “toString”."),
    ],
)
def test_a_file_that_is_not_a_case(page: Page, tmp_path: Path, text: str, said: str) -> None:
    describe(page, "sec. 14.", "640.00 acres")
    file = tmp_path / "case.json"
    file.write_text(text)
    manage(page)
    page.one("#open-case").send_keys(str(file))
    page.wait_for_text("#said", f"case.json is not opened: {said}")
    assert page.value("#description") == "sec. 14." and len(listed(page)) == 1


def test_a_deleted_case_comes_back(page: Page) -> None:
    describe(page, "sec. 14.", "640.00 acres")
    loaded(page, page.one("#new-case").click)
    page.start_nominal()
    describe(page, "sec. 15, NE1/4.", "160.00 acres")
    manage(page)
    loaded(page, page.one("#delete-case").click)
    assert page.text("#said") == "“sec. 15, NE1/4.” is deleted. Undo brings it back as long as this tab is open."
    assert listed(page) == ["empty case", "sec. 14."] and page.one("#start").is_displayed()
    choose(page, "sec. 14.")
    manage(page)
    loaded(page, page.one("#delete-case").click)
    assert listed(page) == ["empty case"]
    # The last one comes back first.
    for description in ("sec. 14.", "sec. 15, NE1/4."):
        loaded(page, page.one("#undo").click)
        assert page.text("#said") == "The case is back." and page.value("#description") == description
    assert sorted(listed(page)) == ["sec. 14.", "sec. 15, NE1/4."]
    loaded(page, page.one("#new-case").click)
    page.one("#undo").click()
    page.wait_for_text("#said", "There is nothing to undo.")
    manage(page)
    page.one("#delete-case").click()
    page.wait_for_text("#said", "There is nothing in this case yet.")


def test_times_are_those_of_the_user(page: Page) -> None:
    describe(page, "sec. 14.", "640.00 acres")
    loaded(page, page.one("#new-case").click)
    page.driver.execute_script(
        "const key = Object.keys(localStorage).find((each) => each.startsWith('township.case.'));"
        "const kept = JSON.parse(localStorage.getItem(key));"
        "localStorage.setItem(key, JSON.stringify({ ...kept, at: Date.UTC(2030, 0, 31, 20, 5) }))"
    )
    page.driver.execute_cdp_cmd("Emulation.setTimezoneOverride", {"timezoneId": "America/Boise"})
    try:
        loaded(page, page.driver.refresh)
        assert [each.text for each in page.all("#case option")] == ["empty case", "sec. 14., 2030-01-31 13:05"]
    finally:
        page.driver.execute_cdp_cmd("Emulation.setTimezoneOverride", {"timezoneId": ""})


def test_a_link_carries_the_case(page: Page) -> None:
    page.one("#open-notes").send_keys(str(SAMPLE))
    page.wait_for_text("#plat-answer", "23,037.57")
    page.tab("tracts")
    page.put("#tracts", "A,sec. 1.\n")
    page.wait_for_text("#tracts-answer", "1 tract:")
    page.tab("land")
    page.type("#description", "sec. 7, lots 1 to 4 ½.")
    manage(page)
    page.type("#case-name", "Smith")
    link = link_in(page)
    # The address stays what it was: what is typed after the link was copied is there when the page is loaded again.
    assert "#" not in page.driver.current_url
    page.open_afresh()
    assert page.value("#description") == ""
    page.open(f"#{link}")
    page.wait_for_text("#land-answer", "Refused")
    assert page.value("#description") == "sec. 7, lots 1 to 4 ½." and page.value("#tracts") == "A,sec. 1.\n"
    assert township.Plat.read(page.value("#notes")) == township.Plat.open(SAMPLE) and name_of_case(page) == "Smith"


def test_a_case_that_is_too_large_for_a_link(page: Page) -> None:
    page.put("#tracts", "A,sec. 1.\n" * 800)
    manage(page)
    page.one("#copy-link").click()
    page.wait_for_text("#said", "This case is too large for a link. Save it to a file instead.")
    assert not page.one("#link").is_displayed()


def test_a_link_is_opened_beside_the_own_work(page: Page) -> None:
    describe(page, "sec. 14.", "640.00 acres")
    notes = page.value("#notes")
    page.open(link_of(description="sec. 15, NE1/4.", notes=notes, panel="land"))
    page.wait_for_text("#land-answer", "160.00 acres")
    assert "Your own work is kept" in page.text("#said")
    describe(page, "sec. 15, NW1/4, SW1/4.", "320.00 acres")
    # What is typed after a link is kept, too.
    page.open()
    assert page.value("#description") == "sec. 15, NW1/4, SW1/4."
    assert name_of_case(page) == "sec. 15, NW1/4, SW1/4." and len(listed(page)) == 2
    choose(page, "sec. 14.")
    assert page.value("#description") == "sec. 14."


def test_a_link_that_is_pasted_into_the_open_page(page: Page) -> None:
    """The browser only changes the address then, and loads nothing."""
    describe(page, "sec. 14.", "640.00 acres")
    link = link_of(description="sec. 15, NE1/4.", notes=page.value("#notes"), panel="land")
    loaded(page, lambda: page.driver.execute_script("location.hash = arguments[0]", link))
    page.wait_for_text("#land-answer", "160.00 acres")
    assert "Your own work is kept" in page.text("#said") and len(listed(page)) == 2


def test_a_link_carries_refused_notes_as_they_are(page: Page) -> None:
    page.type("#corner-53", "99.6")
    page.wait_for_text("#plat-answer", "Refused 23")
    notes = page.value("#notes")
    link = link_in(page)
    page.open_afresh()
    page.open(f"#{link}")
    page.wait_for_text("#plat-answer", "Refused 23")
    assert page.value("#notes") == notes and page.value("#corner-53") == "99.6"


def test_a_link_that_is_not_understood_is_refused(page: Page) -> None:
    describe(page, "sec. 14.", "640.00 acres")
    for link, said in (
        (link_of(description="sec. 15.", county="Ada"), "this page does not know what it carries as “county”."),
        (link_of(description=15), "this page does not know what it carries as “description”."),
        (link_of(constructor="x"), "this page does not know what it carries as “constructor”."),
        ("#case=%25", "The link is not opened: it is damaged."),
    ):
        page.open(link)
        assert said in page.text("#said")
        assert page.value("#description") == "sec. 14."
    assert len(listed(page)) == 1


@pytest.fixture(params=["locks", "no locks"])
def browser(page: Page, request: pytest.FixtureRequest) -> Iterator[Page]:
    """The page in a browser with locks, and in one without them, as where a server is reached without TLS."""
    if request.param == "locks":
        yield page
        return
    script = {"source": "Object.defineProperty(Navigator.prototype, 'locks', { value: undefined })"}
    page.driver.execute_cdp_cmd("Page.enable", {})
    added = page.driver.execute_cdp_cmd("Page.addScriptToEvaluateOnNewDocument", script)
    page.open()
    assert page.driver.execute_script("return navigator.locks === undefined")
    yield page
    page.driver.execute_cdp_cmd("Page.removeScriptToEvaluateOnNewDocument", added)


def test_two_tabs_do_not_overwrite_each_other(browser: Page) -> None:
    page = browser
    describe(page, "sec. 14.", "640.00 acres")
    driver = page.driver
    first = driver.current_window_handle
    # A tab that the page opens has the same browser, with or without locks.
    driver.switch_to.new_window("tab")
    try:
        if driver.execute_script("return true") and page_has_no_locks(page, first):
            driver.execute_cdp_cmd(
                "Page.addScriptToEvaluateOnNewDocument",
                {"source": "Object.defineProperty(Navigator.prototype, 'locks', { value: undefined })"},
            )
        page.open()
        assert page.value("#description") == "" and listed(page) == ["empty case", "sec. 14."]
        page.start_nominal()
        describe(page, "sec. 15, NE1/4.", "160.00 acres")
        # The case of the other tab is not opened in this one.
        [other] = [each for each in page.all("#case option") if each.text.startswith("sec. 14.")]
        other.click()
        page.wait_for_text("#said", "That case is open in another tab.")
        assert name_of_case(page) == "sec. 15, NE1/4." and page.value("#description") == "sec. 15, NE1/4."
        page.open()
        assert page.value("#description") == "sec. 15, NE1/4."
    finally:
        driver.close()
        driver.switch_to.window(first)
    page.open()
    assert page.value("#description") == "sec. 14."
    # It can be opened here now.
    choose(page, "sec. 15, NE1/4.")
    assert page.value("#description") == "sec. 15, NE1/4."


def page_has_no_locks(page: Page, first: str) -> bool:
    """Whether the page in the first tab is in a browser without locks."""
    driver = page.driver
    second = driver.current_window_handle
    driver.switch_to.window(first)
    found = driver.execute_script("return navigator.locks === undefined")
    driver.switch_to.window(second)
    return bool(found)


def case_file(folder: Path) -> Path:
    """A file with a case."""
    file = folder / "other.json"
    file.write_text('{"kind": "township case", "description": "sec. 36."}')
    return file


def test_a_browser_that_has_no_room_says_so(page: Page, tmp_path: Path) -> None:
    """Nothing is lost in silence."""
    describe(page, "sec. 14.", "640.00 acres")
    assert not page.one("#unkept").is_displayed()
    page.driver.execute_script(
        "Storage.prototype.own = Storage.prototype.setItem;"
        "Storage.prototype.setItem = () => { throw new Error('full') }"
    )
    page.type("#description", "sec. 15, NE1/4.")
    page.wait_for(lambda: page.one("#unkept").is_displayed())
    assert "Save it to a file before you close the page." in page.text("#unkept")
    # The browser asks before it closes the page.
    assert page.driver.execute_script("return !dispatchEvent(new Event('beforeunload', { cancelable: true }))")
    manage(page)
    page.one("#save-case").click()
    assert json.loads(page.saved("sec. 15_ NE1_4.json"))["description"] == "sec. 15, NE1/4."
    # Nothing else is opened in its place.
    page.one("#open-case").send_keys(str(case_file(tmp_path)))
    page.wait_for_text("#said", "this browser has no room for another case. Save one to a file, and delete it here.")
    assert page.value("#description") == "sec. 15, NE1/4."
    page.driver.execute_script("Storage.prototype.setItem = Storage.prototype.own")
    page.type("#description", "sec. 16.")
    page.wait_for(lambda: not page.one("#unkept").is_displayed())
    assert page.driver.execute_script("return dispatchEvent(new Event('beforeunload', { cancelable: true }))")


def test_what_was_replaced_comes_back(page: Page) -> None:
    """Whatever replaces a text but typing can be undone, and redone: a clicked lot, and a picked reading in a list."""
    describe(page, "sec. 14.", "640.00 acres")
    page.tab("plat")
    page.click_target("lot", "5.1")
    page.press(page.ENTER)
    page.wait_for_text("#land-answer", "680.00 acres")
    page.one("#undo").click()
    page.wait_for_text("#land-answer", "640.00 acres")
    assert page.text("#said") == "Undone in the description." and page.value("#description") == "sec. 14."
    page.one("#redo").click()
    page.wait_for_text("#land-answer", "680.00 acres")
    assert page.text("#said") == "Redone in the description."
    page.one("#redo").click()
    page.wait_for_text("#said", "There is nothing to redo.")
