"""Lot tables that say where their lots lie, on the page: they are drawn, entered, corrected, and saved."""
from __future__ import annotations

from typing import List

import township

from page import Page
from test_interface_lots import LAKE

LOTS = township.Lots.read(LAKE)
LAND = "NE1/4NE1/4", "N1/2NW1/4NE1/4", "S1/2NW1/4NE1/4", "E1/2NW1/4", "NW1/4NW1/4"


def paste(page: Page, table: str) -> None:
    """Paste a lot table into the panel of the plat, and open its rows."""
    page.one("#paste-lots").click()
    page.put("#lots-text", table)
    page.settle()
    show_rows(page)


def show_rows(page: Page) -> None:
    page.driver.execute_script("document.querySelector('#lot-records').open = true")


def row(page: Page, place: int) -> List[str]:
    """The fields in a row of the table."""
    return [each.get_property("value") for each in page.all(f"#records tbody tr:nth-child({place + 1}) input")]


def add(page: Page, *fields: str) -> None:
    """Add a record as a person does, with a key for each character."""
    page.one("#add-record").click()
    page.settle()
    place = len(page.all("#records tbody tr")) - 1
    for name, field in zip(("section", "lot", "acres", "land"), fields):
        page.type(f"#record-{place}-{name}", field)
    page.settle()


def click_in_section(page: Page, section: int, x: int, y: int) -> None:
    """Click a place of a section, by its column from the west and its row from the north."""
    page.driver.execute_script(
        "document.querySelector('#sheet').scrollTop = 0; window.scrollTo(0, 0);"
        "const box = document.querySelector(arguments[0]).getBoundingClientRect(), side = box.width / 32;"
        "const x = box.left + side * (arguments[1] + 0.5), y = box.top + side * (arguments[2] + 0.5);"
        "const all = document.elementsFromPoint(x, y).map((e) => e.closest('#drawing [role=button]'));"
        "all.find((e) => e).dispatchEvent(new MouseEvent('click', {bubbles: true, clientX: x, clientY: y}))",
        f".targets [data-section='{section}']", x, y,
    )
    page.settle()


def selected(page: Page) -> List[str]:
    """What is selected in the drawing, and what else is there."""
    return [page.text("#selected strong"), *(each.text for each in page.all("#selected .row:nth-of-type(2) button"))]


def test_a_table_with_a_lake(first: Page) -> None:
    page = first
    paste(page, LAKE)
    page.wait_for_text("#plat-answer", "22,982.10 acres by the lot table")
    assert page.text("#where") == "T. 2 N., R. 3 W."
    lots = [each.get_attribute("id") for each in page.all("#lots tbody tr")]
    assert lots == ["lot-5.1", "lot-14.1", "lot-14.2", "lot-14.3", "lot-14.4"]
    assert page.text("#lot-14\\.2 .figure") == "12.25"
    assert [each.text for each in page.all("#key li")] == ["No land on the plat"]
    assert "plat approved on 1912-03-04" in page.text("#drawing")
    assert row(page, 2) == ["14", "2", "12.25", "N1/2NW1/4NE1/4"]
    assert row(page, 5) == ["14", "", "", "NW1/4NW1/4"]
    assert page.value("#table-number") == "2" and page.value("#table-date") == "1912-03-04"
    assert page.one(".targets [data-lot='14.4']").tag_name == "path"


def test_numbers_are_shown_where_there_is_room(first: Page) -> None:
    page = first
    # Lots 1 to 8 are eighths of a quarter-quarter, of 4 by 2 places.
    parts = [f"{half}1/2{quarter}1/4NE1/4NE1/4" for quarter in ("NE", "NW", "SW", "SE") for half in "NS"]
    records = "".join(f"14,{number},5.00,{part}\n" for number, part in enumerate(parts, 1))
    paste(page, f"section,lot,acres,land\nT,2,N,3,W\n{records}14,9,38.50,SW1/4SW1/4\n")

    def shown(kind: str) -> List[str]:
        texts = page.all(f"#drawing g.{kind} text")
        return sorted(each.get_property("textContent") for each in texts if each.get_attribute("display") != "none")

    assert shown("lot-numbers") == ["9"] and shown("lot-acres") == ["38.50"]
    for _ in range(6):
        page.one("#zoom-in").click()
    assert shown("lot-numbers") == [str(number) for number in range(1, 10)]
    page.one("#zoom-all").click()
    assert shown("lot-numbers") == ["9"]
    page.one("#view").send_keys("section 14")
    page.settle()
    assert shown("lot-names") == [f"Lot {number}" for number in range(1, 10)]
    assert shown("lot-acres") == ["38.50 acres", *8 * ["5.00"]]


def test_answers_by_it(first: Page) -> None:
    page = first
    paste(page, LAKE)
    page.tab("land")
    page.type("#description", "sec. 14, lots 1 to 3, S1/2NE1/4.")
    page.wait_for_text("#land-answer .acres", "150.55 acres")
    assert "Exact account" not in page.text("#land-answer")
    page.one("#view").send_keys("section 14")
    page.settle()
    assert "Lot 2" in page.text("#drawing .lot-names") and page.all("#drawing g.land")
    page.type("#description", "sec. 14, NE1/4.")
    page.wait_for_text("#land-answer", "Refused 66")
    page.type("#description", "sec. 14, NW1/4NW1/4.")
    page.wait_for_text("#land-answer", "Refused 68")
    page.tab("tracts")
    page.put("#tracts", 'A,"sec. 14, lots 1 and 2."\nB,"sec. 14, lots 2 and 4."\n')
    page.wait_for_text("#tracts-table", "83.35")
    page.tab("compare")
    page.put("#first", "sec. 14, lots 1 to 3.")
    page.put("#second", "sec. 14, lots 3, 4.")
    page.wait_for_text("#compare-answer", "19.80")
    assert page.complaints() == []


def test_what_is_clicked(first: Page) -> None:
    page = first
    page.driver.set_window_size(1280, 1400)
    paste(page, LAKE)
    page.one("#view").send_keys("section 14")
    page.settle()
    # Lot 4 has columns 8 to 15 and rows 0 to 15; a part that has a place of it can't be named.
    click_in_section(page, 14, 10, 12)
    assert selected(page) == ["Section 14, lot 4: 71.10 acres", "Section 14"]
    # The lake, in which nothing can be named.
    click_in_section(page, 14, 4, 4)
    assert selected(page)[0] == "Section 14: 581.65 acres"
    # The SE1/4NE1/4, south of lot 1: the quarter section has lots.
    click_in_section(page, 14, 28, 12)
    names = selected(page)
    assert names[-2:] == ["SE1/4NE1/4 of section 14", "Section 14"] and "NE1/4 of section 14" not in names
    # The southeast quarter is free: the three smallest parts that can be hit are named there.
    click_in_section(page, 14, 28, 28)
    parts = ["NW1/4SE1/4SE1/4SE1/4", "SE1/4SE1/4SE1/4", "SE1/4SE1/4"]
    assert [each.partition(" of")[0] for each in selected(page)] == [*parts, "Section 14"]
    page.click_target("lot", "14.2")
    page.one("#selected").find_element("xpath", ".//button[.='Add to the description']").click()
    page.wait_for_text("#land-answer .acres", "12.25 acres")
    assert page.value("#description") == "sec. 14, lot 2."
    page.driver.set_window_size(1280, 1000)


def test_a_table_is_entered(first: Page) -> None:
    page = first
    page.put("#table-township", "T. 2 N., R. 3 W.")
    page.one("#start-table button").click()
    page.wait_for_text("#plat-answer", "23,040.00 acres by the lot table")
    page.type("#table-date", "1912-03-04")
    page.settle()
    add(page, "5", "1", "40.45", LAND[0])
    for lot, acres, land in zip("1234", ("38.50", "12.25", "19.80", "71.10"), LAND):
        add(page, "14", lot, acres, land)
    page.wait_for_text("#plat-answer", "23,022.10 acres")
    add(page, "14", "", "", LAND[4])
    page.wait_for_text("#plat-answer", "22,982.10 acres")
    page.one("#save-lots").click()
    saved = page.saved("lots.csv")
    assert township.Lots.read(saved) == LOTS and saved == LOTS.csv()
    # The rows are kept with the case.
    page.open()
    show_rows(page)
    assert row(page, 5) == ["14", "", "", LAND[4]] and page.complaints() == []


def test_a_table_is_corrected(first: Page) -> None:
    page = first
    paste(page, LAKE)
    page.type("#record-2-acres", "12.75")
    page.wait_for_text("#plat-answer", "22,982.60 acres")
    assert "14,2,12.75,N1/2NW1/4NE1/4\n" in page.value("#lots-text")
    # A row that is refused is marked, and the others stay.
    page.type("#record-2-land", "NW1/4NE1/4")
    page.wait_for_text("#plat-answer", "Refused 98")
    wrong = [each.get_property("rowIndex") for each in page.all("#records tr.wrong")]
    assert wrong == [4] and page.one("#record-3-land").get_attribute("aria-invalid") == "true"
    page.one("#save-lots").click()
    page.wait_for_text("#said", "The lot table is not saved: ")
    assert not (page.driver.downloads / "lots.csv").exists()
    page.type("#record-2-land", LAND[1])
    page.wait_for_text("#plat-answer", "22,982.60 acres")
    assert page.all("#records tr.wrong") == []
    page.type("#table-date", "1912-02-30")
    page.wait_for_text("#plat-answer", "Refused 95")
    assert page.one("#table-date").get_attribute("aria-invalid") == "true"
    page.type("#table-date", "")
    page.wait_for_text("#plat-answer", "22,982.60 acres")
    assert "T,2,N,3,W\n" in page.value("#lots-text")


def test_records_are_removed_and_brought_back(first: Page) -> None:
    page = first
    paste(page, LAKE)
    [*_, remove] = page.all("#records tbody button")
    assert remove.get_attribute("aria-label") == "Remove record 6"
    remove.click()
    # Without the lake, the quarter-quarter has 40 acres.
    page.wait_for_text("#plat-answer", "23,022.10 acres")
    assert len(page.all("#records tbody tr")) == 5 and page.all("#key li") == []
    assert page.focused() == "Remove record 5"
    page.one("#undo").click()
    page.wait_for_text("#plat-answer", "22,982.10 acres")
    assert row(page, 5) == ["14", "", "", LAND[4]]


def test_a_table_from_a_spreadsheet(first: Page) -> None:
    """It is read as it is; with the first correction, its cells are written with commas."""
    page = first
    cells = LAKE.replace('"', "").replace(",", ";").replace("1912-03-04", "1912-03-04;;").replace("38.50", "38.5")
    paste(page, cells.replace("\n", "\r\n"))
    page.wait_for_text("#plat-answer", "22,982.10 acres")
    assert row(page, 1) == ["14", "1", "38.5", LAND[0]]
    page.type("#record-1-acres", "38.50")
    page.wait_for(lambda: township.Lots.read(page.value("#lots-text")) == LOTS)
    page.one("#save-lots").click()
    assert township.Lots.read(page.saved("lots.csv")) == LOTS


def test_a_table_of_standard_lots(first: Page) -> None:
    page = first
    paste(page, "section,lot,acres\nT,2,N,3,W\n5,1,40.45\n5,2,40.50\n")
    assert row(page, 1) == ["5", "2", "40.50"] and not page.one("#records .land-of").is_displayed()
    page.type("#record-1-acres", "40.60")
    page.wait_for_text("#lot-5\\.2 .figure", "40.60")
    assert len(page.all("#lots tbody tr")) == 47 and page.all(".targets path") == []


def test_field_notes_and_a_table(page: Page) -> None:
    page.one("#new-lots").click()
    page.wait_for_text("#plat-answer", "The lot table says where the lots lie")
    assert page.value("#lots-text") == "section,lot,acres,land\nT,2,N,3,W\n"
    assert page.one("#lines").is_displayed()
    page.one("#undo").click()
    page.wait_for_text("#plat-answer", "This township is nominal")
    assert not page.one("#lot-records").is_displayed()


def test_it_fits_on_a_phone(first: Page) -> None:
    page = first
    paste(page, LAKE)
    size = page.driver.get_window_size()
    try:
        page.driver.execute_cdp_cmd("Emulation.setDeviceMetricsOverride",
                                    {"width": 320, "height": 640, "deviceScaleFactor": 1, "mobile": True})
        page.settle()
        assert page.driver.execute_script("return document.documentElement.scrollWidth") <= 320
    finally:
        page.driver.execute_cdp_cmd("Emulation.clearDeviceMetricsOverride", {})
        page.driver.set_window_size(size["width"], size["height"])
