"""The panel of the plat: field notes, section lines, and lot tables."""
from __future__ import annotations

import csv
import io

import township

from asking import SAMPLE, SAMPLES
from page import Page

PLAT = township.Plat.open(SAMPLE)


def test_the_nominal_township(page: Page) -> None:
    assert "23,040.00 acres" in page.text("#plat-answer")
    assert page.text("#where") == "T. 2 N., R. 3 W. (nominal)"
    assert "This township is nominal: all section lines are regular." in page.text("#plat-answer")
    assert len(page.all("#lots tbody tr")) == 47
    assert len(page.all("#lines tbody tr")) == 84


def test_field_notes_from_a_file(page: Page) -> None:
    page.open_sample()
    assert page.value("#corner-53") == "79.60"
    # Lot 4 of section 7, as the README shows it.
    assert page.text("#lot-7\\.4 .figure") == "39.03"
    page.one("#save-notes").click()
    assert page.saved("notes.csv") == SAMPLE.read_text()


def test_a_township_is_typed(page: Page) -> None:
    page.type("#township-number", "14")
    page.one("#north-south").send_keys("S")
    page.type("#range-number", "7")
    page.wait_for_text("#where", "T. 14 S., R. 7 W.")
    page.wait_for_text("#drawing", "TOWNSHIP 14 SOUTH, RANGE 7 WEST")


def test_lines_typed_as_a_person_would(page: Page) -> None:
    """All closing lines of the sample are typed, and its plat results."""
    sample = {line.rpartition(",")[0].rpartition(",")[0]: line.split(",")[3:] for line in SAMPLE.read_text().split()[2:]}
    for row in page.all("#lines tbody tr:not([hidden])"):
        index = row.get_attribute("id").split("-")[1]
        name = row.get_attribute("data-name")
        first, second = name.split(",")[1:]
        quarter, corner = sample.get(name) or sample[f"{name[0]},{second},{first}"]
        page.type(f"#quarter-{index}", quarter)
        page.type(f"#corner-{index}", corner)
    page.wait_for_text("#plat-answer", "23,037.57")
    assert township.Plat.read(page.value("#notes")) == PLAT


def test_a_line_is_clicked_and_its_figures_typed(page: Page) -> None:
    page.click_target("line", "53")
    assert page.focused() == "corner-53"
    page.press("79.60")
    page.wait_for_text("#drawing .closing", "19.60")
    # Another line, which does not close, is shown when it is clicked.
    page.click_target("line", "20")
    assert page.one("#line-20").is_displayed()


def test_the_page_knows_the_lines(page: Page) -> None:
    """Its names of the 84 lines, in their order, are those of the library."""
    names = [row.get_attribute("data-name") for row in page.all("#lines tbody tr")]
    even = township.Plat.open(SAMPLES / "b0.csv")
    records = [f"{name},40.00,80.00" for name in names]
    assert township.Plat.read("\n".join(["line,between,and,quarter,corner", "T,2,N,3,W", *records, ""])) == even
    sections = [set(line.split(",")[1:3]) for line in even.write_notes().split()[2:]]
    assert [set(name.split(",")[1:]) for name in names] == sections
    closing = [name for name in names if page.one(f"[data-name='{name}']").is_displayed()]
    assert len(closing) == 14


def test_refused_notes_mark_their_line(page: Page) -> None:
    page.type("#corner-53", "99.6")
    page.wait_for_text("#plat-answer", "Refused 23")
    assert page.one("#line-53").get_attribute("class") == "wrong"
    assert page.one("[data-line='53']").get_attribute("class") == "refused"
    page.type("#corner-53", "x")
    page.wait_for_text("#plat-answer", "Refused 9")
    assert page.one("#corner-53").get_attribute("aria-invalid") == "true"
    # The place is underlined in the text, too.
    assert page.text("#panel-plat .back mark") == "x"
    page.type("#corner-53", "80")
    page.wait_for_text("#plat-answer", "23,040.00")
    assert page.all("tr.wrong") == [] and page.all("rect.refused") == []


def test_refused_notes_leave_no_answers(page: Page) -> None:
    page.open_sample()
    page.type("#corner-53", "99.6")
    page.wait_for_text("#plat-answer", "Refused 23")
    assert page.all("#lots tbody tr") == [] and page.text("#where") == ""
    assert "39.03" not in page.text("#drawing") and "23,037.57" not in page.text("#drawing")
    page.put("#notes", "x")
    page.wait_for_text("#plat-answer", "Refused")
    assert page.all("#drawing svg") == []


def test_places_in_field_notes_that_are_not_plain(page: Page) -> None:
    """Quotation marks, CRLF, and records in another order: an input replaces its own place, and nothing else."""
    records = SAMPLE.read_text().splitlines()
    given = [*records[:2], *reversed(records[2:])]
    given[5] = ",".join(f'"{field}"' for field in given[5].split(","))
    page.driver.execute_script("document.querySelector('#notes').closest('details').open = true")
    page.put("#notes", "\r\n".join(given) + "\r\n")
    page.wait_for_text("#plat-answer", "23,037.57")
    assert page.value("#corner-53") == "79.60"
    page.type("#corner-53", "79.5")
    page.wait_for(lambda: "W,6,7,40.00,79.5" in page.value("#notes"))
    page.type("#township-number", "14")
    page.wait_for_text("#where", "T. 14 N., R. 3 W.")
    changed = "\n".join(given).replace("W,6,7,40.00,79.60", "W,6,7,40.00,79.5").replace("T,2,N,3,W", "T,14,N,3,W")
    assert page.value("#notes").splitlines() == changed.splitlines()


def test_a_lot_table(first: Page) -> None:
    page = first
    table = "section,lot,acres\nT,2,N,3,W\n5,1,40.45\n5,2,40.50\n"
    page.one("#paste-lots").click()
    page.put("#lots-text", table)
    # No plat is made up: there are no section lines, and no acreage but that of the table.
    page.wait_for_text("#plat-answer", "There is only a lot table.")
    assert not page.one("#lines").is_displayed() and "20.00" not in page.text("#drawing")
    assert [page.text(f"#lot-5\\.{lot} .figure") for lot in (1, 2, 3)] == ["40.45", "40.50", "lacking"]
    page.tab("land")
    page.type("#description", "sec. 5, lots 1 and 2, S1/2NE1/4.")
    # 40.45 + 40.50 + 80
    page.wait_for_text("#land-answer .acres", "160.95 acres")
    assert "Plat account" not in page.text("#land-answer") and "3219/20 acres" in page.text("#land-answer")
    assert "40.45" in page.text("#drawing") and "Acreage by the lot table." in page.text("#drawing")
    page.type("#description", "sec. 5, lots 1 to 3.")
    page.wait_for_text("#land-answer", "the lot table lacks a lot of this land")
    page.tab("tracts")
    page.put("#tracts", 'A,"sec. 5, lots 1 and 2."\nB,"sec. 5, lot 3."\n')
    page.wait_for_text("#tracts-answer", "no acreage, since the lot table lacks a lot of this land in all")
    heads = [each.text for each in page.all("#tracts-table thead th")]
    assert heads == ["Tract", "Acres by the lot table", "Land, or refusal"]
    page.one("#save-tracts").click()
    rows = list(csv.DictReader(io.StringIO(page.saved("tracts.csv"))))
    assert [(row["acres"], row["acres_exact"], row["acres_plat"]) for row in rows] == [("80.95", "", ""), ("", "", "")]
    page.tab("plat")
    page.put("#lots-text", table + "5,9,40.00\n")
    page.wait_for_text("#plat-answer", "Refused 91")
    page.put("#lots-text", "")
    page.wait_for_text("#plat-answer", "First choose what the acreage is based on.")
    assert page.all("#lots tbody tr") == [] and page.all("#drawing svg") == []
    page.open_sample()
    page.put("#lots-text", table)
    page.wait_for_text("#plat-answer", "The lot table lacks lots")
    page.tab("tracts")
    page.wait_for_text("#tracts-table", "Exact account")
    page.tab("plat")
    page.put("#lots-text", table.replace("T,2,N", "T,3,N"))
    page.wait_for_text("#plat-answer", "the lot table is for T. 3 N., R. 3 W., and the plat for T. 2 N., R. 3 W.")
