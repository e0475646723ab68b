"""The printed sheet."""
from __future__ import annotations

import base64
import re
from typing import Iterator, List

import pytest

from page import Page

#: Pixels of a millimeter, of which 25.4 are an inch of 96 pixels, and of 6 points, of which 72 are an inch.
MILLIMETER = 96 / 25.4
SIX_POINTS = 6 * 96 / 72

#: The sizes of all texts of the printed drawing, in pixels.
SIZES = """
return [...document.querySelectorAll('#printed svg text')].filter((each) => each.getClientRects().length > 0).map((each) => {
  const { a, b } = each.getScreenCTM();
  return [parseFloat(getComputedStyle(each).fontSize) * Math.hypot(a, b), each.textContent];
})
"""


@pytest.fixture
def paper(page: Page) -> Iterator[Page]:
    """The page, whose media tests change to paper."""
    page.open_sample()
    try:
        yield page
    finally:
        page.driver.execute_cdp_cmd("Emulation.setEmulatedMedia", {"media": ""})


def pages(page: Page, width: float, height: float) -> int:
    """The number of pages on paper of this size, in inches."""
    asked = {"paperWidth": width, "paperHeight": height, "preferCSSPageSize": False}
    printed = page.driver.execute_cdp_cmd("Page.printToPDF", asked)["data"]
    return len(re.findall(rb"/Type */Page\b", base64.b64decode(printed)))


def printed(page: Page) -> List[str]:
    """The paragraphs and rows of the printed sheet beside the drawing."""
    page.driver.execute_script("dispatchEvent(new Event('beforeprint'))")
    parts = page.driver.execute_script(
        "return [...document.querySelectorAll('#printed > p, #printed h2, #printed tr')].map((each) => {"
        "return each.cells ? [...each.cells].map((cell) => cell.textContent).join(' ') : each.textContent })"
    )
    return [" ".join(each.split()) for each in parts]


def test_a_plat_is_one_page_and_no_text_is_smaller_than_six_points(paper: Page) -> None:
    page = paper
    # The sheet is that of the server, whatever part of the drawing the screen shows.
    for _ in range(5):
        page.one("#zoom-in").click()
    for size in ((8.5, 11), (8.27, 11.69)):
        assert pages(page, *size) == 1
    page.driver.execute_cdp_cmd("Emulation.setEmulatedMedia", {"media": "print"})
    printed(page)
    assert not page.one("#work").is_displayed() and not page.one("header").is_displayed()
    assert page.one("#drawing").rect["height"] == 0
    size = page.one("#printed svg").rect
    # 190 and 252 millimeters, to which the sheet of 190 by 255 is fitted.
    assert (size["width"], size["height"]) == (pytest.approx(190 * MILLIMETER, abs=1), pytest.approx(252 * MILLIMETER, abs=1))
    found = page.driver.execute_script(SIZES)
    # 36 sections and 47 lots have a number and an acreage each, and 14 lines a figure.
    assert len(found) > 2 * (36 + 47) + 14
    assert min(found)[0] >= SIX_POINTS, min(found)
    assert [text for _, text in found].count("39.03") == 1


def test_tracts_are_printed_with_their_table_and_notes(paper: Page) -> None:
    page = paper
    page.tab("tracts")
    page.put("#tracts", 'A,"sec. 14, N1/2."\nB,"sec. 14, E1/2."\nC,sec. 21: NE¼NE¼ SW¼SW¼\nD,"sec. 5, N1/2."\n')
    page.wait_for_text("#tracts-answer", "1 refused")
    found = printed(page)
    assert re.match(r"Printed [A-Z][a-z]+ \d{1,2}, 20\d\d,? (at )?\d{1,2}:\d\d", found[0])
    assert found[0].endswith("Acreage by the field notes.")
    rows = found[found.index("Tracts") + 1 : found.index("Notes")]
    assert [row.split()[0] for row in rows] == ["Tract", "A", "B", "C", "D"]
    assert "320.00" in rows[1] and "sec. 14, N1/2." in rows[1] and "refused 66" in rows[4]
    # A refusal takes the columns of the figures, too.
    assert page.one("#printed tbody tr:nth-child(4) td").get_property("colSpan") == 3
    assert not any("Show the readings" in each for each in found)
    notes = found[found.index("Notes") + 1 :]
    assert notes[:2] == ["Overlapping tracts (shared land is counted once):", "A and B: 160.00 acres, sec. 14, NE1/4."]
    assert any(note.startswith("Tract C. Note:") and "80.00 acres" in note for note in notes)
    assert page.all("#printed button") == []
    assert len(page.all("#printed .outlines path")) == 3 and page.all("#printed .targets") == []
    # Its hatchings are its own, since those of the screen change with the view.
    for pattern in page.all("#printed pattern"):
        assert len(page.all(f"[id='{pattern.get_attribute('id')}']")) == 1
    assert pages(page, 8.5, 11) == 2


def test_nothing_is_printed_of_a_list_that_was_emptied(paper: Page) -> None:
    page = paper
    page.tab("tracts")
    page.put("#tracts", 'A,"sec. 14, N1/2."\n')
    page.wait_for_text("#tracts-answer", "320.00 acres in all")
    page.put("#tracts", "")
    page.wait_for_text("#tracts-answer", "Paste or open a list")
    [dated] = printed(page)
    assert dated.startswith("Printed ") and page.all("#printed table, #printed .outlines") == []


def test_all_overlaps_are_printed(paper: Page) -> None:
    """Each is a paragraph, also those that are folded away on the screen."""
    page = paper
    page.tab("tracts")
    page.put("#tracts", "".join(f'{name},"sec. 14, N1/2."\n' for name in "ABCDEFGHIJKL"))
    page.wait_for_text("#tracts-answer", "16 more")
    found = printed(page)
    notes = found[found.index("Notes") + 1 :]
    assert len(notes) == 1 + 12 * 11 // 2
    assert notes[-1] == "K and L: 320.00 acres, sec. 14, N1/2."


def test_a_refusal_on_paper(paper: Page) -> None:
    """The excerpt keeps its lines, so that the carets are under what they mark."""
    page = paper
    page.tab("land")
    page.put("#description", "sec. 14, NE1/4 and N1/2.")
    page.wait_for_text("#land-answer", "Refused 67")
    assert printed(page)[-1] == "Refused 67: this land was named before"
    lines = page.text("#printed pre").split("\n")
    [text, carets] = [line for line in lines if " | " in line]
    assert text[carets.index("^") : carets.rindex("^") + 1] == "N1/2"
    # The first places of an excerpt, and its last ones, are on different lines.
    assert page.driver.execute_script("return getComputedStyle(document.querySelector('#printed pre')).whiteSpace") != "normal"


def test_a_table_that_fits_on_a_sheet_is_not_divided(paper: Page) -> None:
    page = paper
    page.tab("compare")
    page.put("#first", "sec. 14, N1/2.")
    page.put("#second", "sec. 14, E1/2.")
    page.wait_for_text("#compare-answer", "The two overlap.")
    printed(page)
    page.driver.execute_cdp_cmd("Emulation.setEmulatedMedia", {"media": "print"})
    style = "return getComputedStyle(document.querySelector('#printed {}')).{}"
    assert page.driver.execute_script(style.format("table", "breakInside")) == "avoid"
    # The hatchings in it are backgrounds, which are not printed otherwise.
    assert page.driver.execute_script(style.format(".key-1", "printColorAdjust")) == "exact"


def test_the_basis_on_paper(paper: Page) -> None:
    page = paper
    page.put("#lots-text", "section,lot,acres\nT,2,N,3,W\n5,1,40.45\n")
    page.wait_for_text("#plat-answer", "The lot table lacks lots")
    assert printed(page)[0].endswith("Acreage by the lot table.")
    page.tab("compare")
    page.put("#first", "sec. 14, N1/2.")
    page.put("#second", "sec. 14, E1/2.")
    page.wait_for_text("#compare-answer", "The two overlap.")
    found = printed(page)
    assert found[found.index("Comparison") + 2].startswith("In both")
