"""The page on a phone."""
from __future__ import annotations

from typing import Iterator

import pytest

from page import Page

SIZES = [(390, 844), (320, 640)]

#: The places of a fraction such as `NE1/4` in the texts that are shown, that are on more than one line.
BROKEN = """
const broken = [];
let seen = 0;
const walker = document.createTreeWalker(document.body, NodeFilter.SHOW_TEXT);
while (walker.nextNode()) {
  const node = walker.currentNode;
  if (node.parentElement.closest('svg, textarea, option, script, .back, [hidden]')) continue;
  for (const found of node.data.matchAll(/[NS]?[EW]?1\\/[24]/g)) {
    const range = document.createRange();
    range.setStart(node, found.index);
    range.setEnd(node, found.index + found[0].length);
    const lines = new Set([...range.getClientRects()].filter(({ width }) => width > 0).map(({ top }) => Math.round(top)));
    seen += lines.size;
    if (lines.size > 1) broken.push(node.data.slice(0, 60));
  }
}
return [seen, broken];
"""

#: The fractions whose period, comma, or semicolon is on the next line.
ALONE = """
const tops = (node, from, to) => {
  const range = document.createRange();
  range.setStart(node, from);
  range.setEnd(node, to);
  return Math.round(range.getBoundingClientRect().bottom);
};
return [...document.querySelectorAll('.aliquot')].filter((each) => each.getClientRects().length > 0).filter((each) => {
  let after = each.nextSibling;
  while (after !== null && after.nodeType === Node.ELEMENT_NODE && after.tagName === 'WBR') after = after.nextSibling;
  if (after?.nodeType !== Node.TEXT_NODE || !/^[.,;]/.test(after.data)) return false;
  return tops(after, 0, 1) !== tops(each.firstChild, 0, each.textContent.length);
}).map((each) => each.parentElement.textContent);
"""

#: Where the caret and what it marks are in an excerpt, and the box in which they are seen.
CARET = """
const excerpt = document.querySelector('#panel-land .excerpt');
const [text, carets] = excerpt.textContent.split('\\n');
const node = excerpt.firstChild;
const at = (place) => {
  const range = document.createRange();
  range.setStart(node, place);
  range.setEnd(node, place + 1);
  return range.getBoundingClientRect();
};
const column = carets.indexOf('^');
const [caret, marked] = [at(text.length + 1 + column), at(column)];
const { left, right } = excerpt.getBoundingClientRect();
return [caret.left - marked.left, caret.top - marked.top, marked.height, caret.left - left, right - caret.right, text[column]];
"""


@pytest.fixture(params=SIZES, ids=str)
def phone(page: Page, request: pytest.FixtureRequest) -> Iterator[Page]:
    """The page on a screen of a phone's size."""
    width, height = request.param
    metrics = {"width": width, "height": height, "deviceScaleFactor": 2, "mobile": True}
    page.driver.execute_cdp_cmd("Emulation.setDeviceMetricsOverride", metrics)
    try:
        yield page
    finally:
        page.driver.execute_cdp_cmd("Emulation.clearDeviceMetricsOverride", {})


def test_the_column_to_type_in_is_in_sight(phone: Page) -> None:
    page = phone
    height = page.driver.execute_script("return innerHeight")
    for panel, area in (("land", "description"), ("compare", "first"), ("tracts", "tracts"), ("plat", "township-number")):
        page.tab(panel)
        page.driver.execute_script("scrollTo(0, 0)")
        box = page.one(f"#{area}").rect
        assert 0 <= box["y"] and box["y"] + box["height"] <= 0.7 * height, panel


def test_carets_are_under_what_they_mark(phone: Page) -> None:
    page = phone
    page.tab("land")
    # The line is longer than the screen is wide, and the mark is beyond its edge.
    page.put("#description", "sec. 14, N1/2, SW1/4, NW1/4NW1/4NE1/4SE1/4, W1/2SE1/4 and N1/2.")
    page.wait_for_text("#land-answer", "Refused 67")
    page.wait_for(lambda: abs(page.driver.execute_script(CARET)[3]) < page.one("#land-answer").rect["width"])
    across, below, height, left, right, marked = page.driver.execute_script(CARET)
    assert abs(across) < 1 and 0 < below < 2.5 * height
    assert left >= 0 and right >= 0 and marked == "N"


def test_nothing_breaks_inside_a_fraction(phone: Page) -> None:
    page = phone
    chain = "sec. 14, NE1/4NE1/4NE1/4NE1/4NE1/4, SW1/4NE1/4NW1/4SE1/4NW1/4, E1/2W1/2SE1/4; sec. 5, lots 1 and 2, S1/2NE1/4."
    page.tab("land")
    page.put("#description", chain)
    page.wait_for_text("#land-answer", "Canonical")
    page.click_target("section", "14")
    seen, broken = page.driver.execute_script(BROKEN)
    assert seen >= 12 and broken == []
    page.put("#description", "sec. 5, N1/2, SE1/4NE1/4NE1/4NE1/4NE1/4.")
    page.wait_for_text("#land-answer", "Refused 66")
    seen, broken = page.driver.execute_script(BROKEN)
    assert seen >= 2 and broken == []
    page.tab("tracts")
    page.put("#tracts", f'A,"{chain}"\nB,"{chain}"\nC,"sec. 14, NE1/4SW1/4NE1/4 SW1/4NE1/4SE1/4."\n')
    page.wait_for_text("#tracts-answer", "3 tracts")
    seen, broken = page.driver.execute_script(BROKEN)
    assert seen >= 30 and broken == []
    page.tab("compare")
    page.put("#first", chain)
    page.put("#second", chain)
    page.wait_for_text("#compare-answer", "the same land")
    seen, broken = page.driver.execute_script(BROKEN)
    assert seen >= 12 and broken == []


@pytest.mark.parametrize("text", ["sec. 14, NE1/4NE1/4NE1/4NE1/4NE1/4.", "sec. 14, NE1/4NE1/4; sec. 15, E1/2."])
def test_no_period_is_alone_on_a_line(page: Page, text: str) -> None:
    """However wide the text is, if there is room for a fraction and a period beside the name of the text."""
    page.tab("land")
    page.put("#description", text)
    page.wait_for_text("#land-answer", "Canonical")
    try:
        for width in range(230, 480, 3):
            page.driver.execute_script("document.querySelector('#land-answer').style.width = `${arguments[0]}px`", width)
            assert page.driver.execute_script(ALONE) == [], width
    finally:
        page.driver.execute_script("document.querySelector('#land-answer').removeAttribute('style')")


def test_the_fractions_of_a_reading_are_beside_each_other(phone: Page) -> None:
    page = phone
    page.tab("land")
    page.put("#description", "sec. 14: NE1/4NE1/4 SW1/4SW1/4")
    page.wait_for_text("#readings", "2.50 acres")
    for reading in page.all("#readings .reading > span"):
        fractions = reading.find_elements("css selector", ".aliquot")
        assert len(fractions) == 4
        # Two lines at most, where each of the fractions would take one.
        assert len({round(each.rect["y"]) for each in fractions}) <= 2
