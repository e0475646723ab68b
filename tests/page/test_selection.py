"""What is selected in the drawing stays what was clicked, and its words describe it."""
from __future__ import annotations

from typing import Dict, List

import pytest
import township

from page import Page

HERE = "T. 2 N., R. 3 W."

#: What the page calls parts of a section, of which each is `[x, y, size]`, among lots, each `[number, x, y]`.
WORDS = """
const [section, lots, parts, done] = arguments;
import(new URL("static/parts.js", document.baseURI)).then(({ describe, partAt }) => {
  const named = lots.map(([number, x, y]) => ({ number, x, y }));
  done(parts.map(([x, y, size]) => describe(partAt(section, x + size - 1, y + size - 1, size), named)));
});
"""


def lots_of(page: Page, section: int) -> List[List[object]]:
    """The lots of a section in the drawing, by their places in it."""
    return page.driver.execute_script(
        "const at = (each) => ['x', 'y'].map((name) => each[name].baseVal.value);"
        "const [left, top] = at(document.querySelector(`.targets [data-section='${arguments[0]}']`));"
        "return [...document.querySelectorAll(`.targets [data-lot^='${arguments[0]}.']`)].map((each) => {"
        "const [x, y] = at(each); return [each.dataset.lot.split('.')[1], x - left, y - top]; })",
        section,
    )


def rows_of(section: int, x: int, y: int, size: int) -> Dict[int, List[int]]:
    """The rows of a part, as land has them: from the south, with bit k for column k from the east."""
    row = ((1 << size) - 1) << (32 - x - size)
    return {section: [row if y <= 31 - south < y + size else 0 for south in range(32)]}


@pytest.mark.parametrize("section", [1, 5, 6, 7, 31, 14])
def test_the_words_for_a_part_describe_it(page: Page, section: int) -> None:
    """All parts down to quarter-quarter sections, with the lots in them; and smaller ones where there are no lots."""
    sizes = (32, 16, 8) if section != 14 else (32, 16, 8, 4, 2, 1)
    parts = [[x, y, size] for size in sizes for x in range(0, 32, size) for y in range(0, 32, size)]
    words = page.driver.execute_async_script(WORDS, section, lots_of(page, section), parts)
    for (x, y, size), each in zip(parts, words):
        assert township.Land.of(HERE, f"{each}.") == township.Land.of_rows(HERE, rows_of(section, x, y, size)), each


def test_a_late_answer_is_not_shown_for_something_else(page: Page) -> None:
    """The acreage of a part arrives after another one was picked."""
    page.driver.execute_script(
        """
        const usual = window.fetch;
        window.held = [];
        window.fetch = async (path, asked) => {
            const answer = await usual(path, asked);
            if (path.endsWith("land") && JSON.parse(asked.body).description.startsWith("sec. 14")) {
                await new Promise((go) => window.held.push(go));
            }
            return answer;
        };
        """
    )
    page.click_target("section", "14")
    page.wait_for(lambda: page.driver.execute_script("return window.held.length") == 1)
    page.click_target("section", "36")
    page.wait_for_text("#selected", "sec. 36, all.")
    before = page.text("#selected")
    page.driver.execute_script("window.held.forEach((go) => go())")
    page.driver.execute_async_script("setTimeout(arguments[0], 300)")
    assert page.text("#selected") == before and "14" not in before


def test_another_tract_in_the_same_place_is_not_selected(page: Page) -> None:
    page.tab("tracts")
    page.put("#tracts", 'A,"sec. 14, N1/2."\nB,"sec. 15, N1/2."\n')
    page.wait_for_text("#tracts-answer", "2 tracts")
    page.driver.execute_script(
        "document.querySelector('.outlines [data-tract=\"1\"]').dispatchEvent(new MouseEvent('click', { bubbles: true }))"
    )
    page.settle()
    assert "Tract B: 320.00 acres" in page.text("#selected")
    page.put("#tracts", 'A,"sec. 14, N1/2."\nB,"sec. 16, N1/2."\n')
    page.settle()
    assert "Tract B: 320.00 acres" in page.text("#selected") and page.all("#drawing .selection")
    page.put("#tracts", 'A,"sec. 14, N1/2."\nC,"sec. 16, N1/2."\n')
    page.settle()
    assert page.text("#selected") == "" and page.all("#drawing .selection") == []
