"""The part of the drawing that is in view stays in the drawing, and follows the focus."""
from __future__ import annotations

from typing import List

import pytest

from page import Page

#: Whether the middle of what has the focus is in sight, and its name.
FOCUS = """
const inside = document.activeElement.getBoundingClientRect();
const { left, top, right, bottom } = document.querySelector('#drawing svg').getBoundingClientRect();
const [x, y] = [inside.left + inside.width / 2, inside.top + inside.height / 2];
return [x > left && x < right && y > top && y < bottom, document.activeElement.getAttribute('aria-label')];
"""


def numbers(page: Page, name: str) -> List[float]:
    """The numbers in an attribute of the drawing: its left, top, width, and height."""
    text = page.driver.execute_script("return document.querySelector('#drawing svg').getAttribute(arguments[0])", name)
    return [float(each) for each in str(text).split()]


@pytest.mark.parametrize("way, axis, end", [("west", 0, 0), ("north", 1, 0), ("east", 0, 1), ("south", 1, 1)])
def test_the_view_stays_in_the_drawing(page: Page, way: str, axis: int, end: int) -> None:
    """However often it is moved, it ends where the drawing ends."""
    whole = numbers(page, "data-view")
    for _ in range(4):
        page.one("#zoom-in").click()
    for _ in range(12):
        page.one(f"#pan-{way}").click()
    view = numbers(page, "viewBox")
    assert view[axis] + end * view[axis + 2] == pytest.approx(whole[axis] + end * whole[axis + 2], abs=0.01)
    other = 1 - axis
    assert whole[other] < view[other] < whole[other] + whole[other + 2] - view[other + 2]


def test_the_view_follows_the_focus(page: Page) -> None:
    """The arrow keys reach sections that are not in view, which is then moved."""
    for _ in range(4):
        page.one("#zoom-in").click()
    page.driver.execute_script("document.querySelector('#drawing [tabindex=\"0\"]').focus({ preventScroll: true })")
    before = numbers(page, "viewBox")
    names = []
    for key in [page.UP] * 4 + [page.LEFT] * 4:
        page.press(key)
        is_seen, name = page.driver.execute_script(FOCUS)
        assert is_seen, name
        names.append(name)
    assert len(set(names)) == 8 and numbers(page, "viewBox")[:2] != before[:2]
    assert numbers(page, "viewBox")[2:] == pytest.approx(before[2:], abs=0.01)


def test_a_wheel_scrolls_the_page_where_all_of_the_drawing_is_in_view(page: Page) -> None:
    """It enlarges the drawing one way, and is left to the page the other way, until there is something to reduce."""

    def takes(by: int) -> bool:
        return bool(
            page.driver.execute_script(
                "const turned = new WheelEvent('wheel', { deltaY: arguments[0], bubbles: true, cancelable: true });"
                "document.querySelector('#drawing svg').dispatchEvent(turned); return turned.defaultPrevented",
                by,
            )
        )

    assert [takes(by) for by in (100, -100, 100, 100, 100)] == [False, True, True, False, False]


#: The boxes of the names of tracts that are shown: left, top, right, and bottom.
NAMES = """
return [...document.querySelectorAll('#drawing .names text')].map((each) => each.getBoundingClientRect())
  .filter(({ width }) => width > 0).map(({ left, top, right, bottom }) => [left, top, right, bottom]);
"""


def test_names_of_tracts_do_not_cover_each_other(page: Page) -> None:
    """Of tracts that are closer together than the lines of a text, some have no name until the drawing is enlarged."""
    steps = ("NW1/4", "SW1/4")
    parts = ["".join(steps[row >> step & 1] for step in range(4)) for row in range(16)]
    page.tab("tracts")
    page.put("#tracts", "".join(f'Tract {row},"sec. 14, {part}."\n' for row, part in enumerate(parts)))
    page.wait_for_text("#tracts-answer", "16 tracts")
    shown = []
    for _ in range(5):
        names = page.driver.execute_script(NAMES)
        shown.append(len(names))
        for place, (left, top, right, bottom) in enumerate(names):
            for other in names[:place]:
                # Letters leave room for those of other languages above and below.
                apart = max(left - other[2], other[0] - right, top - other[3], other[1] - bottom)
                assert apart > -0.35 * (bottom - top), (names, shown)
        page.one("#zoom-in").click()
    assert 1 < shown[0] < 16 and shown[0] < max(shown)
