"""The drawing on the screen: its view, what can be read and hit in it, and what a click selects."""
from __future__ import annotations

import io
import re
from typing import Any, Iterator, List, Tuple

import pytest

from page import Page

TRACTS = (
    'A,"sec. 14, N1/2."\nB,"sec. 14, E1/2."\nC,"sec. 5, lots 1 and 2, S1/2NE1/4."\n'
    'F,"sec. 20, NE1/4NE1/4NE1/4NE1/4NE1/4."\n'
)
DESKTOP, PHONE = (1280, 1000), (390, 844)

#: The millimeters of a quarter-quarter section on the sheet of a township: 8 places of 0.86.
QUARTER_QUARTER = 8 * 0.86

#: The texts of the drawing that are displayed, each with its size in pixels of the screen.
TEXTS = """
return [...document.querySelectorAll('#drawing svg text')].filter((each) => each.getClientRects().length > 0).map((each) => {
  return [parseFloat(getComputedStyle(each).fontSize) * Math.abs(each.getScreenCTM().d), each.textContent];
})
"""

#: The controls that a pointer can hit, each with its name and its size. A label is part of the target of its input.
HIT = """
const controls = 'button, select, textarea, summary, .button, [role=tab], label.check, input:not([type=file], [type=checkbox]),'
  + '.targets rect, .outlines path';
return [...document.querySelectorAll(controls)].filter((each) => {
  return each.getClientRects().length > 0 && getComputedStyle(each).pointerEvents !== 'none';
}).map((each) => {
  const { width, height } = each.getBoundingClientRect();
  const edge = each.tagName === 'path' ? parseFloat(getComputedStyle(each).strokeWidth) : 0;
  const name = each.getAttribute('aria-label') ?? each.id ?? '';
  return [width + edge, height + edge, `${each.tagName} ${name} ${each.textContent}`.slice(0, 80)];
})
"""


@pytest.fixture
def sized(page: Page) -> Iterator[Page]:
    """The page in a window of one size, which tests change."""
    try:
        resize(page, DESKTOP)
        yield page
    finally:
        page.driver.execute_cdp_cmd("Emulation.setTouchEmulationEnabled", {"enabled": False})
        page.driver.execute_cdp_cmd("Emulation.clearDeviceMetricsOverride", {})


def resize(page: Page, size: Tuple[int, int]) -> None:
    width, height = size
    metrics = {"width": width, "height": height, "deviceScaleFactor": 1, "mobile": False}
    page.driver.execute_cdp_cmd("Emulation.setDeviceMetricsOverride", metrics)
    # The drawing adapts itself in the next frames.
    page.driver.execute_async_script("const done = arguments[0]; requestAnimationFrame(() => requestAnimationFrame(done))")


def view(page: Page) -> List[float]:
    """The part of the sheet in view: its corner and its size, in millimeters."""
    found = page.driver.execute_script("return document.querySelector('#drawing svg').getAttribute('viewBox')")
    return [float(each) for each in found.split()]


def box(page: Page, selector: str) -> Any:
    """Where an element is on the screen."""
    return page.driver.execute_script("return document.querySelector(arguments[0]).getBoundingClientRect().toJSON()", selector)


def middle(page: Page, selector: str) -> Tuple[float, float]:
    found = box(page, selector)
    return found["x"] + found["width"] / 2, found["y"] + found["height"] / 2


def mouse(page: Page, kind: str, x: float, y: float, **more: Any) -> None:
    named = {"type": kind, "x": x, "y": y, **more}
    page.driver.execute_cdp_cmd("Input.dispatchMouseEvent", named)


def click(page: Page, x: float, y: float) -> None:
    for kind in ("mousePressed", "mouseReleased"):
        mouse(page, kind, x, y, button="left", clickCount=1)
    page.settle()


def wheel(page: Page, x: float, y: float, by: float) -> None:
    mouse(page, "mouseWheel", x, y, deltaX=0, deltaY=by)
    page.driver.execute_async_script("const done = arguments[0]; requestAnimationFrame(() => requestAnimationFrame(done))")


def zoom_in(page: Page, times: int) -> None:
    for _ in range(times):
        page.one("#zoom-in").click()


def list_tracts(page: Page) -> None:
    page.tab("tracts")
    page.put("#tracts", TRACTS)
    page.wait_for_text("#tracts-answer", "4 tracts")
    page.wait_for(lambda: page.all("#drawing .outlines"))


def test_the_view_from_the_township_to_a_quarter_quarter_section(sized: Page) -> None:
    page = sized
    whole = view(page)
    assert whole[2] > 192 * 0.86
    # The wheel enlarges what is at the pointer, and what is there stays there.
    x, y = middle(page, "[data-section='20']")
    page.wait_for(lambda: (wheel(page, x, y, -400), view(page)[2] < whole[2] / 2)[1])
    again = middle(page, "[data-section='20']")
    assert again == (pytest.approx(x, abs=2), pytest.approx(y, abs=2))
    for _ in range(30):
        wheel(page, x, y, -400)
    assert view(page)[2] == pytest.approx(QUARTER_QUARTER, abs=0.1)
    page.wait_for(lambda: (wheel(page, x, y, 400), view(page) == whole)[1])
    # The keys.
    page.driver.execute_script("document.querySelector('.targets [data-section=\"16\"]').focus()")
    page.press("+", "+")
    assert view(page)[2] == pytest.approx(whole[2] / 1.5**2)
    left, top, width, height = view(page)
    page.driver.switch_to.active_element.send_keys("\ue008" + page.RIGHT)
    assert view(page) == [pytest.approx(left + width / 2), top, width, height]
    page.driver.switch_to.active_element.send_keys("\ue008" + page.UP)
    assert view(page)[1] == pytest.approx(max(whole[1], top - height / 2))
    page.press("-")
    assert view(page)[2] == pytest.approx(whole[2] / 1.5)
    page.press("0")
    assert view(page) == whole
    # The buttons, of which those that move the view are there if it can be moved.
    assert not page.one("#pan-west").is_displayed() and not page.one("#zoom-out").is_enabled()
    zoom_in(page, 3)
    left, top, width, height = view(page)
    page.one("#pan-west").click()
    page.one("#pan-south").click()
    assert view(page)[:2] == [pytest.approx(max(whole[0], left - width / 2)), pytest.approx(top + height / 2)]
    page.one("#zoom-out").click()
    assert view(page)[2] == pytest.approx(whole[2] / 1.5**2)
    page.one("#zoom-all").click()
    assert view(page) == whole


def test_the_view_is_dragged_and_pinched(sized: Page) -> None:
    page = sized
    whole = view(page)
    zoom_in(page, 3)
    left, top, width, height = view(page)
    x, y = middle(page, "#drawing svg")
    mouse(page, "mousePressed", x, y, button="left", clickCount=1)
    for step in range(1, 6):
        mouse(page, "mouseMoved", x + 20 * step, y + 10 * step, button="left")
    mouse(page, "mouseReleased", x + 100, y + 50, button="left", clickCount=1)
    scale = box(page, "#drawing svg")["width"] / width
    assert view(page)[:2] == [pytest.approx(left - 100 / scale, abs=1), pytest.approx(top - 50 / scale, abs=1)]
    # A drag is no click.
    assert page.text("#selected") == ""
    # While one types, the view stays.
    before = view(page)
    page.tab("land")
    page.type("#description", "sec. 14.")
    page.wait_for_text("#land-answer", "640.00 acres")
    assert view(page) == before
    page.one("#zoom-all").click()
    page.driver.execute_cdp_cmd("Emulation.setTouchEmulationEnabled", {"enabled": True, "maxTouchPoints": 2})
    x, y = middle(page, "#drawing svg")

    def touch(kind: str, apart: float) -> None:
        points = [{"x": x - apart, "y": y, "id": 0}, {"x": x + apart, "y": y, "id": 1}] if apart else []
        page.driver.execute_cdp_cmd("Input.dispatchTouchEvent", {"type": kind, "touchPoints": points})

    touch("touchStart", 40)
    for apart in (50, 60, 70, 80, 90, 100, 110, 120):
        touch("touchMove", apart)
    touch("touchEnd", 0)
    # The fingers begin 80 pixels apart, and end 240 pixels apart.
    assert whole[2] / 3.5 < view(page)[2] < whole[2] / 1.8


@pytest.mark.parametrize("size", [DESKTOP, PHONE, (320, 640)])
def test_no_text_is_smaller_than_nine_pixels(sized: Page, size: Tuple[int, int]) -> None:
    page = sized
    list_tracts(page)
    resize(page, size)
    seen = 0
    for _ in range(8):
        found = page.driver.execute_script(TEXTS)
        assert len(found) > 36 and min(found)[0] >= 8.99, min(found)
        seen += any(text == "40.00" for _, text in found)
        page.one("#zoom-in").click()
    # The acreage of lots is shown where it has room: at once on a desktop, and on a phone after two steps.
    assert seen == (8 if size == DESKTOP else seen) and seen >= 5
    for section in ("5", "14"):
        page.driver.execute_script(
            "const e = document.querySelector('#view'); e.value = arguments[0]; e.dispatchEvent(new Event('change'))", section
        )
        page.wait_for_text("#drawing", f"SECTION {section}")
        found = page.driver.execute_script(TEXTS)
        assert min(found)[0] >= 8.99, min(found)


def test_small_land_is_hatched_at_every_size(sized: Page) -> None:
    """The smallest part is never black: its middle stays light, and once it has 8 pixels, lines and ground are seen."""
    image = pytest.importorskip("PIL.Image")
    page = sized
    page.tab("land")
    page.type("#description", "sec. 20, NE1/4NE1/4NE1/4NE1/4NE1/4; sec. 22, SE1/4NW1/4NE1/4.")
    page.wait_for(lambda: page.all("#drawing .land"))
    page.settle()
    sides = []
    for _ in range(10):
        picture = image.open(io.BytesIO(page.driver.get_screenshot_as_png())).convert("L")
        corner = box(page, ".targets [data-section='20']")
        side = corner["width"] / 32
        area = (corner["right"] - side, corner["top"], corner["right"], corner["top"] + side)
        pixels = list(picture.crop([round(each) for each in area]).getdata())
        # Of 255: a black dot is less than 60.
        assert sum(pixels) / len(pixels) > 90, side
        if side >= 8:
            assert max(pixels) > 190 and min(pixels) < 120, side
        sides.append(side)
        wheel(page, corner["right"] - side / 2, corner["top"] + side / 2, -300)
    assert sides[0] < 4 and sides[-1] > 60


def test_tracts_have_outlines_and_names_and_a_key_in_sight(sized: Page) -> None:
    page = sized
    list_tracts(page)
    names = ["Tract A: 320.00 acres", "Tract B: 320.00 acres", "Tract C: 160.00 acres", "Tract F: 0.63 acres"]
    assert [each.get_attribute("aria-label") for each in page.all("#drawing .outlines path")] == names
    shown = [each for each in page.all("#drawing .names text") if each.is_displayed()]
    assert [each.get_property("textContent") for each in shown] == ["A", "B", "C", "F"]
    key = [each.text for each in page.all("#key li")]
    # 320 + 320 + 160 + 0.625, less the 160 in both A and B; of this, the NE1/4 of section 14 has a hatching of its own.
    assert key == ["Tracts: 480.63 acres", "In several tracts: 160.00 acres", *names]
    hatchings = [each.get_attribute("fill") for each in page.all("#key rect")]
    assert len(set(hatchings[:2])) == 2 and set(hatchings[2:]) == {"none"}
    for name in hatchings[:2]:
        assert page.all(f"#drawing pattern[id='{name[5:-1]}']")
    for size in (DESKTOP, PHONE):
        resize(page, size)
        page.driver.execute_script("document.querySelector('#sheet').scrollIntoView()")
        key_box, drawing = box(page, "#key"), box(page, "#drawing")
        assert 0 <= key_box["top"] < key_box["bottom"] <= drawing["top"] < size[1] / 2


def test_a_click_selects_and_stays_in_the_panel(sized: Page) -> None:
    page = sized
    page.tab("land")
    page.type("#description", "sec. 14, E1/2.")
    page.wait_for(lambda: page.all("#drawing .land"))
    page.settle()
    # A lot.
    click(page, *middle(page, "[data-lot='5.1']"))
    assert "Section 5, lot 1: 40.00 acres" in page.text("#selected") and page.one("#panel-land").is_displayed()
    # An aliquot part: the quarter-quarter section at the pointer, and the larger ones.
    section = box(page, "[data-section='22']")
    click(page, section["x"] + section["width"] * 0.8, section["y"] + section["height"] * 0.3)
    page.wait_for_text("#selected", "SE1/4NE1/4 of section 22: 40.00 acres")
    others = [each.text for each in page.all("#selected button")]
    assert others[-2:] == ["NE1/4 of section 22", "Section 22"] and page.one("#panel-land").is_displayed()
    page.one("#selected").find_element("xpath", ".//button[.='NE1/4 of section 22']").click()
    page.wait_for_text("#selected", "NE1/4 of section 22: 160.00 acres")
    # A part with lots is described by them.
    section = box(page, "[data-section='5']")
    click(page, section["x"] + section["width"] * 0.8, section["y"] + section["height"] * 0.4)
    page.one("#selected").find_element("xpath", ".//button[.='NE1/4 of section 5']").click()
    page.wait_for_text("#selected", "sec. 5, lots 1, 2, S1/2NE1/4.")
    # Land.
    section = box(page, "[data-section='14']")
    click(page, section["x"] + section["width"] * 0.75, section["y"] + section["height"] * 0.75)
    assert "Land: 320.00 acres sec. 14, E1/2." in page.text("#selected") and page.one("#panel-land").is_displayed()
    assert page.one("#view").get_property("value") == ""
    # What is selected stays marked when the drawing is replaced.
    click(page, *middle(page, "[data-lot='5.1']"))
    page.type("#description", "sec. 15.")
    page.wait_for_text("#land-answer", "640.00 acres")
    assert len(page.all("#drawing .selection")) == 1 and "lot 1" in page.text("#selected")
    page.one("#selected").find_element("xpath", ".//button[.='Add to the description']").click()
    page.wait_for_text("#land-answer", "680.00 acres")
    assert page.value("#description") == "sec. 15; sec. 5, lot 1."


def test_a_click_selects_a_tract(sized: Page) -> None:
    page = sized
    list_tracts(page)
    section = box(page, "[data-section='14']")
    click(page, section["x"] + section["width"] * 0.25, section["y"] + section["height"] * 0.25)
    page.wait_for_text("#drawing", "Tract A")
    assert "Tract A: 320.00 acres" in page.text("#selected") and page.one("#panel-tracts").is_displayed()
    assert page.one("#tracts-table tr.chosen").text.startswith("A")
    # From the key, too.
    page.one("#key").find_element("xpath", ".//button[contains(., 'Tract C')]").click()
    page.wait_for(lambda: page.one("#tracts-table tr.chosen").text.startswith("C"))
    assert "Tract C: 160.00 acres" in page.text("#selected")


def test_a_click_in_a_section_alone(sized: Page) -> None:
    page = sized
    page.open_section(5)
    section = box(page, "[data-section='5']")
    # The tenth of the 32 columns and of the rows from the northwest is in the SE1/4NW1/4, and its NW1/4NW1/4.
    click(page, section["x"] + section["width"] * 9.5 / 32, section["y"] + section["height"] * 9.5 / 32)
    page.wait_for_text("#selected", "of section 5: 2.50 acres")
    assert "NW1/4NW1/4SE1/4NW1/4" in page.text("#selected")
    click(page, *middle(page, "[data-lot='5.4']"))
    assert "Section 5, lot 4: 40.00 acres" in page.text("#selected")


@pytest.mark.parametrize("size", [DESKTOP, PHONE])
def test_targets_can_be_hit(sized: Page, size: Tuple[int, int]) -> None:
    page = sized
    resize(page, size)
    page.driver.execute_script("for (const each of document.querySelectorAll('details')) each.open = true")
    for panel in ("plat", "land", "compare", "tracts"):
        page.tab(panel)
        if panel == "land":
            page.type("#description", "sec. 14, NE1/4 SE1/4.")
            page.wait_for_text("#land-answer", "Note")
        if panel == "tracts":
            list_tracts(page)
        page.click_target("section", "14")
        for steps in (0, 3):
            zoom_in(page, steps)
            found = page.driver.execute_script(HIT)
            drawn = [each for each in found if each[2].startswith("rect")]
            assert len(found) > 60 and len(drawn) >= 36 + 84
            small = [each for each in found if min(each[:2]) < 24 and not each[2].startswith("path Tract F")]
            assert small == [], panel
        page.one("#zoom-all").click()
        # A line and a lot are hit in their middle.
        for target in ["line='20'", "line='53'", *(["lot='5.1'"] if size == DESKTOP else [])]:
            page.driver.execute_script("document.querySelector(arguments[0]).scrollIntoView({block: 'center'})", f"[data-{target}]")
            name = re.sub("['=]", "", target)
            hit = page.driver.execute_script(
                "const {x, y, width, height} = document.querySelector(arguments[0]).getBoundingClientRect();"
                "const [[kind, value]] = Object.entries(document.elementFromPoint(x + width / 2, y + height / 2).dataset);"
                "return kind + value",
                f".targets [data-{target}]",
            )
            assert hit == name
