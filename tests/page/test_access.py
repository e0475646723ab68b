"""The page without a mouse, with a screen reader, on any screen, and on paper."""
from __future__ import annotations

import re
from pathlib import Path
from typing import Dict, List, Tuple

import pytest

from page import Page

TOP = Path(__file__).resolve().parents[2]
STYLE = TOP / "bindings" / "python" / "src" / "township" / "_web" / "static" / "page.css"

#: Texts and what they are on; borders and marks, for which 3 to 1 is enough.
PAIRS = [
    ("ink", "paper", 4.5),
    ("ink", "ground", 4.5),
    ("soft", "paper", 4.5),
    ("soft", "ground", 4.5),
    ("accent", "paper", 4.5),
    ("on-accent", "accent", 4.5),
    ("wrong", "wrong-ground", 4.5),
    ("note", "note-ground", 4.5),
    ("ink", "wrong-ground", 4.5),
    ("ink", "note-ground", 4.5),
    ("edge", "paper", 3.0),
]


def themes() -> Dict[str, Dict[str, str]]:
    """The colors of both themes."""
    blocks = re.findall(r":root \{(.*?)\}", STYLE.read_text(), re.DOTALL)
    found = [dict(re.findall(r"--([a-z-]+): (#[0-9a-f]{6});", block)) for block in blocks]
    assert len(found) == 2
    return {"light": found[0], "dark": {**found[0], **found[1]}}


def luminance(color: str) -> float:
    """The relative luminance of a color, as the Web Content Accessibility Guidelines define it."""
    channels = [int(color[place : place + 2], 16) / 255 for place in (1, 3, 5)]
    linear = [each / 12.92 if each <= 0.04045 else ((each + 0.055) / 1.055) ** 2.4 for each in channels]
    return 0.2126 * linear[0] + 0.7152 * linear[1] + 0.0722 * linear[2]


def contrast(pair: Tuple[str, str]) -> float:
    dark, light = sorted(map(luminance, pair))
    return (light + 0.05) / (dark + 0.05)


def test_contrast_by_hand() -> None:
    assert contrast(("#000000", "#ffffff")) == pytest.approx(21)
    assert contrast(("#777777", "#ffffff")) == pytest.approx(4.48, abs=0.01)


@pytest.mark.parametrize("theme", ["light", "dark"])
@pytest.mark.parametrize("front, back, least", PAIRS)
def test_contrast(theme: str, front: str, back: str, least: float) -> None:
    colors = themes()[theme]
    assert contrast((colors[front], colors[back])) >= least


#: The roles of controls. A file input is a button for screen readers, and a selection a combobox.
CONTROLS = {"button", "checkbox", "combobox", "link", "tab", "textbox", "DisclosureTriangle"}


def controls(page: Page) -> List[Tuple[str, str]]:
    """The role and the name of each control, as the browser gives them to a screen reader."""
    nodes = page.driver.execute_cdp_cmd("Accessibility.getFullAXTree", {})["nodes"]
    shown = [node for node in nodes if not node["ignored"]]
    return [
        (node["role"]["value"], node.get("name", {}).get("value", "").strip())
        for node in shown
        if node["role"]["value"] in CONTROLS
    ]


def test_every_control_has_a_name_and_a_role(page: Page) -> None:
    for panel in ("plat", "land", "compare", "tracts"):
        page.tab(panel)
        page.driver.execute_script("for (const each of document.querySelectorAll('details')) each.open = true")
        found = controls(page)
        assert [each for each in found if not each[1]] == []
        names = [name for _, name in found]
        # The drawing: 84 lines, 47 lots, and 36 sections, which can be told apart by their names, with the acreage.
        drawn = [name for name in names if re.match(r"(Line \d+: |Section \d+(, lot \d)?: \d+\.\d\d acres$)", name)]
        assert len(drawn) == len(set(drawn)) == 84 + 47 + 36
        assert {role for role, _ in found} >= {"button", "combobox", "tab", "textbox"}


def test_the_structure_of_the_page(page: Page) -> None:
    assert page.one("html").get_attribute("lang") == "en"
    assert len(page.all("h1")) == 1 and len(page.all("main")) == 1
    assert page.driver.title == "Township plat"
    # Each table has headings, and answers are announced in one place.
    for table in page.all("table"):
        assert table.find_elements("css selector", "thead th[scope=col]")
    live = [each.get_attribute("id") for each in page.all("[role=status], [role=alert], [aria-live]")]
    assert live == ["said", "unkept", "spoken"]
    ids = [element.get_attribute("id") for element in page.all("[id]")]
    assert len(ids) == len(set(ids))
    for element in page.all("[aria-controls], [aria-describedby], [aria-labelledby]"):
        for name in ("aria-controls", "aria-describedby", "aria-labelledby"):
            for word in (element.get_attribute(name) or "").split():
                assert word in ids, word


def test_tabs_by_keyboard(page: Page) -> None:
    page.one("#tab-plat").send_keys(page.RIGHT)
    assert page.focused() == "tab-land" and page.one("#panel-land").is_displayed()
    page.press(page.LEFT, page.LEFT)
    assert page.focused() == "tab-tracts" and page.one("#panel-tracts").is_displayed()
    page.press(page.RIGHT)
    assert page.focused() == "tab-plat"
    # Only the tab that is open is reached by the Tab key.
    assert [tab.get_attribute("tabindex") for tab in page.all("[role=tab]")] == ["0", "-1", "-1", "-1"]


def test_the_drawing_by_keyboard(page: Page) -> None:
    page.driver.execute_script("document.querySelector('.targets [tabindex=\"0\"]').focus()")
    assert page.focused() == "Section 36: 640.00 acres"
    page.press(page.LEFT)
    assert page.focused() == "Line 36: between sections 36 and 35"
    page.press(page.LEFT)
    assert page.focused() == "Section 35: 640.00 acres"
    page.press(page.UP, page.UP)
    assert page.focused() == "Section 26: 640.00 acres"
    page.press(page.ENTER)
    assert "Section 26: 640.00 acres" in page.text("#selected")
    assert page.focused() == "Add to the description"
    page.press(page.ESCAPE)
    assert page.focused() == "Section 26: 640.00 acres" and page.text("#selected") == ""
    page.press(page.ENTER, page.TAB)
    assert page.focused() == "Section 26 alone"
    page.press(page.ENTER)
    page.wait_for_text("#drawing", "SECTION 26")
    assert page.focused() == "view"


def test_a_whole_case_by_keyboard(page: Page) -> None:
    """From the top of the page to an answer with the Tab key and letters alone."""
    page.driver.refresh()
    page.settle()
    page.one("body").send_keys(page.TAB)
    assert page.focused() == "Skip to the work area"
    page.press(page.ENTER, page.TAB)
    assert page.focused() == "tab-plat"
    page.press(page.RIGHT, page.TAB)
    assert page.focused() == "description"
    page.press("sec. 14, NE1/4.")
    page.wait_for_text("#land-answer", "160.00 acres")


#: Remembers each text that is announced, and when, in milliseconds after the last key.
LISTEN = """
window.heard = [];
window.lastKey = 0;
document.addEventListener('input', () => { window.lastKey = performance.now(); }, { capture: true });
new MutationObserver(() => {
  const text = document.querySelector('#spoken').textContent;
  if (text !== '') window.heard.push([text, performance.now() - window.lastKey]);
}).observe(document.querySelector('#spoken'), { childList: true, characterData: true, subtree: true });
"""


def test_answers_are_announced_once_after_a_pause(page: Page) -> None:
    page.tab("land")
    page.wait_for(lambda: page.text("#spoken") == "Write a description to see its land and acreage.")
    page.driver.execute_script(LISTEN)
    for text, said in (
        ("sec. 14, NE1/4 and N1/2.", "Refused 67: this land was named before"),
        ("sec. 14, NE1/4.", "160.00 acres."),
    ):
        page.type("#description", text)
        page.wait_for(lambda: said in page.text("#spoken"))
        heard = page.driver.execute_script("return window.heard.splice(0)")
        # Every key gets an answer, and only the last one is announced.
        assert len(heard) == 1 and heard[0][1] > 700
        assert not set("|^") & set(heard[0][0]) and said in heard[0][0]
        # Nothing is announced of what is folded away.
        assert "section lines" not in heard[0][0]
    assert page.one("#spoken").get_attribute("role") == "status"
    assert page.one("#land-answer").get_attribute("role") is None


def test_a_long_answer_is_announced_in_part(page: Page) -> None:
    page.tab("tracts")
    page.put("#tracts", "".join(f'Tract {k},"sec. 14, N1/2."\n' for k in range(12)))
    page.wait_for(lambda: "12 tracts: 320.00 acres in all" in page.text("#spoken"))
    assert 300 < len(page.text("#spoken")) <= 400 < len(page.text("#tracts-answer"))


def test_an_excerpt_says_what_is_marked(page: Page) -> None:
    page.tab("land")
    # At the end of a text, there is nothing to mark.
    for text, label in (("sec. 14, NE1/4 and N1/2.", "Marked: N1/2"), ("sec. 14, ", "Excerpt"), ("sec. 41.", "Marked: 41")):
        page.put("#description", text)
        page.wait_for(lambda: [each.get_attribute("aria-label") for each in page.all("#land-answer [role=img]")] == [label])


def test_every_figure_has_its_name_and_a_sentence(page: Page) -> None:
    page.put("#lots-text", "section,lot,acres\nT,2,N,3,W\n5,1,40.45\n5,2,40.50\n")
    page.put("#notes", page.value("#notes"))
    page.tab("land")
    page.type("#description", "sec. 5, lots 1 and 2.")
    page.wait_for_text("#land-answer", "80.95 acres")
    names = [each.text for each in page.all("#land-answer summary")]
    assert names[0] == "Lot table" and set(names) >= {"Lot table", "Exact area", "Canonical"}
    assert len(names) == 1 + len(page.all("#land-answer dd"))
    for summary in page.all("#land-answer summary"):
        sentence = summary.find_element("xpath", "../p")
        assert not sentence.is_displayed()
        summary.click()
        assert sentence.is_displayed() and sentence.text.endswith(".")
    assert "returned acreage" in page.text("#land-answer")
    # All of them are explained on every panel.
    page.one("details.terms summary").click()
    assert [each.text for each in page.all("#terms dt")] == ["Exact account", "Plat account", "Lot table", "Exact area", "Canonical"]
    assert len(page.all("#terms dd")) == 5
    page.put("#lots-text", "")
    page.tab("compare")
    page.put("#first", "sec. 14, N1/2.")
    page.put("#second", "sec. 14, E1/2.")
    page.wait_for_text("#compare-answer", "The two overlap.")
    heads = [each.text for each in page.all("#compare-answer thead th")]
    assert heads == ["Land", "Acres, exact account", "Plat account", "Canonical"]


#: Texts whose answers are wide: long words, and tables with many columns.
TEXTS = {
    "#description": "sec. 14, NE1/4NE1/4NE1/4NE1/4NE1/4; sec. 5, lot 1.",
    "#first": "sec. 14, NE1/4NE1/4NE1/4NE1/4NE1/4; sec. 5, lot 1.",
    "#second": "sec. 14, N1/2.",
    "#tracts": f"{'A' * 64},sec. 14.\n{'B' * 64},sec. 14.\n",
}


@pytest.mark.parametrize("width", [320, 480, 800, 1280, 2560])
def test_widths(page: Page, width: int) -> None:
    page.driver.execute_cdp_cmd(
        "Emulation.setDeviceMetricsOverride", {"width": width, "height": 900, "deviceScaleFactor": 1, "mobile": False}
    )
    try:
        page.put("#lots-text", "section,lot,acres\nT,2,N,3,W\n5,1,40.45\n")
        for panel in ("plat", "land", "compare", "tracts"):
            page.tab(panel)
            for area, text in TEXTS.items():
                page.put(area, text)
            page.settle()
            wide = page.driver.execute_script("return document.documentElement.scrollWidth")
            assert wide <= width, panel
            assert page.one("#drawing svg").rect["width"] > 0.3 * width or width >= 2000
    finally:
        page.driver.execute_cdp_cmd("Emulation.clearDeviceMetricsOverride", {})


def test_the_dark_theme(page: Page) -> None:
    features = [{"name": "prefers-color-scheme", "value": "dark"}]
    page.driver.execute_cdp_cmd("Emulation.setEmulatedMedia", {"features": features})
    try:
        colors = page.driver.execute_script(
            "const s = getComputedStyle(document.querySelector('#work'));"
            "const d = getComputedStyle(document.querySelector('#drawing svg'));"
            "return [s.backgroundColor, s.color, d.color]"
        )
        assert colors == ["rgb(23, 28, 34)", "rgb(230, 235, 240)", "rgb(230, 235, 240)"]
    finally:
        page.driver.execute_cdp_cmd("Emulation.setEmulatedMedia", {"features": []})
