"""How the page starts: with a choice of what the acreage is based on, and with examples; no plat is made up."""
from __future__ import annotations

from pathlib import Path
from typing import Dict, Tuple

import pytest
import township

from asking import SAMPLE
from page import Page

TOP = Path(__file__).resolve().parents[2]
STATIC = TOP / "bindings" / "python" / "src" / "township" / "_web" / "static"
TABLE = "section,lot,acres\nT,2,N,3,W\n5,1,40.45\n"


def test_the_page_starts_with_a_choice(first: Page) -> None:
    """Field notes, a lot table, the sample, or a nominal township: until one is chosen, no plat is shown anywhere."""
    assert first.one("#start").is_displayed() and not first.one("#sheet").is_displayed()
    choices = [each.text for each in first.all("#start > .choices:not(#examples) > li > strong")]
    assert choices == ["Field notes", "A lot table", "The sample", "A nominal township"]
    assert "nobody has measured it" in first.text("#start")
    for panel in ("plat", "land", "compare", "tracts"):
        first.tab(panel)
        assert first.text(f"#{panel}-answer") == "First choose what the acreage is based on."
    first.tab("land")
    first.type("#description", "sec. 14.")
    first.settle()
    assert first.text("#land-answer") == "First choose what the acreage is based on."
    assert first.all("#drawing svg") == [] and first.all("#lots tbody tr") == [] and first.text("#where") == ""
    assert first.value("#corner-53") == ""
    assert not first.one("#lines").is_displayed() and not first.one("#lots").is_displayed()
    # What was typed before is answered as soon as there is a plat.
    first.start_nominal()
    first.wait_for_text("#land-answer", "640.00 acres")
    assert not first.one("#start").is_displayed() and first.one("#sheet").is_displayed()


def test_the_choice_of_field_notes(first: Page) -> None:
    first.one("#start-notes").send_keys(str(SAMPLE))
    first.wait_for_text("#plat-answer", "23,037.57 acres")
    assert first.text("#where") == "T. 2 N., R. 3 W." and "nominal" not in first.text("#plat-answer")
    # The choice can be undone, and made again.
    first.one("#undo").click()
    first.wait_for(lambda: first.one("#start").is_displayed())
    first.settle()
    assert first.text("#plat-answer") == "First choose what the acreage is based on." and first.text("#where") == ""
    first.one("#redo").click()
    first.wait_for_text("#plat-answer", "23,037.57 acres")


def test_field_notes_are_pasted(first: Page) -> None:
    first.tab("tracts")
    first.one("#paste-notes").click()
    first.settle()
    assert first.focused() == "notes" and first.one("#notes").is_displayed() and first.value("#notes") == ""
    first.put("#notes", SAMPLE.read_text())
    first.wait_for_text("#plat-answer", "23,037.57 acres")


def test_the_choice_of_a_lot_table(first: Page, tmp_path: Path) -> None:
    """Nothing is then known of the plat but what the table says."""
    file = tmp_path / "lots.csv"
    file.write_text(TABLE)
    first.one("#start-lots").send_keys(str(file))
    first.wait_for_text("#plat-answer", "There is only a lot table.")
    assert not first.one("#lines").is_displayed() and "20.00" not in first.text("#drawing")
    assert first.text("#lot-5\\.1 .figure") == "40.45" and first.text("#lot-5\\.2 .figure") == "lacking"


def test_a_lot_table_is_pasted(first: Page) -> None:
    first.one("#paste-lots").click()
    first.settle()
    assert first.focused() == "lots-text"
    first.put("#lots-text", TABLE)
    first.wait_for_text("#plat-answer", "There is only a lot table.")


def test_the_sample(first: Page) -> None:
    first.one("#start-sample").click()
    first.wait_for_text("#plat-answer", "23,037.57 acres")
    assert township.Plat.read(first.value("#notes")) == township.Plat.open(SAMPLE)
    assert (STATIC / "sample.csv").read_text() == SAMPLE.read_text()


def test_the_choice_of_a_nominal_township(first: Page) -> None:
    """It is the one that is named, and says wherever it is shown that it is nominal."""
    first.type("#start-township", "the old mill")
    first.press(first.ENTER)
    first.wait_for_text("#said", "unexpected `the old mill`; expected the township number, 1 to 99")
    assert first.one("#start").is_displayed()
    first.start_nominal("T14S R7E")
    first.wait_for_text("#drawing", "TOWNSHIP 14 SOUTH, RANGE 7 EAST")
    assert "This township is nominal: all section lines are regular." in first.text("#plat-answer")
    first.tab("land")
    assert first.text("#where") == "T. 14 S., R. 7 E. (nominal)"
    first.tab("plat")
    # The figure of one line, which is not regular, makes it a plat of field notes.
    first.type("#corner-53", "79.60")
    first.wait_for(lambda: first.text("#where") == "T. 14 S., R. 7 E.")
    assert "nominal" not in first.text("#plat-answer")


#: The examples, one of each kind of source: what they show, by the places where they show it.
EXAMPLES: Dict[str, Dict[str, Tuple[str, ...]]] = {
    "Field notes": {"#plat-answer": ("23,037.57 acres",), "#lot-7\\.4": ("39.03",)},
    # 40.45 + 40.55, and two quarter-quarter sections of 40 acres.
    "Lot table": {"#land-answer": ("161.00 acres", "Each lot counts at its returned acreage"), "#plat-answer": ("There is only a lot table.",)},
    "Lots around a lake": {"#land-answer": ("150.55 acres",), "#drawing": ("Lot 2", "No land"), "#plat-answer": ("22,982.10",)},
    # As docs/TRACTS-FORMAT.md and the README show the sample's lots: 161.00, and 156.40 or 156.42.
    "Description": {"#land-answer": ("317.40 acres", "317.42 acres")},
    "Text of a lease": {"#readings": ("Perhaps this was meant", "120.00 acres", "is section, township, and range")},
    "Doubtful text": {"#readings": ("Which was meant?", "80.00 acres", "2.50 acres"), "#land-answer": ("Note: ",)},
    "Two descriptions": {"#compare-answer": ("The two overlap.", "160.00")},
    "List of tracts": {
        "#tracts-answer": ("5 tracts", "Smith and Jones: 160.00 acres", "Not counted: 1 refused."),
        "#tracts-table": ("Tract Baker. Note: ", "refused 66", "156.40"),
    },
}


def test_each_kind_of_source_has_an_example(first: Page) -> None:
    assert [each.text for each in first.all("#examples button")] == list(EXAMPLES)
    # Each says what it shows.
    assert all(len(each.text) > len(title) + 40 for each, title in zip(first.all("#examples li"), EXAMPLES))


@pytest.mark.parametrize("title", EXAMPLES)
def test_an_example(first: Page, title: str) -> None:
    [button] = [each for each in first.all("#examples button") if each.text == title]
    button.click()
    for selector, words in EXAMPLES[title].items():
        for each in words:
            first.wait_for_text(selector, each)
    assert first.one("#case option:checked").text == f"Example: {title.lower()}"
    assert ("nominal" in first.text("#where")) is False


def test_the_choice_by_keyboard_and_on_a_phone(first: Page) -> None:
    size = {"width": 320, "height": 640, "deviceScaleFactor": 1, "mobile": False}
    first.driver.execute_cdp_cmd("Emulation.setDeviceMetricsOverride", size)
    try:
        first.driver.execute_script("document.querySelector('#this-case').open = true")
        assert first.driver.execute_script("return document.documentElement.scrollWidth") <= 320
        first.driver.execute_script("document.querySelector('#start-sample').focus()")
        first.press(first.TAB)
        assert first.focused() == "start-township"
        first.press("T. 5 N., R. 1 E.", first.ENTER)
        first.wait_for_text("#where", "T. 5 N., R. 1 E. (nominal)")
    finally:
        first.driver.execute_cdp_cmd("Emulation.clearDeviceMetricsOverride", {})


def test_an_example_is_opened_beside_the_own_work(first: Page) -> None:
    first.tab("land")
    first.type("#description", "sec. 14.")
    first.settle()
    first.one("#examples button").click()
    first.wait_for_text("#plat-answer", "23,037.57 acres")
    assert sorted(each.text.split(",")[0] for each in first.all("#case option")) == ["Example: field notes", "sec. 14."]
