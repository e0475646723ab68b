"""The main states of the page, as pictures that are compared with kept ones: `pictures/NAME.png`.

After a change that is meant to be seen, write them anew by `sh tests/page/run.sh --keep-pictures`, and look at them.
"""
from __future__ import annotations

import io
import itertools
from pathlib import Path
from typing import Any, Callable, Dict, Iterator, Optional

import pytest

from page import Page
from test_interface_lots import LAKE

PICTURES = Path(__file__).parent / "pictures"

#: The windows, each with the size of the kept pictures of it.
WINDOWS = {"": ((1200, 960), (400, 320)), "phone-": ((390, 844), (195, 422))}

#: How much the pixels may differ on average, of 255, and how many in a thousand may differ by more than a quarter.
#: Fonts are drawn a little differently by other versions of the browser.
MEAN_MOST = 3.0
THOUSANDTHS_MOST = 8


def the_plat(page: Page) -> None:
    page.one("[data-section='14']")


def land(page: Page) -> None:
    page.tab("land")
    page.type("#description", "sec. 5, lots 1 and 2, S1/2NE1/4; sec. 14, NE1/4 SE1/4.")
    page.wait_for_text("#land-answer", "201.00 acres")


def a_refusal(page: Page) -> None:
    page.tab("land")
    page.type("#description", "sec. 14, NE1/4 and N1/2.")
    page.wait_for_text("#land-answer", "Refused 67")


def the_readings(page: Page) -> None:
    page.tab("land")
    page.type("#description", "sec. 14: NE¼NE¼ SW¼SW¼")
    page.wait_for_text("#readings", "2.50 acres")


def a_section(page: Page) -> str:
    """On a phone, the drawing is below what is typed."""
    land(page)
    page.open_section(5)
    return "#sheet"


def comparison(page: Page) -> None:
    page.tab("compare")
    page.type("#first", "sec. 14, N1/2.")
    page.type("#second", "sec. 14, E1/2.")
    page.wait_for_text("#compare-answer", "The two overlap.")


def tracts(page: Page) -> None:
    page.tab("tracts")
    page.put("#tracts", 'A,"sec. 14, N1/2."\nB,"sec. 14, E1/2."\nC,"sec. 5, N1/2."\nD,sec. 28.\n')
    page.wait_for_text("#tracts-answer", "1 refused")


def doubtful_tracts(page: Page) -> None:
    page.tab("tracts")
    page.put("#tracts", "Smith,sec. 14: NE¼NE¼ SW¼SW¼\nJones,sec. 15: NE¼ SE¼\nBrown,sec. 14, NE1/4.\n")
    page.wait_for_text("#tracts-answer", "1 refused")
    page.driver.execute_script("document.querySelector('#tracts-table').scrollIntoView()")


def a_lot_table(page: Page) -> None:
    page.driver.execute_script("document.querySelector('#lot-table').open = true")
    page.put("#lots-text", "section,lot,acres\nT,2,N,3,W\n5,1,40.45\n5,2,40.50\n")
    page.tab("land")
    page.type("#description", "sec. 5, lots 1 and 2, S1/2NE1/4.")
    page.wait_for_text("#land-answer", "160.95 acres")


def lots_around_a_lake(page: Page) -> str:
    page.put("#lots-text", LAKE)
    page.driver.execute_script("document.querySelector('#lot-records').open = true")
    page.wait_for_text("#plat-answer", "22,982.10 acres")
    page.open_section(14)
    return "#lot-records"


def refused_notes(page: Page) -> None:
    page.type("#corner-53", "99.6")
    page.wait_for_text("#plat-answer", "Refused 23")


#: The states. Each returns what is scrolled into view, if that isn't the top of the page.
STATES: Dict[str, Callable[[Page], Optional[str]]] = {
    "plat": the_plat,
    "land": land,
    "refusal": a_refusal,
    "readings": the_readings,
    "section": a_section,
    "comparison": comparison,
    "tracts": tracts,
    "doubts": doubtful_tracts,
    "table": a_lot_table,
    "lake": lots_around_a_lake,
    "notes": refused_notes,
}


@pytest.fixture
def window(page: Page, size: str) -> Iterator[Page]:
    """The page with the sample, in a window of one size, with no cursor that blinks."""
    (width, height), _ = WINDOWS[size]
    metrics = {"width": width, "height": height, "deviceScaleFactor": 1, "mobile": False}
    page.driver.execute_cdp_cmd("Emulation.setDeviceMetricsOverride", metrics)
    try:
        page.open_sample()
        yield page
    finally:
        page.driver.execute_cdp_cmd("Emulation.setEmulatedMedia", {"features": []})
        page.driver.execute_cdp_cmd("Emulation.clearDeviceMetricsOverride", {})


@pytest.mark.parametrize("size", WINDOWS)
@pytest.mark.parametrize("theme", ["light", "dark"])
@pytest.mark.parametrize("name", STATES)
def test_picture(window: Page, name: str, theme: str, size: str, request: pytest.FixtureRequest) -> None:
    image = pytest.importorskip("PIL.Image")
    features = [{"name": "prefers-color-scheme", "value": theme}]
    window.driver.execute_cdp_cmd("Emulation.setEmulatedMedia", {"features": features})
    place = STATES[name](window)
    window.driver.execute_script("document.activeElement.blur(); scrollTo(0, 0)")
    if place is not None:
        window.driver.execute_script("document.querySelector(arguments[0]).scrollIntoView()", place)
    # The pointer is where something was clicked, and what is there now may look different below it.
    window.driver.execute_cdp_cmd("Input.dispatchMouseEvent", {"type": "mouseMoved", "x": 0, "y": 0})
    window.driver.execute_async_script("requestAnimationFrame(() => requestAnimationFrame(arguments[0]))")
    shown = image.open(io.BytesIO(window.driver.get_screenshot_as_png())).convert("L")
    shown = shown.resize(WINDOWS[size][1], image.BOX)
    kept = PICTURES / f"{size}{name}-{theme}.png"
    if request.config.getoption("--keep-pictures"):
        PICTURES.mkdir(exist_ok=True)
        shown.save(kept, optimize=True)
    differences = differences_of(shown, image.open(kept))
    assert sum(differences) / len(differences) <= MEAN_MOST
    assert 1000 * sum(each > 64 for each in differences) <= THOUSANDTHS_MOST * len(differences)


def differences_of(one: Any, other: Any) -> "list[int]":
    assert one.size == other.size
    return [abs(first - second) for first, second in zip(one.getdata(), other.getdata())]


def test_pictures_of_different_states_differ() -> None:
    """The tolerance is not so large that one state is taken for another."""
    image = pytest.importorskip("PIL.Image")
    for size, theme in itertools.product(WINDOWS, ("light", "dark")):
        pictures = [image.open(PICTURES / f"{size}{name}-{theme}.png") for name in STATES]
        for place, one in enumerate(pictures):
            for other in pictures[:place]:
                differences = differences_of(one, other)
                mean = sum(differences) / len(differences)
                many = sum(each > 64 for each in differences)
                assert mean > MEAN_MOST or 1000 * many > THOUSANDTHS_MOST * len(differences)
