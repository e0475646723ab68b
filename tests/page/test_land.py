"""The panels of a description and of a comparison: acreage, refusals, notes, and readings."""
from __future__ import annotations

from asking import SAMPLE
from casework import link_of
from page import Page


def test_a_description(page: Page) -> None:
    page.open_sample()
    page.tab("land")
    page.type("#description", "sec. 5, lots 1 and 2, S1/2NE1/4.")
    page.wait_for_text("#land-answer", "161.00 acres")
    page.wait_for_text("#drawing", "sec. 5, lots 1, 2, S1/2NE1/4.")
    assert len(page.all("#drawing .land")) == 1
    page.type("#description", "sec. 7, lots 1 to 4.")
    page.wait_for_text("#land-answer", "156.40 acres")
    page.wait_for_text("#land-answer", "156.42 acres")


def test_a_lot_is_clicked(page: Page) -> None:
    page.click_target("lot", "5.1")
    assert page.focused() == "Use section 5, lot 1 in the description"
    page.press(page.ENTER)
    page.wait_for_text("#land-answer", "40.00 acres")
    assert page.value("#description") == "sec. 5, lot 1."


def test_a_clicked_lot_is_added_to_a_description(page: Page) -> None:
    for before in ("sec. 14", "sec. 14.", "sec. 14;"):
        page.tab("land")
        page.type("#description", before)
        page.click_target("lot", "5.1")
        page.press(page.ENTER)
        page.wait_for_text("#land-answer", "680.00 acres")
        assert page.value("#description") == "sec. 14; sec. 5, lot 1."


def test_a_refusal_underlines_its_place(page: Page) -> None:
    page.tab("land")
    page.type("#description", "sec. 14, NE1/4 and N1/2.")
    page.wait_for_text("#land-answer", "this land was named before")
    assert "overlaps it; both include sec. 14, NE1/4" in page.text("#land-answer")
    page.wait_for(lambda: page.text("#panel-land .back mark") == "N1/2")
    assert page.one("#description").get_attribute("aria-invalid") == "true"


def test_a_note(page: Page) -> None:
    page.tab("land")
    page.type("#description", "sec. 14, NE1/4 SE1/4.")
    page.wait_for_text("#land-answer .note", "write a comma after NE1/4 (320.00 acres)")
    assert page.text("#panel-land .back mark") == "SE1/4"


def test_readings_are_picked(page: Page) -> None:
    page.tab("land")
    page.type("#description", "sec. 14: NE¼NE¼ SW¼SW¼")
    page.wait_for_text("#readings", "Which was meant?")
    # Two parts of 40 acres each; or one of a sixteenth of 40 acres.
    assert [each.text for each in page.all("#readings strong")] == ["80.00 acres", "2.50 acres"]
    assert len(page.all("#readings img")) == 2
    page.one("#readings button").click()
    page.wait_for_text("#land-answer", "80.00 acres")
    assert page.value("#description") == "sec. 14: NE¼NE¼, SW¼SW¼"
    assert page.focused() == "description" and page.all("#readings button") == []


def test_a_reading_says_its_condition_and_what_it_assumes(page: Page) -> None:
    page.tab("land")
    page.type("#description", "sec. 14: NE¼NE¼ SW¼SW¼")
    page.wait_for_text("#readings", "Which was meant?")
    assert [each.text for each in page.all("#readings em")] == ["If the space separates two parts", "As it is written"]
    assert "Assumed: `NE¼NE¼ SW¼SW¼`: no comma is missing" in page.text("#readings")


def test_a_text_without_a_reading_says_why(page: Page) -> None:
    page.tab("land")
    page.type("#description", "sec. 14, the old mill")
    page.wait_for_text("#readings", "No reading of this text is certain: the marked words are not understood.")
    assert [each.get_property("textContent") for each in page.all("#panel-land .back mark")] == ["old mill"]
    page.type("#description", "NENE, S2NE4 Sec 14-2N-3W near quux")
    page.wait_for(lambda: page.text("#panel-land .back mark") == "near quux")
    page.settle()
    page.type("#description", "sec. 14, that portion of the NE/4 lying north of the road")
    page.wait_for_text("#readings", "Lots and aliquot parts can't describe this land: a portion needs a survey.")
    assert "portion" in [each.get_property("textContent") for each in page.all("#panel-land .back mark")]


def test_a_phrase_is_left_out(page: Page) -> None:
    page.tab("land")
    page.type("#description", "sec. 14, blah NE1/4")
    page.wait_for_text("#readings", "Not understood: `blah`")
    press(page, "Leave out `blah`")
    page.wait_for_text("#readings", "Perhaps this was meant")
    assert "Assumed: without `blah`: you said that this is not land" in page.text("#readings")
    # Who works with a keyboard goes on with the reading, which is picked by its button.
    page.wait_for(lambda: "160.00 acres" in page.focused())
    page.press(page.ENTER)
    page.wait_for_text("#land-answer", "160.00 acres")
    assert page.value("#description") == "sec. 14, NE1/4"


def test_phrases_that_are_left_out_are_part_of_the_case(page: Page) -> None:
    page.tab("land")
    page.type("#description", "sec. 14, blah N1/2NE1/4, quux SW1/4")
    page.wait_for_text("#readings", "Not understood: `quux`")
    press(page, "Leave out `blah`")
    page.wait_for_text("#readings", "Left out, as you said: `blah`")
    press(page, "Leave out `quux`")
    page.wait_for_text("#readings", "Perhaps this was meant")
    page.open()
    page.wait_for_text("#readings", "Perhaps this was meant")
    # They are found in other texts, too, and only where they are.
    page.type("#description", "sec. 14, QUUX NW1/4")
    page.wait_for(lambda: "QUUX" in page.text("#readings") and "Left out, as you said: `quux`" in page.text("#readings"))
    assert "blah" not in page.text("#readings")


def test_a_phrase_is_read_again(page: Page) -> None:
    page.tab("land")
    page.type("#description", "sec. 14, blah NE1/4")
    page.wait_for_text("#readings", "Not understood: `blah`")
    for act in (lambda: press(page, "Read `blah` again"), lambda: page.one("#undo").click()):
        press(page, "Leave out `blah`")
        page.wait_for_text("#readings", "Perhaps this was meant")
        act()
        page.wait_for_text("#readings", "Not understood: `blah`")
        page.wait_for(lambda: [each.get_property("textContent") for each in page.all("#panel-land .back mark")] == ["blah"])


def test_a_phrase_that_can_not_be_left_out(page: Page) -> None:
    page.tab("land")
    page.type("#description", "S2, 12, T2N R3W")
    page.wait_for_text("#readings", "Not understood: `12`")
    # What can be read in two ways is not a phrase that nobody knows.
    assert [each.text for each in page.all("#readings button")] == ["Leave out `12`"]
    press(page, "Leave out `12`")
    page.wait_for_text("#readings", "`12` can't be left out: it names, excepts, or limits land, or contains a number")
    # It stays in the text, and is not kept.
    assert "Not understood: `12`" in page.text("#readings") and "as you said" not in page.text("#readings")


def test_a_phrase_of_a_link_that_can_not_be_left_out(page: Page) -> None:
    values = {"notes": SAMPLE.read_text(), "description": "sec. 14, blah NE1/4", "panel": "land", "ignored": "Lot 3\nblah"}
    page.open(link_of(**values))
    page.wait_for_text("#readings", "`Lot 3` can't be left out: ")
    page.wait_for_text("#readings", "Perhaps this was meant")


def test_a_phrase_is_left_out_of_the_other_texts(page: Page) -> None:
    page.tab("compare")
    page.put("#first", "sec. 14, blah NE1/4")
    page.put("#second", "sec. 14.")
    page.wait_for_text("#compare-answer", "Refused")
    press(page, "Show the readings")
    page.wait_for_text("#compare-readings", "Not understood: `blah`")
    press(page, "Leave out `blah`")
    page.wait_for_text("#compare-readings", "The first description. Perhaps this was meant")
    page.tab("tracts")
    page.put("#tracts", 'A,"sec. 14, blah NW1/4"\n')
    page.wait_for_text("#tracts-table", "refused 44")
    press(page, "Show the readings")
    page.wait_for_text("#tracts-readings", "Tract A. Perhaps this was meant")
    press(page, "Read `blah` again")
    page.wait_for_text("#tracts-readings", "Not understood: `blah`")


def press(page: Page, words: str) -> None:
    """Press the button with these words that is shown."""

    def shown() -> "object":
        buttons = page.all("[role=tabpanel] button")
        return next((each for each in buttons if each.text == words and each.is_displayed()), None)

    page.wait_for(shown).click()


def test_the_readings_of_a_text_that_is_one_itself(page: Page) -> None:
    page.tab("land")
    page.type("#description", "sec. 14, E1/2 of NE1/4 and SE1/4")
    page.wait_for_text("#readings", "Which was meant?")
    # The east half of a quarter and a quarter, or the east halves of two quarters.
    assert [each.text for each in page.all("#readings strong")] == ["240.00 acres", "160.00 acres"]


def test_a_reading_is_picked_by_keyboard(page: Page) -> None:
    page.tab("land")
    page.type("#description", "NENE, S2NE4 Sec 14-2N-3W")
    page.wait_for_text("#readings", "Perhaps this was meant")
    page.wait_for_text("#readings", "Sec 14-2N-3W is section, township, and range")
    # The message before it can be scrolled, and takes a step of its own.
    for _ in range(3):
        page.press(page.TAB)
        if "120.00 acres" in page.focused():
            break
    page.press(page.ENTER)
    page.wait_for_text("#land-answer", "120.00 acres")
    assert page.value("#description") == "T. 2 N., R. 3 W., sec. 14, NE1/4NE1/4, S1/2NE1/4"


def test_comparison(page: Page) -> None:
    page.tab("compare")
    page.type("#first", "sec. 14, N1/2.")
    page.type("#second", "sec. 14, E1/2.")
    page.wait_for_text("#compare-answer", "The two overlap.")
    rows = [row.text for row in page.all("#compare-answer tbody tr")]
    assert [row.split()[-2] + " " + row.split()[-1] for row in rows] == ["14, NE1/4.", "14, NW1/4.", "14, SE1/4."]
    assert len(page.all("#drawing .land")) == 3
    page.type("#second", "sec. 5, N1/2.")
    page.wait_for_text("#compare-answer", "The second description: Refused 66")


def test_comparison_of_land_that_contains_other_land(page: Page) -> None:
    page.tab("compare")
    page.type("#first", "sec. 14, N1/2.")
    page.type("#second", "sec. 14, NE1/4.")
    page.wait_for_text("#compare-answer", "The first contains the second, and more.")
    page.type("#first", "sec. 14, NW1/4NE1/4.")
    page.wait_for_text("#compare-answer", "The second contains the first, and more.")
