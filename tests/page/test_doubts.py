"""Doubtful places, and texts that are not written as descriptions are, wherever the page answers them."""
from __future__ import annotations

import csv
import io

import pytest

from page import Page

#: Two doubtful places, of 2.50 and of 40 acres.
TEXT = "sec. 14: NE¼NE¼ SW¼SW¼; sec. 15: NE1/4 SE1/4."


def prepare_print(page: Page) -> str:
    """The notes of the printed sheet."""
    page.driver.execute_script("dispatchEvent(new Event('beforeprint'))")
    return page.text("#printed")


def test_doubtful_places_of_a_description(page: Page) -> None:
    page.tab("land")
    page.type("#description", TEXT)
    page.wait_for_text("#land-answer", "42.50 acres")
    assert [each.get_property("textContent") for each in page.all("#panel-land .back mark")] == ["SW¼SW¼", "SE1/4"]
    assert len(page.all("#land-answer .note")) == 2 and "can be read in two ways" in page.text("#drawing")
    assert prepare_print(page).count("Note: ") == 2


def test_doubtful_places_of_tracts(page: Page) -> None:
    """Each is marked and has its note, on the page, on the printed sheet, and in the saved file."""
    page.tab("tracts")
    page.put("#tracts", f"Smith,{TEXT}\nB,sec. 16.\n")
    page.wait_for_text("#tracts-answer", "682.50 acres in all")
    assert [each.text for each in page.all("#tracts-table mark")] == ["SW¼SW¼", "SE1/4"]
    notes = [each.text for each in page.all("#tracts-table .note")]
    assert len(notes) == 2 and "(80.00 acres)" in notes[0] and "(320.00 acres)" in notes[1]
    assert "Tracts, some doubtful" in page.text("#drawing")
    printed = prepare_print(page)
    assert "Tract Smith. Note: NE1/4NE1/4 SW1/4SW1/4 is read as one part of 2.50 acres" in printed
    assert printed.count("Tract Smith. Note: ") == 2 and "readings" not in printed
    page.one("#save-tracts").click()
    [smith, other] = csv.DictReader(io.StringIO(page.saved("tracts.csv")))
    assert smith["acres"] == "42.50" and smith["note"].count("if two parts were meant") == 2 and other["note"] == ""
    page.one("#tracts-table button").click()
    page.wait_for_text("#drawing", "Tract Smith, doubtful")


def test_doubtful_places_of_a_comparison(page: Page) -> None:
    page.tab("compare")
    page.type("#first", "sec. 14.")
    page.type("#second", TEXT)
    page.wait_for_text("#compare-answer .note", "The second description. Note: NE1/4NE1/4 SW1/4SW1/4 is read as one part")
    assert [each.get_property("textContent") for each in page.all("#panel-compare .back mark")] == ["SW¼SW¼", "SE1/4"]
    shown = page.text("#drawing")
    assert all(each in shown for each in ("In both, doubtful", "First only, doubtful", "Second only, doubtful"))
    assert prepare_print(page).count("The second description. Note: ") == 2
    page.type("#second", "sec. 14: NE¼NE¼ SW¼SW¼")
    page.wait_for(lambda: len(page.all("#compare-answer .note")) == 1)
    page.settle()
    page.one("#compare-answer .note button").click()
    page.wait_for_text("#compare-readings h2", "The second description. Which was meant?")
    page.one("#compare-readings .reading").click()
    page.wait_for(lambda: page.value("#second") == "sec. 14: NE¼NE¼, SW¼SW¼")
    page.wait_for(lambda: page.all("#compare-answer .note") == [])
    page.settle()
    assert "In both" in page.text("#drawing") and "doubtful" not in page.text("#drawing")


def test_the_readings_of_a_refused_description_of_a_comparison(page: Page) -> None:
    page.tab("compare")
    page.type("#first", "NENE, S2NE4 Sec 14-2N-3W")
    page.type("#second", "sec. 14.")
    page.wait_for_text("#compare-answer", "The first description: Refused")
    page.one("#compare-answer .refused button").click()
    page.wait_for_text("#compare-readings", "The first description. Perhaps this was meant")
    page.one("#compare-readings .reading").click()
    page.wait_for_text("#compare-answer", "The second contains the first, and more.")
    assert page.value("#second") == "sec. 14." and page.focused() == "first"
    page.one("#undo").click()
    page.wait_for(lambda: page.value("#first") == "NENE, S2NE4 Sec 14-2N-3W")


#: Lists in several forms, and what they are after the first reading of their second tract was picked.
LISTS = [
    ("A,sec. 1.\nB,sec. 14: NE¼NE¼ SW¼SW¼\nC,sec. 3.\n", 'A,sec. 1.\nB,"sec. 14: NE¼NE¼, SW¼SW¼"\nC,sec. 3.\n'),
    (
        'name;description;note\nÑ½;sec. 1.;x\n"B ""1""";"sec. 14: NE¼NE¼ SW¼SW¼";"y;\nz"\nC;sec. 3.;\n',
        'name;description;note\nÑ½;sec. 1.;x\n"B ""1""";"sec. 14: NE¼NE¼, SW¼SW¼";"y;\nz"\nC;sec. 3.;\n',
    ),
    ("A\tsec. 1.\n\n\tsec. 14: NE¼NE¼ SW¼SW¼", 'A\tsec. 1.\n\n\t"sec. 14: NE¼NE¼, SW¼SW¼"'),
    ("sec. 1.\nsec. 14: NE¼NE¼ SW¼SW¼\n", 'sec. 1.\n"sec. 14: NE¼NE¼, SW¼SW¼"\n'),
    ("sep=;\ndescription\nsec. 1.\nsec. 14: NE¼NE¼ SW¼SW¼\n", 'sep=;\ndescription\nsec. 1.\n"sec. 14: NE¼NE¼, SW¼SW¼"\n'),
]


@pytest.mark.parametrize("before, after", LISTS)
def test_a_reading_is_picked_in_a_list(page: Page, before: str, after: str) -> None:
    """It replaces the description of its tract, and nothing else; and can be undone."""
    page.tab("tracts")
    page.put("#tracts", before)
    page.wait_for(lambda: page.all("#tracts-table .note button"))
    page.settle()
    page.one("#tracts-table .note button").click()
    page.wait_for_text("#tracts-readings", "Which was meant?")
    assert [each.text for each in page.all("#tracts-readings strong")] == ["80.00 acres", "2.50 acres"]
    page.one("#tracts-readings .reading").click()
    page.wait_for(lambda: page.all("#tracts-table .note") == [])
    page.settle()
    assert page.value("#tracts") == after and page.all("#tracts-readings .reading") == []
    assert [row.text.split("\n")[1] for row in page.all("#tracts-table tbody tr")][1].startswith("80.00")
    assert page.focused() == "tracts"
    page.one("#undo").click()
    page.wait_for(lambda: page.value("#tracts") == before)


def test_the_readings_of_a_refused_tract(page: Page) -> None:
    page.tab("tracts")
    page.put("#tracts", 'A,sec. 1.\nMontgomery,"NENE, S2NE4 Sec 14-2N-3W"\n')
    page.wait_for_text("#tracts-table .wrong", "refused ")
    # The name is beside the reason, and not over it.
    name, reason = page.one("#tracts-table .wrong button").rect, page.one("#tracts-table .wrong td").rect
    assert name["x"] + name["width"] <= reason["x"]
    page.one("#tracts-table .wrong .to-readings").click()
    page.wait_for_text("#tracts-readings", "Tract Montgomery. Perhaps this was meant")
    page.one("#tracts-readings .reading").click()
    page.wait_for_text("#tracts-answer", "760.00 acres in all")
    assert page.value("#tracts") == 'A,sec. 1.\nMontgomery,"T. 2 N., R. 3 W., sec. 14, NE1/4NE1/4, S1/2NE1/4"\n'
    assert page.text("#said") == "The description of tract Montgomery is replaced in the list."


def test_no_old_readings_stay(page: Page) -> None:
    """Neither in a list that has changed, nor beside a description without an answer."""
    page.tab("tracts")
    page.put("#tracts", "A,sec. 14: NE¼NE¼ SW¼SW¼\n")
    page.wait_for(lambda: page.all("#tracts-table .note button"))
    page.settle()
    page.one("#tracts-table .note button").click()
    page.wait_for_text("#tracts-readings", "Which was meant?")
    page.put("#tracts", "A,sec. 1.\n")
    page.wait_for_text("#tracts-answer", "640.00 acres")
    assert page.text("#tracts-readings") == ""
    page.tab("land")
    page.type("#description", "sec. 14: NE¼NE¼ SW¼SW¼")
    page.wait_for_text("#readings", "Which was meant?")
    page.driver.execute_script(
        "window.fetch = async () => new Response(JSON.stringify({ error: 'out of memory' }), { status: 503 })"
    )
    page.put("#description", "sec. 15: NE1/4 SE1/4.")
    page.wait_for_text("#land-answer", "No answer: out of memory")
    assert page.text("#readings") == "" and page.all("#panel-land .back mark") == []
    assert page.all("#drawing svg") == []
    page.open()


def test_texts_in_readings_that_turn_the_text_round(page: Page) -> None:
    """Phrases of the text are shown escaped."""
    answered = """
    const own = window.fetch;
    window.fetch = async (path, ...more) => {
        const response = await own(path, ...more);
        if (!path.endsWith("suggest")) return response;
        const answer = await response.json();
        answer.readings[0].phrases.push({ text: "A\\u202ehtimS", meaning: "is a name" });
        return new Response(JSON.stringify(answer));
    };
    """
    page.driver.execute_script(answered)
    page.tab("land")
    page.type("#description", "sec. 14: NE¼NE¼ SW¼SW¼")
    page.wait_for_text("#readings", "A\\u202ehtimS is a name")
    page.open()
