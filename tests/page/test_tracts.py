"""The panel of tracts: lists, their answers, and the table that is saved."""
from __future__ import annotations

import csv
import io
from pathlib import Path

from asking import SAMPLES
from page import Page


def test_tracts(page: Page) -> None:
    page.tab("tracts")
    page.put("#tracts", 'Tract\tDescription\nA\tsec. 14, N1/2.\nB\tsec. 14, E1/2.\n"C ""x"""\tsec. 5, N1/2.\n'.replace("Tract", "name"))
    page.wait_for_text("#tracts-answer", "480.00 acres in all, 22,560.00 acres remaining")
    assert "1 refused" in page.text("#tracts-answer")
    assert page.text("#tracts-answer li") == "A and B: 160.00 acres, sec. 14, NE1/4."
    names = [each.text for each in page.all("#tracts-table tbody th")]
    assert names == ["A", "B", 'C "x"']
    page.one("#tracts-table button").click()
    page.wait_for_text("#drawing", "Tract A")
    page.one("#save-tracts").click()
    rows = list(csv.DictReader(io.StringIO(page.saved("tracts.csv"))))
    assert [row["acres"] for row in rows] == ["320.00", "320.00", ""]
    assert rows[2]["refusal"] == "66" and rows[2]["name"] == 'C "x"'


def test_one_tract(page: Page) -> None:
    page.tab("tracts")
    page.put("#tracts", 'A,"sec. 14, N1/2."\n')
    page.wait_for_text("#tracts-answer", "1 tract: 320.00 acres in all")


def test_semicolons_in_a_list_with_commas(page: Page) -> None:
    page.tab("tracts")
    page.put("#tracts", 'A,"sec. 14, N1/2; sec. 15, N1/2."\nB,sec. 16.\n')
    page.wait_for_text("#tracts-answer", "1,280.00 acres in all")
    assert [each.text for each in page.all("#tracts-table tbody th")] == ["A", "B"]


def test_a_list_from_a_file(page: Page) -> None:
    page.open_sample()
    page.tab("tracts")
    page.one("#open-tracts").send_keys(str(SAMPLES / "tracts.csv"))
    page.wait_for_text("#tracts-answer", "78.20 acres in all, 22,959.37 acres remaining")


def test_a_list_is_never_read_as_other_land(page: Page) -> None:
    """A description without quotation marks has its place named; it is not cut at its separators."""
    page.tab("tracts")
    for text in ("Smith,sec. 14, NE1/4.", "Smith\tsec. 14\tNE1/4.", "name,description\nSmith,sec. 14, NE1/4.\n"):
        page.put("#tracts", text)
        page.wait_for_text("#tracts-table .wrong", "has 3 fields")
        assert "0.00 acres in all" in page.text("#tracts-answer") and page.all("#drawing .land") == []
    page.put("#tracts", "lot 1, sec. 5.")
    page.wait_for_text("#tracts-table .wrong", "line 1 may be a description alone")
    page.put("#tracts", "sec. 14; sec. 15")
    page.wait_for_text("#tracts-answer", "1,280.00 acres in all")
    page.put("#tracts", "name;description\r\nA;sec. 14, NE1/4.\r\n")
    page.wait_for_text("#tracts-answer", "160.00 acres in all")


def test_files_are_decoded_as_batch_decodes_them(page: Page, tmp_path: Path) -> None:
    page.tab("tracts")
    for encoding, said in (("utf-8-sig", ""), ("utf-16", "UTF-16"), ("utf-16-le", "UTF-16"), ("cp1252", "WINDOWS-1252")):
        file = tmp_path / f"{encoding}.csv"
        file.write_bytes('name;description\r\nÑ;"sec. 14, N½NE¼."\r\n'.encode(encoding))
        page.put("#tracts", "")
        page.one("#open-tracts").send_keys(str(file))
        page.wait_for_text("#tracts-answer", "80.00 acres in all")
        assert page.text("#tracts-table tbody th") == "Ñ"
        assert said in page.text("#said")
    file = tmp_path / "list.csv"
    file.write_bytes(b"PK\x03\x04")
    page.one("#open-tracts").send_keys(str(file))
    page.wait_for_text("#said", "list.csv is not opened: this file is a workbook or a document; save it as CSV")


def test_names_are_shown_as_text(page: Page) -> None:
    page.tab("tracts")
    page.put("#tracts", "<img src=x onerror=alert(1)>,sec. 14.\n<script>alert(1)</script>,sec. 14.\n")
    page.wait_for_text("#tracts-answer li", "<img src=x onerror=alert(1)> and <script>alert(1)</script>: 640.00 acres")
    page.one("#tracts-table button").click()
    page.wait_for_text("#drawing", "<img src=x")
    assert page.all("main script") == [] and page.all("main img") == []


def test_names_that_turn_the_text_round_are_escaped(page: Page) -> None:
    page.tab("tracts")
    page.put("#tracts", "A\u202ehtimS\u2066,sec. 14.\nB\u200b,sec. 14.\n")
    page.wait_for_text("#tracts-answer li", "A\\u202ehtimS\\u2066 and B\\u200b: 640.00 acres")
    names = [each.get_property("textContent") for each in page.all("#tracts-table tbody th")]
    assert names == ["A\\u202ehtimS\\u2066", "B\\u200b"]


def test_saved_cells_that_a_spreadsheet_would_run(page: Page) -> None:
    page.tab("tracts")
    # A text area makes a line feed of a carriage return.
    names = ["=1+1", "+1", "-1", "@SUM(A1)", "\tx", "\rx", "A-1"]
    listed = "name,description\n" + "".join(f'"{name}",sec. 14.\n' for name in names)
    page.put("#tracts", listed)
    page.wait_for_text("#tracts-answer", "7 tracts")
    page.one("#save-tracts").click()
    rows = list(csv.DictReader(io.StringIO(page.saved("tracts.csv"), newline="")))
    assert [row["name"] for row in rows] == ["'=1+1", "'+1", "'-1", "'@SUM(A1)", "'\tx", "'\nx", "A-1"]
    assert {row["acres"] for row in rows} == {"640.00"}


def test_answers_on_another_list_are_not_saved(page: Page) -> None:
    """Until the answers on the list as it is now have arrived."""
    page.tab("tracts")
    page.put("#tracts", "A,sec. 14.\n")
    page.wait_for_text("#tracts-answer", "640.00 acres in all")
    page.driver.execute_script("window.own = window.fetch; window.fetch = () => new Promise(() => {})")
    page.put("#tracts", "A,sec. 14, NE1/4.\n")
    page.one("#save-tracts").click()
    page.wait_for(lambda: page.text("#said") == "The answers are on their way. Save them when they are shown.")
    assert list(page.driver.downloads.glob("tracts*")) == []


def test_a_refused_or_emptied_list_leaves_no_answers(page: Page) -> None:
    page.tab("tracts")
    page.put("#tracts", "A,sec. 14.\n")
    page.wait_for_text("#tracts-answer", "640.00 acres in all")
    for text, said in (("", "Paste or open a list"), ("sec. 14.\n" * 1001, "more than 1,000 tracts")):
        page.put("#tracts", text)
        page.wait_for_text("#tracts-answer", said)
        assert not page.one("#tracts-table").is_displayed()
        page.wait_for(lambda: page.all("#drawing svg") and page.all("#drawing .land") == [])
        page.one("#save-tracts").click()
        assert page.saved("tracts.csv").count("\n") == 1
