"""The JSON interface with lot tables that say where their lots lie."""
from __future__ import annotations

import json
import re
import xml.etree.ElementTree as ET
from pathlib import Path
from typing import Any, Dict, List

import pytest
import township

from asking import NOTES, Interface

DOCUMENTS = Path(__file__).resolve().parents[2] / "docs"
PAGE = (DOCUMENTS / "HTTP.md").read_text()
[BLOCK] = re.findall(r"(?m)^    section,lot,acres,land\n(?:    .*\n)+", PAGE)

#: The township with the lake, as docs/HTTP.md shows it.
LAKE = "".join(line[4:] for line in BLOCK.splitlines(True))
LOTS = township.Lots.read(LAKE)

#: A township of which nothing is there but section 1, without its northeast quarter.
ONE_SECTION = "section,lot,acres,land\nT,2,N,3,W\n1,,,NE1/4\n" + "".join(f'{number},,,"N1/2, S1/2"\n' for number in range(2, 37))


def test_the_table_of_the_document() -> None:
    assert LAKE in "".join(line[4:] for line in (DOCUMENTS / "LOTS-FORMAT.md").read_text().splitlines(True) if line[:4] == "    ")


def test_where_the_lots_are(server: Interface) -> None:
    answer = server.ask("plat", lots=LAKE)
    # The section as the document shows it.
    shown = re.search(r'(?m)^    (\{"section": 14, .*\n.*\})$', PAGE)
    assert answer["sections"][13] == json.loads(shown[1])
    assert (answer["basis"], answer["date"], answer["total"]) == ("lots", "1912-03-04", "22982.10")
    nothing: Dict[str, List[Any]] = {"lots": [], "numbers": [], "land": []}
    assert answer["sections"][0] == {"section": 1, "total": "640.00", **nothing, "no_land": None}
    assert "closing_quarters" not in answer and "notes" not in answer


def test_the_answers_of_the_document(server: Interface) -> None:
    rows = re.findall(r"(?m)^\| `(sec\. 14.*?)` \| (?:`(.*?)`|refused (\d+): .*) \|$", PAGE)
    assert len(rows) == 4
    for description, acres, number in rows:
        answer = server.ask("land", lots=LAKE, description=description)
        if number:
            assert answer["refused"]["number"] == int(number), description
        else:
            assert {"acres": answer["acres"]} == json.loads(f"{{{acres}}}"), description
            assert answer["canonical"] == LOTS.normal(description)


def test_a_section_that_is_not_there(server: Interface) -> None:
    answer = server.ask("plat", lots=ONE_SECTION)
    assert (answer["total"], answer["sections"][0]["total"], answer["sections"][1]["total"]) == ("480.00", "480.00", "0.00")
    assert answer["sections"][0]["no_land"] == "NE1/4"
    report = server.ask("report", lots=ONE_SECTION, tracts=[{"name": "A", "description": "sec. 1, NW1/4."}])
    assert (report["total"]["acres"], report["remaining"]["acres"]) == ({"lots": "160.00"}, {"lots": "320.00"})
    assert report["remaining"]["canonical"].splitlines()[1] == "sec. 1, S1/2."
    nothing = ONE_SECTION.replace("1,,,NE1/4", '1,,,"N1/2, S1/2"')
    report = server.ask("report", lots=nothing, tracts=[{"name": "A", "description": "sec. 1."}])
    assert report["tracts"][0]["refused"]["number"] == 68
    assert report["remaining"] == {"acres": {"lots": "0.00"}, "canonical": ""}


def test_field_notes_beside_it_are_not_used(server: Interface) -> None:
    answer = server.ask("plat", lots=LAKE, notes=NOTES, draw=True)
    assert answer["total"] == "22982.10" and "closing_quarters" not in answer and "19.60" not in answer["svg"]
    # What is written in them is shown nevertheless.
    assert len(answer["written"]["lines"]) == 84
    land = server.ask("land", lots=LAKE, notes=NOTES, description="sec. 14, lots 1 to 3.")
    assert (land["acres"], land["area"]) == ({"lots": "70.55"}, {"lots": "1411/20"})
    reply = server.post("land", json.dumps({"lots": LAKE, "township": "T. 3 N., R. 3 W.", "description": ""}).encode())
    assert reply.status == 400 and "the lot table is for T. 2 N., R. 3 W." in reply.json["error"]


def test_a_batch(server: Interface) -> None:
    descriptions = ["sec. 14, lots 1 to 3.", "sec. 14, NE1/4.", "sec. 5, lot 1.", "sec. 5, lot 2.", "sec. 14, SE1/4 SW1/4."]
    answer = server.ask("batch", lots=LAKE, descriptions=descriptions)
    assert answer["acres"] == ["70.55", None, "40.45", None, "40.00"]
    assert [(each["index"], each["number"]) for each in answer["refused"]] == [(1, 66), (3, 64)]
    for account in ("exact", "plat"):
        reply = server.post("batch", json.dumps({"lots": LAKE, "descriptions": descriptions, "account": account}).encode())
        assert reply.status == 400 and "must be `lots`" in reply.json["error"]
    assert server.ask("batch", lots=LAKE, descriptions=descriptions, account="lots")["acres"] == answer["acres"]


def test_a_comparison(server: Interface) -> None:
    answer = server.ask("compare", lots=LAKE, first="sec. 14, lots 1 to 3.", second="sec. 14, lots 3, 4.", draw=True)
    assert answer["comparison"] == "overlaps"
    assert [answer[name]["acres"] for name in ("both", "first_only", "second_only")] == [
        {"lots": "19.80"}, {"lots": "50.75"}, {"lots": "71.10"}]
    assert answer["both"]["canonical"].splitlines()[1] == "sec. 14, lot 3."
    assert "Only in the first" in answer["svg"]


def test_a_list_of_tracts(server: Interface) -> None:
    tracts = [("A", "sec. 14, lots 1, 2."), ("B", "sec. 14, lots 2, 4."), ("C", "sec. 14, NW1/4NW1/4."), ("D", "sec. 14, S1/2.")]
    asked = {"lots": LAKE, "tracts": [{"name": name, "description": description} for name, description in tracts]}
    for _ in range(2):
        answer = server.ask("report", **asked, draw=True)
        acres = [each["acres"]["lots"] if "acres" in each else each["refused"]["number"] for each in answer["tracts"]]
        # 38.50 + 12.25; 12.25 + 71.10; and 320.
        assert acres == ["50.75", "83.35", 68, "320.00"]
        assert [(each["first"], each["second"], each["acres"]) for each in answer["overlaps"]] == [(0, 1, {"lots": "12.25"})]
        # 38.50 + 12.25 + 71.10 + 320, of 22982.10.
        assert (answer["total"]["acres"], answer["remaining"]["acres"]) == ({"lots": "441.85"}, {"lots": "22540.25"})
        # The same descriptions on another plat are other land.
        other = LAKE.replace("1912-03-04", "1913-03-04").replace("14,2,12.25", "14,9,12.25")
        refused = server.ask("report", **{**asked, "lots": other})["tracts"]
        assert [each["refused"]["number"] for each in refused if "refused" in each] == [64, 64, 68]


def test_readings(server: Interface) -> None:
    answer = server.ask("suggest", lots=LAKE, text="sec. 14, lots 2 and 4.", draw=True)
    [reading] = answer["readings"]
    assert reading["acres"] == {"lots": "83.35"} and "83.35" in reading["svg"]


def test_readings_name_the_lots_of_the_table(server: Interface) -> None:
    # 38.50, 12.25, and 19.80, and a half of 80 acres; in a township that nobody surveyed, 160 acres without lots.
    [reading] = server.ask("suggest", lots=LAKE, text="Sec 14: NE4", draw=True)["readings"]
    assert (reading["manner"], reading["acres"], reading["assumptions"]) == ("lots named", {"lots": "150.55"}, [])
    assert reading["canonical"] == "T. 2 N., R. 3 W.,\nsec. 14, lots 1, 2, 3, S1/2NE1/4.\n"
    assert reading["remark"] == "the aliquot part includes lots, which are named in its place"
    [other] = server.ask("suggest", township="T. 2 N., R. 3 W.", text="Sec 14: NE4")["readings"]
    assert (other["text"], other["acres"]["exact"]) == ("Sec 14: NE1/4", "160.00")
    # Field notes beside the table say nothing of its lots.
    [both] = server.ask("suggest", lots=LAKE, notes=NOTES, text="Sec 14: NE4")["readings"]
    assert both["text"] == reading["text"]


def test_words_without_which_only_the_table_has_a_reading(server: Interface) -> None:
    text = "Sec 14: All less Lot 1 bläh"
    answer = server.ask("suggest", lots=LAKE, text=text)
    assert answer["readings"] == [] and text[answer["start"] : answer["end"]] == "bläh"


@pytest.mark.parametrize("section", [None, 14])
def test_the_drawing(server: Interface, section: "int | None") -> None:
    asked = {} if section is None else {"section": section}
    answer = server.ask("land", lots=LAKE, description="sec. 14, lots 2 and 4.", draw=True, targets=True, **asked)
    assert "83.35" in answer["svg"] and "Where it is gray, the plat has no land." in answer["svg"].replace("\n", " ")
    drawing = ET.fromstring(answer["svg"])
    lots = {each.get("data-lot"): each.get("data-acres") for each in drawing.iter() if each.get("data-lot")}
    in_14 = {"14.1": "38.50", "14.2": "12.25", "14.3": "19.80", "14.4": "71.10"}
    assert lots == (in_14 if section else {"5.1": "40.45", **in_14})
    if section is None:
        alone = server.ask("plat", lots=LAKE, draw=True)["svg"]
        assert alone == LOTS.svg()


@pytest.mark.parametrize("old, new, number, at", [
    ("14,2,12.25", "14,1,12.25", 93, 5),
    ("NE1/4NE1/4\n14,2", "NE1/4NE\n14,2", 96, 4),
    ("S1/2NW1/4NE1/4", "NW1/4NE1/4", 98, 6),
    ("S1/2NW1/4NE1/4", "SW1/4NW1/4NE1/4", 100, 5),
    ("1912-03-04", "1912-02-30", 95, 2),
    ("12.25", "12.255", 92, 5),
])
def test_refused_tables(server: Interface, old: str, new: str, number: int, at: int) -> None:
    assert LAKE.count(old) == 1
    refused = server.ask("plat", lots=LAKE.replace(old, new))["refused"]
    assert (refused["of"], refused["number"], refused["at"], refused["line"]) == ("lots", number, at, at)
