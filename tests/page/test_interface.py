"""The JSON interface: its answers are those of the package, which are those of the library."""
from __future__ import annotations

import base64
import json
import re
import xml.etree.ElementTree as ET
from decimal import Decimal
from pathlib import Path

import pytest
import township

from asking import NOMINAL, NOTES, Interface

DOCUMENTS = Path(__file__).resolve().parents[2] / "docs"
PLAT = township.Plat.read(NOTES)
DESCRIPTIONS = ["sec. 5, lots 1 and 2, S1/2NE1/4.", "sec. 7, lots 1 to 4, inclusive.", "secs. 1 to 36, all."]


def test_plat(server: Interface) -> None:
    answer = server.ask("plat", notes=NOTES)
    assert (answer["township"], answer["total"]) == ("T. 2 N., R. 3 W.", "23037.57")
    # Section 5 of the sample, whose lots are as docs/TRACTS-FORMAT.md and the README show them.
    assert answer["sections"][4] == {"section": 5, "total": "642.40", "lots": ["40.45", "40.55", "40.65", "40.75"]}
    assert answer["closing_quarters"]["4"] == "20.20"
    assert township.Plat.read(answer["notes"]) == PLAT


def test_nominal_township(server: Interface) -> None:
    assert server.ask("plat", **NOMINAL)["total"] == "23040.00"


@pytest.mark.parametrize("description", DESCRIPTIONS)
def test_land(server: Interface, description: str) -> None:
    answer = server.ask("land", notes=NOTES, description=description)
    assert answer["acres"] == {name: str(PLAT.acres(description, name)) for name in ("exact", "plat")}
    assert answer["area"]["exact"] == str(PLAT.area(description))
    assert answer["canonical"] == PLAT.normal(description)
    assert answer["notes"] == []


def test_notes(server: Interface) -> None:
    [note] = server.ask("land", **NOMINAL, description="sec. 14, NE1/4 SE1/4.")["notes"]
    assert (note["line"], note["column"], note["start"], note["end"]) == (1, 16, 15, 20)


def test_refusals(server: Interface) -> None:
    text = "sec. 5,\nN½ of the NE¼ and N1/2."
    refused = server.ask("land", **NOMINAL, description=text)["refused"]
    found = (refused["of"], refused["number"], refused["line"], refused["column"])
    assert found == ("description", 66, 2, 1)
    assert text[refused["start"] : refused["end"]] == "N½ of the NE¼"
    refused = server.ask("plat", notes=NOTES.replace("W,6,7,40.00,79.60", "W,6,7,40.00,99.60"))["refused"]
    assert (refused["of"], refused["number"], refused["at"]) == ("notes", 23, 53)


def test_lot_table(server: Interface) -> None:
    table = "section,lot,acres\nT,2,N,3,W\n5,1,40.45\n5,2,40.5"
    assert server.ask("land", lots=table + "x", description="sec. 14.")["refused"]["of"] == "lots"
    assert server.ask("land", lots=table.replace(",", ";"), description="sec. 5, lot 2.")["acres"] == {"lots": "40.50"}
    # 40.45 + 40.50, and two quarter-quarter sections of 40 acres.
    answer = server.ask("land", lots=table + "0\n", description="sec. 5, lots 1 and 2, S1/2NE1/4.")
    assert answer["acres"] == {"lots": "160.95"} and answer["area"] == {"lots": "3219/20"}
    lacking = server.ask("land", lots=table + "0\n", description="sec. 5, lots 1 to 3.")
    assert lacking["acres"]["lots"] is None
    reply = server.post("land", json.dumps({"lots": table + "0\n", "township": "T. 3 N., R. 3 W.", "description": ""}).encode())
    assert reply.status == 400 and "the lot table is for T. 2 N., R. 3 W." in reply.json["error"]


def test_the_acreage_by_a_lot_table_is_the_figure(server: Interface) -> None:
    """In the list of lots, the totals, a batch, and drawings; and of a plat that nobody gave, nothing is shown."""
    full = township.Lots.of_figures("T. 2 N., R. 3 W.", {key: "41.50" for key in township.Lots.read("section,lot,acres\nT,2,N,3,W\n").figures})
    alone = server.ask("plat", lots=full.csv(), draw=True)
    # 47 lots with 1.5 acres more than 40 each.
    assert (alone["basis"], alone["total"]) == ("lots", "23110.50") and "notes" not in alone
    assert alone["sections"][4] == {"section": 5, "total": "646.00", "lots": ["41.50"] * 4}
    assert "20.00" not in alone["svg"] and "41.50" in alone["svg"]
    both = server.ask("plat", lots=full.csv(), notes=NOTES, draw=True)
    assert both["total"] == "23110.50" and "19.60" in both["svg"]
    asked = {"lots": full.csv(), "notes": NOTES, "descriptions": ["sec. 5, lot 1.", "x"]}
    assert server.ask("batch", **asked)["acres"] == ["41.50", None]
    assert server.ask("batch", **asked, account="exact")["acres"] == ["40.45", None]
    one = "section,lot,acres\nT,2,N,3,W\n5,1,40.45\n"
    lacking = server.ask("plat", lots=one)
    assert lacking["total"] is None and lacking["sections"][4]["lots"] == ["40.45", None, None, None]
    batch = server.ask("batch", lots=one, descriptions=["sec. 5, lot 2.", "sec. 5, lot 1."])
    assert batch["acres"] == [None, "40.45"] and batch["refused"][0]["number"] == 94
    report = server.ask("report", lots=full.csv(), tracts=[{"name": "A", "description": "sec. 5, lot 1."}])
    assert report["tracts"][0]["acres"] == {"lots": "41.50"} and report["total"]["acres"] == {"lots": "41.50"}
    assert server.ask("plat", notes=NOTES)["basis"] == "notes" and server.ask("plat", **NOMINAL)["basis"] == "nominal"


def test_compare(server: Interface) -> None:
    answer = server.ask("compare", **NOMINAL, first="sec. 14, N1/2.", second="sec. 14, E1/2.")
    assert answer["comparison"] == "overlaps"
    words = {name: answer[name]["canonical"].splitlines()[1] for name in ("both", "first_only", "second_only")}
    assert words == {"both": "sec. 14, NE1/4.", "first_only": "sec. 14, NW1/4.", "second_only": "sec. 14, SE1/4."}
    assert answer["both"]["acres"] == {"exact": "160.00", "plat": "160.00"}


@pytest.mark.parametrize(
    "first, second, wanted",
    [
        ("sec. 14, N1/2.", "sec. 14, NE1/4, NW1/4.", "equal"),
        ("sec. 14.", "sec. 14, NE1/4.", "contains"),
        ("sec. 14, NE1/4.", "sec. 14.", "is contained"),
        ("sec. 14.", "sec. 15.", "disjoint"),
    ],
)
def test_comparisons(server: Interface, first: str, second: str, wanted: str) -> None:
    answer = server.ask("compare", **NOMINAL, first=first, second=second)
    assert answer["comparison"] == wanted
    if wanted == "disjoint":
        assert answer["both"] == {"acres": {"exact": "0.00", "plat": "0.00"}, "canonical": ""}


def test_compare_refused(server: Interface) -> None:
    refused = server.ask("compare", **NOMINAL, first="sec. 5, N1/2.", second="sec. 14.")["refused"]
    assert list(refused) == ["first"] and refused["first"]["number"] == 66


@pytest.mark.parametrize("text", ["NENE, S2NE4 Sec 14-2N-3W", "sec. 14: NE¼NE¼ SW¼SW¼", "N2 Sec 5", "N2 Sec 14-3N-3W", "the old mill", ""])
def test_suggest(server: Interface, text: str) -> None:
    answer = server.ask("suggest", notes=NOTES, text=text)
    readings = PLAT.suggest(text)
    assert [each["text"] for each in answer["readings"]] == [reading.text for reading in readings]
    for each, reading in zip(answer["readings"], readings):
        assert [change["rule"] for change in each["changes"]] == [change.rule for change in reading.changes]
        if reading.refused is None:
            assert (each["acres"]["exact"], each["canonical"]) == (str(reading.acres), reading.normal)
        else:
            assert (each["refused"]["of"], each["refused"]["number"]) == ("reading", reading.refused.number)


def test_suggest_in_order(server: Interface) -> None:
    # Two parts of 40 acres each; or one of a sixteenth of 40 acres.
    answer = server.ask("suggest", **NOMINAL, text="sec. 14: NE¼NE¼ SW¼SW¼", draw=True)
    assert [each["acres"]["exact"] for each in answer["readings"]] == ["80.00", "2.50"]
    # The space is the 16th character: each `¼` before it has two bytes.
    changes = [each["changes"] for each in answer["readings"]]
    assert changes[0] == [{"start": 15, "end": 15, "written": ",", "rule": "comma"}]
    assert changes[1] == [{"start": 15, "end": 16, "written": "", "rule": "one part"}]
    assert [each["condition"] for each in answer["readings"]] == ["if the space separates two parts", "as it is written"]
    drawings = [each["svg"] for each in answer["readings"]]
    assert drawings[0] != drawings[1] and all(ET.fromstring(each) is not None for each in drawings)


def test_suggest_says_of_a_manner_what_it_is(server: Interface) -> None:
    [reading] = server.ask("suggest", **NOMINAL, text="N2 Sec 5")["readings"]
    assert (reading["manner"], reading["condition"]) == ("lots named", None)
    assert reading["remark"] == "the aliquot part includes lots, which are named in its place"


def test_suggest_says_if_the_lots_are_not_known(server: Interface) -> None:
    standard = "the plat has the standard lots"
    for text, depends in (("N2 Sec 5", True), ("TRACT 1: sec. 14.", True), ("Sec 14: N2", False)):
        [reading] = server.ask("suggest", **NOMINAL, text=text)["readings"]
        assert (reading["assumptions"][-1:] == [standard]) is depends
        # Field notes make a plat with these lots, and a table without places is for them.
        for basis in ({"notes": NOTES}, {"lots": "section,lot,acres\nT,2,N,3,W\n5,1,40.45\n"}):
            [reading] = server.ask("suggest", **basis, text=text)["readings"]
            assert standard not in reading["assumptions"]


def test_suggest_nothing(server: Interface) -> None:
    unread = {"start": 4, "end": 12, "ways": None, "sentence": "not understood: `old mill`"}
    nothing = {"readings": [], "reason": None, "start": None, "end": None, "unread": [unread]}
    assert server.ask("suggest", **NOMINAL, text="the old mill") == nothing
    assert "the field `text` is missing" in server.post("suggest", json.dumps(NOMINAL).encode()).json["error"]


@pytest.mark.parametrize(
    "text, wanted",
    [
        ("sec. 14, the old mill", "the old mill"),
        ("sec. 14, N½NE¼, bläh SW¼", "bläh"),
        ("NENE, S2NE4 Sec 14-2N-3W near quux", "near quux"),
        ("sec. 14, that portion of the NE/4 lying north of the road", "portion"),
        ("sec. 5, N1/2", None),
        ("quux", None),
    ],
)
def test_words_that_are_not_understood(server: Interface, text: str, wanted: "str | None") -> None:
    """They are the fewest in a row without which the text has a reading."""
    answer = server.ask("suggest", **NOMINAL, text=text)
    assert (None if answer["start"] is None else text[answer["start"] : answer["end"]]) == wanted
    assert (answer["readings"] == []) is (text != "sec. 5, N1/2")


def test_unread(server: Interface) -> None:
    """Each run of unread words has a place in code points, and so has a phrase that can be read in two ways."""
    answer = server.ask("suggest", **NOMINAL, text="½ bläh\nblip Sec. 14 blop")
    assert [(each["start"], each["end"], each["ways"]) for each in answer["unread"]] == [
        (0, 6, None), (7, 11, None), (20, 24, None)
    ]
    [_, phrase] = server.ask("suggest", **NOMINAL, text="S2, 12, T2N R3W")["unread"]
    assert phrase["sentence"] == "`S2` can be read in two ways: a section, or a half"
    assert server.ask("suggest", **NOMINAL, text="NENE Sec 14")["unread"] == []


def test_phrases_are_left_out(server: Interface) -> None:
    text = "sec. 14, N½NE¼, bläh SW¼"
    assert server.ask("suggest", **NOMINAL, text=text)["readings"] == []
    # Only letters of the alphabet are found in either case.
    [reading] = server.ask("suggest", **NOMINAL, text=text, ignore=["BLäH"])["readings"]
    # Half of a quarter, and a quarter.
    assert (reading["text"], reading["acres"]["exact"]) == ("sec. 14, N½NE¼, SW¼", "240.00")
    assert reading["assumptions"] == ["without `bläh`: you said that this is not land"]
    # Places are code points.
    [aside] = [change for change in reading["changes"] if change["rule"] == "set aside"]
    assert text[aside["start"] : aside["end"]] == "bläh"


def test_what_is_unread_besides(server: Interface) -> None:
    text = "the old bläh mill"
    unread = server.ask("suggest", **NOMINAL, text=text, ignore=["bläh"])["unread"]
    assert [each["sentence"] for each in unread] == ["not understood: `old`", "not understood: `mill`"]
    assert [text[each["start"] : each["end"]] for each in unread] == ["old", "mill"]


def test_phrases_that_name_land(server: Interface) -> None:
    refused = server.ask("suggest", **NOMINAL, text="sec. 14", ignore=["blah", "Lot 3"])["refused"]
    assert (refused["of"], refused["number"], refused["at"]) == ("phrases", 51, 2)
    assert refused["sentence"].startswith("`Lot 3` (phrase 2) can't be left out: ")
    refused = server.ask("suggest", **NOMINAL, text="sec. 14", ignore=["a" * 65_537])["refused"]
    assert (refused["of"], refused["number"], refused["at"]) == ("phrases", 50, 65_536)


def test_phrases_that_are_not_valid(server: Interface) -> None:
    for ignore, error in (
        ("blah", "the field `ignore` must be a list"),
        ([14], "the field `ignore` must be a list of texts"),
        (["a"] * 101, "the field `ignore` has 101 items; at most 100 are allowed"),
    ):
        reply = server.post("suggest", json.dumps({**NOMINAL, "text": "sec. 14", "ignore": ignore}).encode())
        assert (reply.status, reply.json) == (400, {"error": error})
    assert len(server.ask("suggest", **NOMINAL, text="sec. 14", ignore=None)["readings"]) == 1
    assert len(server.ask("suggest", **NOMINAL, text="sec. 14", ignore=["", " "])["readings"]) == 1


@pytest.mark.parametrize("encoding", ["utf-8", "utf-8-sig", "utf-16", "utf-16-be", "cp1252"])
def test_files(server: Interface, encoding: str) -> None:
    data = base64.b64encode("name;N½\r\n".encode(encoding)).decode()
    answer = server.ask("file", data=data)
    assert answer["text"] == "name;N½\r\n"
    assert answer["encoding"] == {"utf-8-sig": "utf-8", "utf-16-be": "utf-16", "cp1252": "windows-1252"}.get(encoding, encoding)


def test_files_that_are_not_texts(server: Interface) -> None:
    for data, error in (("UEsDBA==", "this file is a workbook or a document; save it as CSV"), ("?", "the field `data` must be a file in base64")):
        assert server.post("file", json.dumps({"data": data}).encode()).json == {"error": error}


def test_field_notes_as_they_are_written(server: Interface) -> None:
    """The distances that inputs show are those of the plat, and their places are theirs."""
    text = NOTES.replace("W,6,7,40.00,79.60", '"W",7,"6","40.00",79.60').replace("\n", "\r\n")
    answer = server.ask("plat", notes=text)
    lines = answer["written"]["lines"]
    assert sorted(each["line"] for each in lines) == list(range(84))
    for each in lines:
        quarter, corner = (Decimal(distance) for distance in each["distances"])
        assert quarter == 40 and 1000 * (corner - 60) == PLAT.closing_quarters[each["line"]]
    places = {each["line"]: text[each["start"] : each["end"]] for each in lines}
    assert places[53] == '"40.00",79.60' and places[0] == "40.00,80.00"
    refused = server.ask("plat", notes=text.replace("79.60", "x"), draw=True)
    assert refused["refused"]["section_line"] == 53 and "No field notes, no acreage" in refused["svg"]
    assert "svg" not in server.ask("plat", notes="T,0,N,3,W\n", draw=True)


def test_batch(server: Interface) -> None:
    answer = server.ask("batch", notes=NOTES, descriptions=["sec. 5, lot 1.", "sec. 5, N1/2.", "sec. 36."])
    assert answer["acres"] == ["40.45", None, "640.00"]
    [refused] = answer["refused"]
    assert (refused["index"], refused["number"], refused["at"]) == (1, 66, 8)
    by_plat = server.ask("batch", notes=NOTES, descriptions=["sec. 7, lots 1 to 4."], account="plat")
    assert by_plat["acres"] == ["156.42"]


def test_drawings(server: Interface) -> None:
    description = "sec. 5, lots 1 and 2, S1/2NE1/4."
    answer = server.ask("land", notes=NOTES, description=description, draw=True)
    assert answer["svg"] == PLAT.svg(land=description)
    section = server.ask("land", notes=NOTES, description=description, draw=True, section=5)
    assert section["svg"] == PLAT.svg(land=description, section=5)
    root = ET.fromstring(server.ask("plat", notes=NOTES, draw=True, targets=True)["svg"])
    counts = {kind: sum(f"data-{kind}" in each.attrib for each in root.iter()) for kind in ("section", "lot", "line")}
    assert counts == {"section": 36, "lot": 47, "line": 84}


def test_the_sheet_of_a_section_says_what_it_shows(server: Interface) -> None:
    """The land and the acreage in that section, and that there is more."""
    description = "sec. 5, lots 1 and 2, S1/2NE1/4; sec. 14, NE1/4; sec. 15."
    for section, words, acres in ((14, "sec. 14, NE1/4.", "160.00"), (5, "sec. 5, lots 1, 2, S1/2NE1/4.", "161.00"), (1, "None.", "0.00")):
        drawn = server.ask("land", notes=NOTES, description=description, draw=True, section=section)["svg"]
        shown = " ".join("".join(each.itertext()) for each in ET.fromstring(drawn).iter() if each.tag.endswith("text"))
        more = "There is more in 3 other sections." if section == 1 else "There is more in 2 other sections."
        assert f"Land in section {section} {words} {more}" in shown and f"Exact account {acres}" in shown
        assert "961.00" not in shown and drawn == PLAT.svg(land=description, section=section)


def test_the_description_of_the_interface(server: Interface) -> None:
    described = server.send("GET", "/api/v1/openapi.json").json
    assert described["openapi"] == "3.0.3"
    for path, operations in described["paths"].items():
        for method, operation in operations.items():
            if method == "get":
                assert server.send("GET", f"/api/v1{path}").status == 200
                continue
            content = operation["requestBody"]["content"]["application/json"]
            answer = server.ask(path[1:], **content["example"])
            kinds = operation["responses"]["200"]["content"]["application/json"]["schema"]["oneOf"]
            schema = _resolved(described, kinds[0])
            # The answer to the example has each field that is required, and no other.
            assert set(schema["required"]) <= set(answer) <= set(schema["properties"]), path
            # Each field that is described is taken, and no other.
            taken = content["schema"]["properties"]
            assert "there is no field" not in str(server.post(path[1:], json.dumps(dict.fromkeys(taken)).encode()).json)
            assert server.post(path[1:], b'{"more":1}').json == {"error": 'there is no field "more" here'}


def test_each_route_is_described(server: Interface) -> None:
    from township._web.app import ANSWERS, PREFIX, create_app

    described = server.send("GET", "/api/v1/openapi.json").json["paths"]
    routes = {rule.rule for rule in create_app().url_map.iter_rules() if rule.rule.startswith(PREFIX)}
    assert {PREFIX + path[1:] for path in described} == routes
    assert {f"/{name}" for name in ANSWERS} == {path for path, each in described.items() if "post" in each}


def _resolved(described: dict, schema: dict) -> dict:
    name = schema.get("$ref")
    return described["components"]["schemas"][name.rpartition("/")[2]] if name else schema


def test_the_document(server: Interface) -> None:
    """docs/HTTP.md names each route, its example works, and its limits are those of the code."""
    from township._web import app, limits

    text = (DOCUMENTS / "HTTP.md").read_text()
    assert {f"`{app.PREFIX}{name}`" for name in app.ANSWERS} == set(re.findall(r"^\| (`/api/v1/[a-z]+`) \|", text, re.MULTILINE))
    rows = dict(re.findall(r"^\| ([a-z ]+) \| ([0-9,]+)", text[text.index("## Limits") :], re.MULTILINE))
    assert {name: int(number.replace(",", "")) for name, number in rows.items()} == {
        "a body": limits.BODY_MOST // 1024**2,
        "simultaneous connections": limits.CONNECTIONS_MOST,
        "the time for a request to arrive": limits.SECONDS_MOST,
        "the time for an answer to be read": limits.READING_MOST,
        "descriptions of a batch": limits.DESCRIPTIONS_MOST,
        "tracts of a list": limits.TRACTS_MOST,
        "phrases that readings leave out": limits.PHRASES_MOST,
    }
    told = " ".join(text.split())
    small = f"with more than {limits.SMALL_MOST >> 10} KiB"
    assert f"{small} that has no answer {limits.SECONDS_MOST} seconds after its first byte" in told
    assert f"more than {limits.HELD_MOST >> 20} MiB of a process" in told
    assert f"more than {limits.HELD_USUAL >> 10} KiB of it are closed" in told
    assert f"longer than {limits.IN_MEMORY >> 10} KiB in temporary files" in told
    assert f"exceed {limits.HEAD_MOST >> 10} KiB" in told and f"does nothing for {limits.IDLE_MOST} seconds" in told
    assert f"and {limits.IDLE_MOST} seconds without a byte" in told
    assert f"more than {limits.SMALL_MOST >> 10} KiB" in " ".join((DOCUMENTS / "SERVING.md").read_text().split())
    [command] = re.findall(r"curl -s http://127.0.0.1:8036(\S+) .*?-d '(.*?)'", text, re.DOTALL)
    assert server.post(command[0].rpartition("/")[2], command[1].encode()).json["acres"]["exact"] == "160.00"
