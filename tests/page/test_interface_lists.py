"""The JSON interface: lists of tracts, and their overlaps."""
from __future__ import annotations

import json
import random
from decimal import Decimal

import pytest
import township

from asking import NOMINAL, NOTES, Interface

PLAT = township.Plat.read(NOTES)


def test_report(server: Interface) -> None:
    tracts = [{"name": "A", "description": "sec. 7, lot 1."}, {"name": "B", "description": "sec. 7, lot 4."}]
    answer = server.ask("report", notes=NOTES, tracts=tracts)
    report = PLAT.report([("A", "sec. 7, lot 1."), ("B", "sec. 7, lot 4.")])
    assert [each["acres"]["exact"] for each in answer["tracts"]] == [str(each.acres) for each in report.tracts]
    assert answer["total"]["acres"]["exact"] == str(report.total) == "78.20"
    assert answer["remaining"]["acres"]["exact"] == str(report.remaining)
    assert (answer["refused"], answer["overlapping"]) == (0, 0)


def test_report_goes_on_after_refusals_and_overlaps(server: Interface) -> None:
    descriptions = ["sec. 14, N1/2.", "sec. 14, E1/2.", "sec. 5, N1/2.", "sec. 15.", "sec. 14, NE1/4NE1/4."]
    tracts = [{"name": str(k), "description": each} for k, each in enumerate(descriptions)]
    answer = server.ask("report", **NOMINAL, tracts=tracts)
    assert [each.get("acres", {}).get("exact") for each in answer["tracts"]] == ["320.00", "320.00", None, "640.00", "40.00"]
    assert answer["tracts"][2]["refused"]["number"] == 66
    # 0 and 1 share the NE1/4, in which 4 lies.
    assert [(each["first"], each["second"]) for each in answer["overlaps"]] == [(0, 1), (0, 4), (1, 4)]
    # Three quarters of section 14, and section 15.
    assert answer["total"]["acres"]["exact"] == "1120.00"
    assert answer["remaining"]["acres"]["exact"] == "21920.00"


def test_report_on_a_list_as_it_is_written(server: Interface) -> None:
    """The records are those of `batch`; what is wrong with a record has its line, and is never read as other land."""
    listed = 'name;description;more\r\nA;"sec. 7, lot 1.";x\r\n\r\nB;sec. 7; lot 4.;y\r\n'
    answer = server.ask("report", notes=NOTES, list=listed)
    found = [(each["name"], each["line"], each.get("acres", {}).get("exact")) for each in answer["tracts"]]
    assert found == [("A", 2, "39.18"), ("B", 4, None)] and answer["refused"] == 1
    assert answer["tracts"][1]["fault"].startswith("line 4 has 4 fields, but the heading has 3; put a description")
    assert answer["total"]["acres"]["exact"] == "39.18"
    both = json.dumps({**NOMINAL, "list": "", "tracts": []}).encode()
    assert server.post("report", both).json == {"error": "give either `tracts` (records) or `list` (a text)"}
    many = json.dumps({**NOMINAL, "list": "sec. 14.\n" * 1001}).encode()
    assert server.post("report", many).json == {"error": "the list has more than 1,000 tracts"}


#: Lists, and the descriptions in them as they are written: `None` if a record has a fault.
WRITTEN = [
    ('A,"sec. 14, NE1/4."\r\n\r\nÑ½,sec. 15.', ['"sec. 14, NE1/4."', "sec. 15."]),
    ('\ufeffsep=;\nname;description;x\n"A\n;1";"sec. 14;""";y\nB;;\n', ['"sec. 14;"""', ""]),
    ("A\tsec. 14.\rB\tsec. 15.\r", ["sec. 14.", "sec. 15."]),
    ("sec. 14.\nsec. 15, NE1/4.\nsec. 16.", ["sec. 14.", None, "sec. 16."]),
    ('description\n"sec. 14.\nsec. 15.\n', [None, "sec. 15."]),
]


@pytest.mark.parametrize("text, wanted", WRITTEN)
def test_descriptions_have_their_places_in_a_list(server: Interface, text: str, wanted: "list[str | None]") -> None:
    tracts = server.ask("report", **NOMINAL, list=text)["tracts"]
    places = [(each.get("start"), each.get("end")) for each in tracts]
    assert [None if start is None else text[start:end] for start, end in places] == wanted
    assert [("fault" in each) for each in tracts] == [each is None for each in wanted]


def test_records_have_no_places(server: Interface) -> None:
    [tract] = server.ask("report", **NOMINAL, tracts=[{"name": "A", "description": "sec. 14."}])["tracts"]
    assert tract["line"] is None and "start" not in tract and "end" not in tract


def test_a_long_name_is_cut_visibly(server: Interface) -> None:
    tracts = [{"name": name, "description": "sec. 14."} for name in ("The heirs of Jeremiah Johnson and his wife", "A")]
    labels = [server.ask("report", **NOMINAL, tracts=tracts, selected=k, draw=True)["svg"] for k in (0, 1)]
    assert 'data-label="Tract The heirs of Jeremiah Johnson a .."' in labels[0] and 'data-label="Tract A"' in labels[1]


def test_overlaps_have_their_land(server: Interface) -> None:
    tracts = [{"name": str(k), "description": each} for k, each in enumerate(["sec. 14, N1/2.", "x", "sec. 14, E1/2.", "sec. 1."])]
    answer = server.ask("report", **NOMINAL, tracts=tracts)
    [overlap] = answer["overlaps"]
    assert (overlap["first"], overlap["second"], overlap["acres"]["exact"]) == (0, 2, "160.00")
    assert overlap["canonical"].endswith("sec. 14, NE1/4.\n")
    assert [each.get("overlaps") for each in answer["tracts"]] == [True, None, True, False]


def test_all_overlapping_tracts_are_marked(server: Interface) -> None:
    """More pairs overlap than are named, and each of the tracts is marked."""
    tracts = [{"name": "A", "description": "sec. 14."}] * 60
    answer = server.ask("report", **NOMINAL, tracts=tracts)
    assert (answer["overlapping"], len(answer["overlaps"])) == (1770, 1000)
    assert all(each["overlaps"] for each in answer["tracts"])


def test_overlaps_are_those_of_the_library(server: Interface) -> None:
    """Which tracts overlap is found by their places: the library finds the same pairs, with the same acreage."""
    random.seed(36)
    lands = ["all", "N1/2", "S1/2NE1/4", "SE1/4SE1/4", "NE1/4NE1/4SW1/4"]
    for count in (0, 1, 2, 12, 60):
        texts = []
        for _ in range(count):
            sections = sorted(random.sample(range(8, 14), random.randrange(1, 4)))
            texts.append("; ".join(f"sec. {section}, {random.choice(lands)}" for section in sections))
        # Some are refused, and some are the same.
        texts += ["sec. 8, N1/3", *texts[:3]]
        tracts = [(f"Tract {index}", text) for index, text in enumerate(texts)]
        answer = server.ask("report", notes=NOTES, tracts=[{"name": name, "description": text} for name, text in tracts])
        expected = PLAT.overlaps(tracts)
        found = [(each["first"], each["second"], Decimal(each["acres"]["exact"])) for each in answer["overlaps"]]
        assert found == [(each.first, each.second, each.acres) for each in expected][:1000]
        assert answer["overlapping"] == len(expected)
        named = {index for each in expected for index in (each.first, each.second)}
        assert named == {index for index, tract in enumerate(answer["tracts"]) if tract.get("overlaps")}
