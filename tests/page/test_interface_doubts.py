"""The JSON interface: the places of descriptions that can be read in two ways."""
from __future__ import annotations

import township

from asking import NOMINAL, NOTES, Interface

PLAT = township.Plat.read(NOTES)
#: A description with two doubtful places, of 2.5 and of 40 acres, and those places.
DOUBTFUL = "sec. 14: NE¼NE¼ SW¼SW¼;\nsec. 15, NE1/4 SE1/4."
PLACES = [("SW¼SW¼", 1, 17), ("SE1/4", 2, 16)]


def places_of(notes: "list[dict]", text: str) -> "list[tuple]":
    return [(text[note["start"] : note["end"]], note["line"], note["column"]) for note in notes]


def test_each_doubtful_place_has_a_note(server: Interface) -> None:
    """Wherever a description is answered, and not only at its first doubtful place."""
    land = server.ask("land", **NOMINAL, description=DOUBTFUL, draw=True)
    assert land["acres"]["exact"] == "42.50" and places_of(land["notes"], DOUBTFUL) == PLACES
    assert "can be read in two ways" in land["svg"]
    compared = server.ask("compare", **NOMINAL, first="sec. 14.", second=DOUBTFUL)["notes"]
    assert compared["first"] == [] and places_of(compared["second"], DOUBTFUL) == PLACES
    tracts = [{"name": "A", "description": DOUBTFUL}, {"name": "B", "description": "sec. 16."}]
    first, second = server.ask("report", **NOMINAL, tracts=tracts)["tracts"]
    assert places_of(first["notes"], DOUBTFUL) == PLACES and second["notes"] == []
    assert "if two parts were meant" in first["notes"][0]["sentence"]
    batch = server.ask("batch", **NOMINAL, descriptions=["sec. 14.", DOUBTFUL])["notes"]
    assert places_of(batch, DOUBTFUL) == PLACES and [note["index"] for note in batch] == [1, 1]
    assert batch[0]["sentence"] == PLAT.notes(DOUBTFUL)[0].sentence
    # A lot table changes nothing about it.
    table = "section,lot,acres\nT,2,N,3,W\n5,1,40.45\n"
    assert server.ask("batch", lots=table, descriptions=["sec. 14.", DOUBTFUL])["notes"] == batch


def test_parts_of_both_are_doubtful_too(server: Interface) -> None:
    text = "sec. 14, E1/2 of NE1/4 and SE1/4, NE1/4 SW1/4."
    notes = server.ask("land", **NOMINAL, description=text)["notes"]
    assert [place for place, _, _ in places_of(notes, text)] == ["E1/2 of NE1/4 and SE1/4", "SW1/4"]


def test_many_doubtful_places(server: Interface) -> None:
    text = "; ".join(f"sec. {section}, NE1/4SE1/4 SE1/4, SE1/4SE1/4 SE1/4" for section in range(1, 37))
    notes = server.ask("land", **NOMINAL, description=text)["notes"]
    assert len(notes) == 64 and notes[-1]["sentence"].endswith("; 8 more such places")


def test_many_doubtful_places_of_a_batch_and_of_a_list(server: Interface) -> None:
    """After 1,000 places, each description has only its first note, which says how many more there are."""
    text = "sec. 14, NE1/4 SE1/4, NW1/4 SW1/4."
    batch = server.ask("batch", **NOMINAL, descriptions=[text] * 502)["notes"]
    assert [note["index"] for note in batch] == [*(index for index in range(500) for _ in range(2)), 500, 501]
    assert {(note["start"], note["end"]) for note in batch} == {(15, 20), (28, 33)}
    assert [note["sentence"].endswith("1 more such place") for note in batch[-3:]] == [False, True, True]
    tracts = server.ask("report", **NOMINAL, tracts=[{"name": "A", "description": text}] * 502)["tracts"]
    assert [len(each["notes"]) for each in tracts] == [2] * 500 + [1] * 2
    assert "1 more such place" in tracts[-1]["notes"][0]["sentence"]


def test_doubtful_places_of_a_long_description(server: Interface) -> None:
    """Fewer are looked for, so that the answer does not take long, and the last note says how many more there are."""
    text = f"sec. 14, NE1/4 SE1/4, NW1/4 SW1/4;{' ' * 50_000}sec. 15, NE1/4 SE1/4, NW1/4 SW1/4, SE1/4 NE1/4, SW1/4 NW1/4."
    notes = server.ask("land", **NOMINAL, description=text)["notes"]
    # 262,144 bytes are 5 times this text.
    assert len(notes) == 5 and notes[-1]["sentence"].endswith("; 1 more such place")
