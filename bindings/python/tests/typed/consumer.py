"""A program that uses the package, for a type checker: each line with a comment is an error, and no other line is."""
from __future__ import annotations

import datetime
from decimal import Decimal
from fractions import Fraction
from pathlib import Path
from typing import Iterator, List, Mapping, Optional, Tuple, Union

import township
import township.pandas
from township import Account, Change, Difference, EastWest, Land, Lands, LocatedTract, Lots, LotsOverlap, MissingPlat
from township import NorthSouth, Notes, Overlap, Part, PartReadings, Phrases, Plat, PlatLot, Plats, PlatsReport, Reading
from township import Readings, Refusal, Refused, Report, Section, Township, TownshipText, Tract, TractAnswer, split, suggest
from township import suggest_parts


def answers(plat: Plat, account: Account) -> Iterator[Union[Decimal, Refused]]:
    return plat.acres_of(["sec. 14.", b"sec. 15."], account)


def figures(path: Path) -> Optional[Decimal]:
    plat: Plat = township.Plat.open(path)
    again: Plat = Plat.of_parts(plat.township, plat.closing_quarters)
    acres: Decimal = plat.acres("sec. 14.", account="plat")
    area: Fraction = again.area(b"sec. 14.")
    total: Decimal = township.rounded(sum([area, area]))
    sections: Mapping[int, Section] = plat.sections
    lots: Mapping[Tuple[int, int], Decimal] = plat.figures
    report: Report = plat.report([("A", "sec. 14.")])
    tracts: List[Tract] = list(report.tracts)
    where: Township = plat.township
    sides: "tuple[NorthSouth, EastWest]" = (where.north_south, where.east_west)
    text: str = plat.text + plat.normal("sec. 14.") + township.version() + township.__version__ + sides[0]
    return max(acres, total, sections[1].total, tracts[0].acres, lots[1, 1]) if text and area else None


def lists(plat: Plat, listed: bytes) -> Optional[Decimal]:
    answers: Tuple[TractAnswer, ...] = plat.report_each_csv(listed) + plat.report_each([("A", b"sec. 14.")])
    acres: Optional[Decimal] = answers[0].acres
    refusal: Optional[Refusal] = answers[0].refusal or answers[0].inner
    overlaps: Tuple[Overlap, ...] = plat.overlaps({"A": "sec. 14."}.items()) + plat.overlaps_csv(listed.decode())
    shared: Decimal = overlaps[0].acres
    indexes: List[int] = [overlaps[0].first, overlaps[0].second]
    return acres if indexes and not refusal else shared


def refusal(refused: Refused) -> Union[Refusal, int, str, None]:
    line: Optional[int] = refused.line
    error: ValueError = refused
    return refused.inner or line or refused.sentence + str(error) + refused.source


def notes(length: Decimal) -> Plat:
    notes = Notes((2, "N", 3, "W"))
    notes["N,4,5"] = (40, "80.20")
    notes["W,6,7"] = 40.0, length
    notes["W", 6, None] = notes["N", 4, 5]
    return notes.plat()


def lands(plat: Plat, lots: Lots) -> Optional[Decimal]:
    land: Land = plat.land("sec. 14.") - Land.of("T. 2 N., R. 3 W.", b"sec. 14, N1/2.")
    land |= Land.of(plat.township, "sec. 15.") & land ^ land
    parts: List[Part] = land.parts
    lot: Optional[int] = parts[0].lot
    by_section: Mapping[int, Land] = land.sections
    pieces: List[Land] = [piece for piece in land if piece in land and "sec. 14." in piece]
    is_less: bool = land <= by_section[14] and land.isdisjoint(pieces[0]) and bool(land)
    acres: List[Decimal] = [land.acres(plat, account="plat"), land.acres(lots), plat.acres(land), lots.acres(land)]
    areas: List[Fraction] = [land.area(plat), land.area(lots), plat.area(land), lots.area(b"sec. 14.")]
    differences: List[Difference] = plat.differences(Lots.of_figures(land.township, lots.figures))
    drawings: List[str] = [plat.svg(), plat.svg(land=land, section=14), plat.svg(land=b"sec. 14.")]
    return acres[0] + differences[0].by if is_less and areas and lot and drawings else None


def many(plat: Plat, lots: Lots) -> Optional[Decimal]:
    answers: List[Union[Decimal, Refused]] = [*plat.acres_many(["sec. 14."])]
    answers += lots.acres_many([b"sec. 14."])
    texts: List[Union[str, Refused]] = plat.normal_many(["sec. 14."]) + lots.normal_many(["sec. 14."], threads=2)
    one_by_one: Iterator[Union[Decimal, Refused]] = lots.acres_of(["sec. 14."])
    tracts: Tuple[TractAnswer, ...] = lots.report_each([("A", "sec. 14."), ("B", lots.land("sec. 15."))])
    overlaps: Tuple[LotsOverlap, ...] = lots.overlaps([("A", "sec. 14.")])
    shared: Optional[Decimal] = overlaps[0].acres
    new: Lots = Lots.new("T. 2 N., R. 3 W.")
    found: Readings = new.suggest("NENE Sec 14")
    return shared if answers and texts and one_by_one and tracts and found else None


def places(lots: Lots, land: Land) -> Optional[Decimal]:
    dates: List[Optional[datetime.date]] = [lots.date, land.date, lots.land(b"sec. 14.").date]
    section: Tuple[PlatLot, ...] = lots.section(14)
    where: str = lots.where(14, 2) + section[0].land
    number: Optional[int] = section[0].lot
    table: Optional[Lots] = land.lots
    return section[0].acres if where and number and lots.has_land and table and dates else None


def townships(plat: Plat, lots: Lots, path: Path, error: MissingPlat) -> Optional[Decimal]:
    parts: List[TownshipText] = split("T2N R3W sec. 14; T3N R3W sec. 15") + split(b"sec. 14.")
    places: List[int] = [parts[0].start, parts[0].end]
    where: Township = parts[0].township if parts[0].text else error.township
    plats: Plats = Plats([plat, lots]) if places else Plats.open(path, "6th P.M.")
    by: Union[Plat, Lots] = plats[where] or plats["2N-3W"] or plats[2, "N", 3, "W"]
    lands: Lands = plats.land(parts[0].text) | Lands.of(b"T2N R3W sec. 14") & Lands([plat.land("sec. 15.")])
    by_township: Mapping[Township, Land] = lands.by_township()
    figures: Mapping[Township, Decimal] = plats.acres_by_township(lands, account="plat")
    area: Fraction = plats.area(by_township[where]) + lands.area(plats)
    report: PlatsReport = plats.report([("A", lands), ("B", "T2N R3W sec. 14")])
    tracts: Tuple[LocatedTract, ...] = report.tracts
    overlaps: Tuple[LotsOverlap, ...] = plats.overlaps([("A", lands), ("B", b"T2N R3W sec. 14")])
    readings: List[PartReadings] = plats.suggest("T2N R3W sec. 14", account="plat") + suggest_parts(b"sec. 14")
    part: TownshipText = readings[0].part
    lands |= Lands.union([lands, lands])
    is_less: bool = lands <= lands - lands and area > 0 and bool(by) and lands.contains(part.text)
    return overlaps[0].acres if is_less else lands.acres(plats) + figures[where] + tracts[0].by_township[where]


def wrong_townships(plats: Plats, lands: Lands) -> None:
    plats.acres(14)  # type: ignore[arg-type]
    plats["2N-3W"] = lands  # type: ignore[index]
    lands.acres()  # type: ignore[call-arg]
    print(lands | "T2N R3W sec. 14")  # type: ignore[operator]


def wrong_many(lots: Lots) -> None:
    lots.acres_many(["sec. 14."], account="plat")  # type: ignore[call-arg]
    lots.report_each("name,description")  # type: ignore[arg-type]
    township.Township("2", "N", 3, "W")  # type: ignore[arg-type]
    township.Township(2, "E", 3, "W")  # type: ignore[arg-type]


def readings(plat: Plat) -> Optional[Decimal]:
    found: Readings = plat.suggest(b"NENE Sec 14", account="plat")
    is_assumed: bool = found[0].assumes_standard_lots
    assert not is_assumed
    reading: Reading = suggest("NENE Sec 14")[0]
    changes: Tuple[Change, ...] = reading.changes
    places: List[int] = [place for change in changes for place in (change.start, change.end)]
    words: List[str] = [reading.text, reading.manner, *reading.assumptions, *(change.written for change in changes)]
    reason: Optional[str] = found.reason
    beyond: Optional[Tuple[int, int]] = found.beyond
    refused: Optional[Refused] = found[0].refused
    return found[0].acres if words and places and not (reason or beyond or refused) else None


def phrases(plat: Plat, lots: Lots, plats: Plats, path: Path) -> Optional[Decimal]:
    ignore: Phrases = Phrases(["Kestrel", b"Unit 7"]) if path.exists() else Phrases.open(path)
    found: Readings = plat.suggest("Kestrel NENE Sec 14", "plat", ignore) or lots.suggest(b"NENE", ignore=["Kestrel"])
    parts: List[PartReadings] = plats.suggest("T2N R3W sec. 14", ignore=ignore) + suggest_parts("sec. 14", ("Kestrel",))
    phrase: str = ignore[0]
    phrases: Tuple[str, ...] = ignore[1:]
    return suggest(phrase, ignore=phrases)[0].acres if parts and len(ignore) else found[0].acres


def wrong_phrases(plat: Plat) -> None:
    plat.suggest("sec. 14", ignore=14)  # type: ignore[arg-type]
    suggest("sec. 14", ignore=[14])  # type: ignore[list-item]
    Phrases([14])  # type: ignore[list-item]


def wrong_readings(plat: Plat) -> None:
    plat.suggest(14)  # type: ignore[arg-type]
    plat.suggest("sec. 14.", account="printed")  # type: ignore[arg-type]
    plat.acres(suggest("sec. 14.")[0])  # type: ignore[arg-type]


def wrong_lands(plat: Plat, land: Land, lots: Lots) -> None:
    land.acres(lots, account="plat")  # type: ignore[call-overload]
    land.acres()  # type: ignore[call-overload]
    print(land | "sec. 14.")  # type: ignore[operator]
    print(land < 14)  # type: ignore[operator]
    plat.normal(land)  # type: ignore[arg-type]
    plat.svg(land=14, section="14")  # type: ignore[arg-type]
    Lots.of_figures("T. 2 N., R. 3 W.", {5: "40.45"})  # type: ignore[dict-item]


def wrong(plat: Plat) -> None:
    plat.report_each("name,description")  # type: ignore[arg-type]
    plat.acres("sec. 14.", account="printed")  # type: ignore[arg-type]
    plat.acres(14)  # type: ignore[arg-type]
    Notes(14)  # type: ignore[arg-type]
    Plat.read(Path("b1.csv"))  # type: ignore[arg-type]
    plat.total = Decimal(1)  # type: ignore[misc]
    number: str = plat.township.number  # type: ignore[assignment]
    print(number)
