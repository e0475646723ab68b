"""Tests of land in several townships, and of its acreage by the plats and lot tables of all of them."""
from __future__ import annotations

import doctest
import os
import pickle
import random
import re
import subprocess
import tempfile
import time
import unittest
from decimal import Decimal
from fractions import Fraction
from pathlib import Path
from typing import Iterator, List

from samples import EVEN_NOTES, NOTES, TOP, even, uneven
from township import (
    Land,
    Lands,
    Lots,
    LotsOverlap,
    MissingPlat,
    Plat,
    Plats,
    Refused,
    Township,
    rounded,
    split,
    suggest,
    suggest_parts,
)

HERE = Township(2, "N", 3, "W")
NORTH = Township(3, "N", 3, "W")

#: Lots of T. 3 N., R. 3 W. on its approved plat.
TABLE = Lots.of_figures("T. 3 N., R. 3 W.", {(31, 1): "38.97", (31, 2): "39.01", (5, 1): "40.45"})

#: 40.45 + 40.55 acres by the plat, and 320 + 38.97 + 39.01 acres by the table.
TEXT = "T. 2 N., R. 3 W., sec. 5, lots 1 and 2; T. 3 N., R. 3 W., sec. 31, lots 1 and 2; sec. 32, S1/2."


def plats() -> Plats:
    return Plats([uneven(), TABLE])


class AcresTest(unittest.TestCase):
    """The acreage of land in several townships."""

    def test_total_and_figures(self) -> None:
        self.assertEqual(plats().acres(TEXT), Decimal("478.98"))
        self.assertEqual(plats().acres_by_township(TEXT), {HERE: Decimal("81.00"), NORTH: Decimal("397.98")})

    def test_the_total_is_rounded_once(self) -> None:
        # By itself, lot 1 of section 7 has 39.17625 acres or so, and lot 4 has 39.025.
        first, second = uneven().area("sec. 7, lot 1."), uneven().area("sec. 7, lot 4.")
        total = plats().acres("T2N R3W sec. 7, lot 1; T2N R3W sec. 7, lot 4")
        self.assertEqual(total, rounded(first + second))
        self.assertNotEqual(total, rounded(first) + rounded(second))
        self.assertEqual(plats().area("T2N R3W sec. 7, lots 1 and 4"), first + second)

    def test_accounts(self) -> None:
        # 156.42 acres by the printed plat, and 38.97 by the table.
        text = "T2N R3W sec. 7, lots 1 to 4; T3N R3W sec. 31, lot 1"
        self.assertEqual(plats().acres(text, "plat"), Decimal("195.39"))
        with self.assertRaises(ValueError):
            plats().acres("T2N R3W sec. 14", "printed")  # type: ignore[arg-type]

    def test_one_township_has_the_answer_of_its_plat(self) -> None:
        for land in ("sec. 14", "sec. 5, lots 1 and 2", "secs. 1 to 36"):
            self.assertEqual(plats().acres(f"T. 2 N., R. 3 W., {land}"), uneven().acres(land))

    def test_a_township_without_a_plat(self) -> None:
        with self.assertRaises(MissingPlat) as caught:
            plats().acres("T2N R3W sec. 14; T4N R3W sec. 15")
        self.assertEqual(caught.exception.township, Township(4, "N", 3, "W"))
        self.assertEqual(str(caught.exception), "there are no field notes and no lot table for T. 4 N., R. 3 W.")
        self.assertIsInstance(caught.exception, LookupError)

    def test_a_lot_that_the_table_lacks(self) -> None:
        with self.assertRaises(Refused) as caught:
            plats().acres("T2N R3W sec. 14; T3N R3W sec. 31, lot 3")
        self.assertEqual((caught.exception.number, caught.exception.at), (94, 3103))
        said = "T. 3 N., R. 3 W.: the lot table has no record for lot 3 of section 31"
        self.assertEqual(str(caught.exception), said)

    def test_refused_parts(self) -> None:
        for text, number, at, source in (
            ("T2N R3W sec. 14; T3N R3W sec. 37", 62, 13, "T. 3 N., R. 3 W."),
            ("T2N R3W sec. 14, T3N R3W sec. 31", 44, 16, "T. 2 N., R. 3 W."),
            ("T2N R3W sec. 14; T3N sec. 31", 33, 4, "township"),
            ("sec. 14", 31, 0, "township"),
            ("sec. 14; T3N R3W sec. 31", 38, 9, "description"),
        ):
            with self.assertRaises(Refused, msg=text) as caught:
                plats().acres(text)
            refused = caught.exception
            self.assertEqual((refused.number, refused.at, refused.source), (number, at, source), text)

    def test_land_that_is_named_twice(self) -> None:
        with self.assertRaises(Refused) as caught:
            plats().acres("T2N R3W sec. 14;\nT3N R3W sec. 31; T2N R3W sec. 14, NE1/4")
        refused = caught.exception
        self.assertEqual((refused.number, refused.at, refused.line, refused.column), (67, 34, 2, 18))
        self.assertEqual(refused.hints, ("both parts include T. 2 N., R. 3 W., sec. 14, NE1/4.",))

    def test_values(self) -> None:
        land = uneven().land("sec. 14")
        self.assertEqual(plats().acres(land), Decimal("640.00"))
        self.assertEqual(plats().acres(Lands([land])), Decimal("640.00"))
        self.assertEqual(Lands([land]).acres(plats()), Decimal("640.00"))
        self.assertEqual(Lands([land]).area(plats()), Fraction(640))
        self.assertEqual(plats().acres(Lands()), Decimal("0.00"))


class PlatsTest(unittest.TestCase):
    """The plats and lot tables of several townships."""

    def test_mapping(self) -> None:
        self.assertEqual(set(plats()), {HERE, NORTH})
        self.assertEqual(plats()["2N-3W"], uneven())
        self.assertEqual(plats()[NORTH], TABLE)
        self.assertIn("T3N R3W", plats())
        self.assertNotIn("T4N R3W", plats())
        self.assertIsNone(plats().get("T4N R3W"))
        self.assertEqual(repr(plats()), "<township.Plats: 2 townships>")

    def test_made_from_a_mapping(self) -> None:
        wanted = plats()
        for given in (wanted, dict(wanted), {"T2N R3W": uneven(), (3, "N", 3, "W"): TABLE}):
            self.assertEqual(dict(Plats(given)), dict(wanted))
        with self.assertRaisesRegex(ValueError, "for T. 3 N., R. 3 W. is for T. 2 N., R. 3 W."):
            Plats({NORTH: uneven()})
        for wrong in ("county", ["county/2N-3W.csv"], {HERE: "county/2N-3W.csv"}):
            with self.assertRaisesRegex(TypeError, "not str; Plats.open reads a folder"):
                Plats(wrong)  # type: ignore[arg-type, dict-item, list-item]
        self.assertEqual(repr(Plats([uneven()])), "<township.Plats: 1 township>")

    def test_a_lot_table_controls(self) -> None:
        table = Lots.of_figures("T. 2 N., R. 3 W.", {(5, 1): "40.00"})
        for given in ([uneven(), table], [table, uneven()], [table, uneven(), table, uneven()]):
            self.assertEqual(Plats(given).acres("T2N R3W sec. 5, lot 1"), Decimal("40.00"))

    def test_two_plats_of_a_township(self) -> None:
        with self.assertRaisesRegex(ValueError, "^these are different field notes for T. 2 N., R. 3 W.$"):
            Plats([uneven(), even()])
        with self.assertRaisesRegex(ValueError, "^these are different lot tables for T. 3 N., R. 3 W.$"):
            Plats([TABLE, Lots.of_figures("T. 3 N., R. 3 W.", {(31, 1): "38.98"})])
        self.assertEqual(len(Plats([uneven(), Plat.read(NOTES)])), 1)

    def test_folders(self) -> None:
        with tempfile.TemporaryDirectory() as name:
            folder = Path(name)
            (folder / "2N-3W.csv").write_bytes(NOTES)
            (folder / "3N-3W.csv").write_text("section,lot,acres\nT,3,N,3,W\n31,1,38.97\n31,2,39.01\n")
            self.assertEqual(Plats.open(folder).acres(TEXT), Decimal("478.98"))
            with self.assertRaisesRegex(ValueError, "has no folders by principal meridian$"):
                Plats.open(folder, "Boise")
            (folder / "6th P.M.").mkdir()
            (folder / "6th P.M." / "4N-3W.csv").write_bytes(NOTES.replace(b"T,2,N,3,W", b"T,4,N,3,W"))
            with self.assertRaisesRegex(ValueError, "; say which one$"):
                Plats.open(folder)
            self.assertEqual(list(Plats.open(folder, "6th PM")), [Township(4, "N", 3, "W")])
            with self.assertRaisesRegex(ValueError, "no folder for the principal meridian `Boise` in"):
                Plats.open(folder, "Boise")
            (folder / "other.csv").write_text("x\n")
            with self.assertRaisesRegex(ValueError, "this is neither field notes nor a lot table"):
                Plats.open(folder, "6th PM")
            with self.assertRaises(FileNotFoundError):
                Plats.open(folder / "none")

    def test_different_files_of_a_township(self) -> None:
        with tempfile.TemporaryDirectory() as folder:
            for name in ("a.csv", "b.csv"):
                (Path(folder) / name).write_bytes(EVEN_NOTES if name == "a.csv" else NOTES)
            with self.assertRaisesRegex(ValueError, "^two files have different field notes for T. 2 N., R. 3 W.: "):
                Plats.open(folder)


def many_texts(townships: List[Township]) -> Iterator[str]:
    """500 descriptions in each of these townships, none of which overlap: 20 in each section without lots."""
    quarters = ("NE1/4", "NW1/4", "SW1/4", "SE1/4")
    parts = [f"{part}{quarter}" for quarter in quarters[:3] for part in quarters]
    parts += [f"{half}{part}SE1/4" for part in quarters for half in ("N1/2", "S1/2")]
    for township in townships:
        for section in (*range(8, 18), *range(20, 30), *range(32, 37)):
            yield from (f"{township}, sec. {section}, {part}" for part in parts)


class ReportTest(unittest.TestCase):
    """Reports on tracts, and their overlaps."""

    def test_report(self) -> None:
        report = plats().report([("A", TEXT), ("B", "T3N R3W sec. 32, N1/2"), ("C", uneven().land("sec. 7, lot 1"))])
        self.assertEqual([(tract.name, tract.acres) for tract in report.tracts], [
            ("A", Decimal("478.98")), ("B", Decimal("320.00")), ("C", Decimal("39.18")),
        ])
        self.assertEqual(report.tracts[0].by_township, {HERE: Decimal("81.00"), NORTH: Decimal("397.98")})
        self.assertEqual(report.total, Decimal("838.16"))
        self.assertEqual(report.by_township, {HERE: Decimal("120.18"), NORTH: Decimal("717.98")})

    def test_refused_tracts(self) -> None:
        for second, number, inner in (
            (("A", "T3N R3W sec. 31, lot 1"), 82, None),
            (("B", "T2N R3W sec. 37"), 83, (62, 13)),
            (("B", "sec. 14"), 83, (31, 0)),
            (("B", "T3N R3W sec. 31, lot 4"), 83, (94, 3104)),
            (("B", "T3N R3W sec. 31, lot 1; T2N R3W sec. 14, NE1/4"), 84, None),
        ):
            with self.assertRaises(Refused, msg=second) as caught:
                plats().report([("A", "T2N R3W sec. 14"), second])
            refused = caught.exception
            self.assertEqual((refused.number, refused.at, refused.inner), (number, 3, inner), second)
        self.assertEqual(str(refused), "tracts: record 3: `B` overlaps `A`: T. 2 N., R. 3 W., sec. 14, NE1/4.")

    def test_many_tracts_take_no_time_per_pair(self) -> None:
        townships = [Township(number, "N", 3, "W") for number in range(1, 21)]
        plats = Plats(Lots.new(township) for township in townships)
        tracts = [(str(index), text) for index, text in enumerate(many_texts(townships))]
        self.assertEqual(len(tracts), 10_000)
        begun = time.process_time()
        report = plats.report(tracts)
        self.assertEqual(report.total, sum(tract.acres for tract in report.tracts))
        self.assertEqual(plats.overlaps(tracts), ())
        again = plats.overlaps([*tracts, ("again", tracts[123][1])])
        self.assertEqual([(each.first, each.second) for each in again], [(123, 10_000)])
        with self.assertRaises(Refused) as caught:
            plats.report([*tracts, ("again", tracts[123][1])])
        self.assertEqual((caught.exception.number, caught.exception.at), (84, 10_002))
        # At least 1,000 tracts a second. All 50 million pairs take some minutes for each call.
        self.assertLess(time.process_time() - begun, 4 * 10)

    def test_overlaps_are_those_of_all_pairs(self) -> None:
        chance = random.Random(4)
        parts = ["", ", N1/2", ", S1/2", ", NE1/4", ", SW1/4NW1/4", ", E1/2SE1/4", ", NW1/4SE1/4"]
        texts = [
            "; ".join(f"T{number}N R3W sec. {section}{chance.choice(parts)}" for number, section in chosen)
            for chosen in (
                sorted({(chance.randrange(2, 5), chance.randrange(8, 12)) for _ in range(chance.randrange(1, 4))})
                for _ in range(60)
            )
        ]
        lands = [Lands.of(text) for text in texts]
        wanted = [
            (first, second)
            for second, later in enumerate(lands) for first, earlier in enumerate(lands[:second]) if earlier & later
        ]
        self.assertGreater(len(wanted), 100)
        plats = Plats([uneven()])
        found = plats.overlaps([("", text) for text in texts])
        self.assertEqual([(each.first, each.second) for each in found], wanted)
        self.assertEqual(plats.overlaps([("", land) for land in lands]), found)
        for first, second, acres in found:
            both = lands[first] & lands[second]
            is_here = list(both.by_township()) == [HERE]
            self.assertEqual(acres, plats.acres(both) if is_here else None)
        # In one township, the library finds the same.
        here = [(f"{index}", land.by_township().get(HERE, Land.empty(HERE))) for index, land in enumerate(lands)]
        described = [(name, land) for name, land in here if land]
        wanted_here = [(each.first, each.second, each.acres) for each in uneven().overlaps(described)]
        found_here = plats.overlaps([(name, Lands([land])) for name, land in described])
        self.assertEqual([tuple(each) for each in found_here], wanted_here)

    def test_overlaps(self) -> None:
        tracts = [
            ("A", "T2N R3W sec. 14; T3N R3W sec. 31, lot 1"),
            ("B", "T3N R3W sec. 31, lots 1 and 3"),
            ("C", "T2N R3W sec. 14, NE1/4"),
            ("D", "refused"),
            ("E", "T3N R3W sec. 31, lot 3; T4N R3W sec. 1"),
            ("F", "T4N R3W sec. 1"),
        ]
        self.assertEqual(plats().overlaps(tracts), (
            LotsOverlap(0, 1, Decimal("38.97")),
            LotsOverlap(0, 2, Decimal("160.00")),
            # The table lacks lot 3, and there is no plat of the last township.
            LotsOverlap(1, 4, None),
            LotsOverlap(4, 5, None),
        ))


class ReadingsTest(unittest.TestCase):
    """The readings of a text with the land of several townships."""

    def test_each_part_has_its_readings(self) -> None:
        text = "T2N-R3W Sec 5: Lots 1 & 2; T3N-R3W Sec 32: S2; and T4N-R3W Sec 14: NE4"
        parts = plats().suggest(text)
        self.assertEqual([str(each.part.township) for each in parts], [
            "T. 2 N., R. 3 W.", "T. 3 N., R. 3 W.", "T. 4 N., R. 3 W.",
        ])
        self.assertEqual([each.readings[0].acres for each in parts], [Decimal("81.00"), Decimal("320.00"), None])
        self.assertEqual([each.readings[0].refused for each in parts], [None] * 3)
        self.assertEqual([each.readings[0].text for each in parts], [
            "T2N R3W Sec 5: Lots 1  and  2", "T3N R3W Sec 32: S1/2", "T4N R3W Sec 14: NE1/4",
        ])
        without = suggest_parts(text)
        self.assertEqual([each.part for each in without], split(text))
        for given, (part, readings) in zip(without, parts):
            self.assertEqual(given.readings, suggest(part.text))
            self.assertEqual([each.text for each in given.readings], [each.text for each in readings])

    def test_several_readings_of_a_part(self) -> None:
        first, second = plats().suggest("T2N R3W sec. 14: NE¼NE¼ SW¼SW¼; T3N R3W sec. 31, lot 1.")
        self.assertEqual([each.acres for each in first.readings], [Decimal("80.00"), Decimal("2.50")])
        self.assertEqual([each.acres for each in second.readings], [Decimal("38.97")])

    def test_land_before_its_heading(self) -> None:
        (part, readings), = plats().suggest("NENE, S2NE4 Sec 14-2N-3W")
        self.assertEqual((part.start, part.end), (0, 24))
        self.assertEqual([each.acres for each in readings], [Decimal("120.00")])
        (part, readings), = plats().suggest("NE/4 of Section 14, T2N R3W")
        self.assertEqual(part.text, "NE/4 of Section 14, T2N R3W")
        self.assertEqual([each.acres for each in readings], [Decimal("160.00")])

    def test_refused_readings(self) -> None:
        (_, readings), = plats().suggest("T3N-R3W Sec 31: Lot 3")
        self.assertEqual([each.refused and each.refused.number for each in readings], [94])
        (_, readings), = plats().suggest("N2 Sec 14")
        self.assertEqual([each.refused and each.refused.number for each in readings], [31])

    def test_reasons(self) -> None:
        land = "that portion of the NE/4 lying north of the road"
        first, second = suggest_parts(f"T2N R3W sec. 14, {land}; T3N R3W sec. 1")
        self.assertEqual((len(first.readings), first.readings.reason), (0, "a portion needs a survey"))
        self.assertEqual(len(second.readings), 1)
        with self.assertRaises(Refused) as caught:
            suggest_parts("T2N R3W sec. 5".ljust(1_048_577))
        self.assertEqual(caught.exception.number, 39)


class LandsTest(unittest.TestCase):
    """Land in several townships as a value."""

    LANDS = [
        Lands.of("T2N R3W sec. 14; T3N R3W sec. 31"),
        Lands.of("T2N R3W sec. 14, N1/2; T3N R3W sec. 30"),
        Lands.of("T4S R1E sec. 1; T2N R3W sec. 14, E1/2"),
        Lands(),
    ]

    def test_canonical_text(self) -> None:
        given = "T1S R1W sec. 1; T1N R1W sec. 1; T1N R1E sec. 1; T2N R1E sec. 1; T1N R2E sec. 1; T1N R1E sec. 2"
        lands = Lands.of(given)
        self.assertEqual(" ".join(str(lands).split()), (
            "T. 1 N., R. 1 E., sec. 1, all; sec. 2, all. T. 1 N., R. 2 E., sec. 1, all. T. 1 N., R. 1 W., sec. 1, all. "
            "T. 2 N., R. 1 E., sec. 1, all. T. 1 S., R. 1 W., sec. 1, all."
        ))
        self.assertEqual(Lands.of(str(lands)), lands)
        self.assertEqual([part.township for part in split(str(lands))], list(lands.by_township()))

    def test_operations_are_those_of_sets(self) -> None:
        for a in self.LANDS:
            for b in self.LANDS:
                self.assertEqual(a | b, b | a)
                self.assertEqual(a & b, b & a)
                self.assertEqual((a - b) | (a & b), a)
                self.assertEqual(a ^ b, (a - b) | (b - a))
                self.assertTrue((a - b).isdisjoint(b))
                self.assertEqual(a.isdisjoint(b), not a & b)
                self.assertEqual((a.disjoint(b), a.overlaps(b)), (not a & b, bool(a & b)))
                self.assertEqual(a.contains(b), b <= a)
                self.assertEqual(a <= b, a | b == b)
                self.assertEqual(a < b, a <= b and a != b)
                self.assertEqual(a >= b, b <= a)
                self.assertEqual(a > b, b < a)

    def test_union(self) -> None:
        self.assertEqual(Lands.union(self.LANDS), self.LANDS[0] | self.LANDS[1] | self.LANDS[2])
        self.assertEqual(Lands.union([]), Lands())
        lands = self.LANDS[0]
        lands |= self.LANDS[1]
        self.assertEqual(lands, self.LANDS[0] | self.LANDS[1])
        self.assertTrue(lands.contains("T3N R3W sec. 31, lot 1; T2N R3W sec. 14, NE1/4"))
        self.assertFalse(lands.contains("T3N R3W sec. 31, lot 1; T4N R3W sec. 14, NE1/4"))

    def test_what_is_in_land(self) -> None:
        lands = Lands.of("T2N R3W sec. 14; T3N R3W sec. 31")
        for text, inside in (("T2N R3W sec. 14, N1/2", True), ("T2N R3W sec. 15", False), ("T4N R3W sec. 14", False)):
            for other in (text, text.encode(), Lands.of(text), next(iter(Lands.of(text)))):
                self.assertEqual((other in lands, lands.contains(other)), (inside, inside))
        with self.assertRaises(Refused):
            self.assertIn("sec. 14", lands)

    def test_what_is_in_land_of_a_lot_table(self) -> None:
        own = Lots.read("section,lot,acres,land\nT,3,N,3,W,1912-03-04\n14,1,38.50,NE1/4NE1/4\n")
        dated = Lots.read("section,lot,acres\nT,3,N,3,W,1912-03-04\n5,1,40.45\n")
        for lots, text in ((own, "sec. 14, lot 1"), (dated, "sec. 5, lot 1")):
            lands = Lands([lots.land("secs. 5 and 14"), Land.of(HERE, "sec. 14")])
            self.assertTrue(lands.contains(f"T3N R3W {text}; T2N R3W sec. 14, N1/2"))
            self.assertFalse(lands.contains(f"T3N R3W {text}; T2N R3W sec. 15"))

    def test_representations_are_short(self) -> None:
        lands = Lands.of("T2N R3W secs. 1 to 36; T3N R3W secs. 1 to 36")
        self.assertLessEqual(len(repr(lands)), 130)
        self.assertEqual(lands.on_one_line(), " ".join(str(lands).split()))

    def test_headings_with_zeros(self) -> None:
        # A description has `T. 0020 N.` for township 20.
        plat = Plat.read(NOTES.replace(b"T,2,N,3,W", b"T,20,N,3,W"))
        for text in ("T. 0020 N., R. 3 W., sec. 14", "T. 020 N., R. 0003 W., sec. 14", "T. 20 N., R. 03 W., sec. 14"):
            self.assertEqual(plat.acres(text), Decimal("640.00"))
            self.assertEqual(Plats([plat]).acres(text), Decimal("640.00"))
            north = Plats([plat, TABLE])
            self.assertEqual(north.acres(f"T3N R3W sec. 1, S1/2; {text}"), Decimal("960.00"))

    def test_values(self) -> None:
        for lands in self.LANDS:
            again = pickle.loads(pickle.dumps(lands))
            self.assertEqual(again, lands)
            self.assertEqual((hash(again), bool(again), len(again)), (hash(lands), bool(lands), len(lands)))
            self.assertEqual(Lands(lands), lands)
        self.assertFalse(Lands([Land.empty("T2N R3W")]))
        self.assertEqual(repr(Lands()), "<township.Lands: none>")
        self.assertNotEqual(self.LANDS[0], self.LANDS[1])

    def test_the_sum_of_parts(self) -> None:
        chance = random.Random(3)
        plats = Plats([uneven(), Plat.read(NOTES.replace(b"T,2,N,3,W", b"T,3,N,3,W"))])
        for _ in range(50):
            parts = [
                f"T{number}N R3W sec. {section}"
                for number in (2, 3) for section in sorted(chance.sample(range(1, 37), chance.randrange(1, 5)))
            ]
            chance.shuffle(parts)
            areas = [plats.area(part) for part in parts]
            self.assertEqual(plats.area("; ".join(parts)), sum(areas))
            self.assertEqual(plats.acres("; ".join(parts)), rounded(sum(areas, Fraction(0))))


class DocumentTest(unittest.TestCase):
    """The examples of `docs/SEVERAL-TOWNSHIPS.md`."""

    PAGE = (TOP / "docs" / "SEVERAL-TOWNSHIPS.md").read_text(encoding="utf-8")

    def test_splits(self) -> None:
        rows = re.findall(r"(?m)^\| `(T[^`]*)` \| (.*) \|$", self.PAGE)
        self.assertEqual(len(rows), 4)
        before: List[str] = []
        for text, shown in rows:
            parts = re.findall("`([^`]*)`", shown) or before
            self.assertEqual([part.text for part in split(text)], parts, text)
            before = parts

    def test_refusals(self) -> None:
        [(number, text, at)] = re.findall(r"(?m)^\| (\d+) `[A-Za-z]+` \|.*\| `([^`]*)`: \1 at (\d+) \|$", self.PAGE)
        with self.assertRaises(Refused) as caught:
            split(text)
        self.assertEqual((caught.exception.number, caught.exception.at), (int(number), int(at)))

    def test_acreage(self) -> None:
        commands = re.findall(r"(?m)^    \$ (.*)$", self.PAGE)
        self.assertEqual(len(commands), 3)
        test = doctest.DocTestParser().get_doctest(self.PAGE, {}, "SEVERAL-TOWNSHIPS.md", None, 0)
        self.assertEqual(len(test.examples), 7)
        came_from = os.getcwd()
        self.addCleanup(os.chdir, came_from)
        with tempfile.TemporaryDirectory() as folder:
            (Path(folder) / "samples").symlink_to(TOP / "samples")
            for command in commands:
                subprocess.run(command, shell=True, cwd=folder, check=True)
            os.chdir(folder)
            self.assertEqual(doctest.DocTestRunner().run(test).failed, 0)
            os.chdir(came_from)


if __name__ == "__main__":
    unittest.main()
