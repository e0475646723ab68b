"""Lot tables that say where their lots lie, and land on their plats."""
import copy
import datetime
import pickle
import random
import sys
import unittest
from decimal import Decimal
from fractions import Fraction

import township
from samples import TOP, RefusalCase, even
from township import Land, Lots, Part, PlatLot, Refusal

WHERE = "T. 2 N., R. 3 W."

#: The township of docs/LOTS-FORMAT.md: a lake covers the northwest quarter-quarter of section 14, two lots share
#: another one, and lot 4 is two of them.
LAKE = """\
section,lot,acres,land
T,2,N,3,W,1912-03-04
5,1,40.45,NE1/4NE1/4
14,1,38.50,NE1/4NE1/4
14,2,12.25,N1/2NW1/4NE1/4
14,3,19.80,S1/2NW1/4NE1/4
14,4,71.10,E1/2NW1/4
14,,,NW1/4NW1/4
"""

#: Lot 9 lies in two parts, of which one shares a quarter-quarter with land that is not there; and section 20 is not
#: there at all.
PARTS = """\
section,lot,acres,land
T,2,N,3,W
14,9,45.01,"NE1/4NE1/4, SW1/4SW1/4SW1/4"
14,,,"SE1/4SW1/4SW1/4, N1/2SW1/4SW1/4"
20,,,"N1/2, S1/2"
"""


def lake() -> Lots:
    return Lots.read(LAKE)


def lake_without_its_date() -> Lots:
    return Lots.read(LAKE.replace(",1912-03-04", ""))


def parts() -> Lots:
    return Lots.read(PARTS)


class Tables(unittest.TestCase):
    def test_township_and_date(self):
        self.assertEqual((lake().township, lake().date), ((2, "N", 3, "W"), datetime.date(1912, 3, 4)))
        self.assertIsNone(parts().date)
        self.assertEqual([lots.has_land for lots in (lake(), parts(), Lots.new(WHERE))], [True, True, False])

    def test_figures(self):
        figures = {(5, 1): "40.45", (14, 1): "38.50", (14, 2): "12.25", (14, 3): "19.80", (14, 4): "71.10"}
        self.assertEqual({lot: str(acres) for lot, acres in lake().figures.items()}, figures)
        self.assertEqual(dict(parts().figures), {(14, 9): Decimal("45.01")})

    def test_where(self):
        places = {1: "NE1/4NE1/4", 2: "N1/2NW1/4NE1/4", 3: "S1/2NW1/4NE1/4", 4: "E1/2NW1/4"}
        self.assertEqual({lot: lake().where(14, lot) for lot in places}, places)
        self.assertEqual(parts().where(14, 9), "NE1/4NE1/4, SW1/4SW1/4SW1/4")

    def test_where_of_standard_lots(self):
        # Along the north boundary from the east, and along the west boundary from the north.
        lots = Lots.of_figures(WHERE, {})
        self.assertEqual([lots.where(5, lot) for lot in (1, 2, 3, 4)],
                         ["NE1/4NE1/4", "NW1/4NE1/4", "NE1/4NW1/4", "NW1/4NW1/4"])
        self.assertEqual([lots.where(19, lot) for lot in (1, 2, 3, 4)],
                         ["NW1/4NW1/4", "SW1/4NW1/4", "NW1/4SW1/4", "SW1/4SW1/4"])
        self.assertEqual(lots.where(6, 5), "SW1/4NW1/4")

    def test_lots_that_are_not_there(self):
        for section, lot in ((14, 5), (14, 0), (14, 100), (13, 1), (5, 2)):
            with self.assertRaisesRegex(ValueError, f"section {section} has no lot {lot}"):
                lake().where(section, lot)
        for call in (lake().section, lambda section: lake().where(section, 1)):
            for section in (0, 37, -1):
                with self.assertRaisesRegex(ValueError, f"there is no section {section}"):
                    call(section)

    def test_numbers_that_are_not_integers(self):
        # Neither a float nor text counts as a number, even if its value is a section's or a lot's.
        for call in (lambda: lake().where(14, 2.0), lambda: lake().where(14.0, 2), lambda: lake().where("14", 2),
                     lambda: lake().where(14, "2"), lambda: lake().where(14, None), lambda: lake().section(14.0),
                     lambda: lake().section("14"), lambda: lake().section(None)):
            with self.assertRaisesRegex(TypeError, "cannot be interpreted as an integer"):
                call()

    def test_section(self):
        self.assertEqual(lake().section(14), (
            PlatLot(1, Decimal("38.50"), "NE1/4NE1/4"), PlatLot(2, Decimal("12.25"), "N1/2NW1/4NE1/4"),
            PlatLot(3, Decimal("19.80"), "S1/2NW1/4NE1/4"), PlatLot(4, Decimal("71.10"), "E1/2NW1/4"),
            PlatLot(None, None, "NW1/4NW1/4"),
        ))
        self.assertEqual(lake().section(13), ())
        self.assertEqual(parts().section(20), (PlatLot(None, None, "N1/2, S1/2"),))
        self.assertEqual(parts().section(14)[1].land, "N1/2SW1/4SW1/4, SE1/4SW1/4SW1/4")
        standard = Lots.of_figures(WHERE, {(5, 2): "40.55"}).section(5)
        self.assertEqual([(each.lot, each.acres) for each in standard],
                         [(1, None), (2, Decimal("40.55")), (3, None), (4, None)])

    def test_text(self):
        self.assertEqual(lake().csv(), LAKE)
        given, canonical = "SE1/4SW1/4SW1/4, N1/2SW1/4SW1/4", "N1/2SW1/4SW1/4, SE1/4SW1/4SW1/4"
        self.assertEqual(parts().csv(), PARTS.replace(given, canonical))
        dated = "section,lot,acres\nT,2,N,3,W,0099-12-31\n5,1,40.45\n"
        self.assertEqual(Lots.read(dated).csv(), dated)
        empty = "section,lot,acres,land\nT,2,N,3,W\n"
        self.assertEqual(Lots.read(empty).csv(), empty)

    def test_text_is_read_as_the_same_table(self):
        for lots in (lake(), parts(), Lots.read("section,lot,acres,land\nT,9,S,8,E\n"), Lots.new(WHERE)):
            self.assertEqual(Lots.read(lots.csv()), lots)

    def test_equality(self):
        lines = LAKE.splitlines(keepends=True)
        again = Lots.read("".join(lines[:2] + lines[:1:-1]).replace("E1/2NW1/4", '"NE1/4NW1/4 and SE1/4 of the NW¼"'))
        self.assertEqual((again, hash(again)), (lake(), hash(lake())))
        for old, new in (("1912-03-04", "1912-03-05"), (",1912-03-04", ""), ("38.50", "38.51"), ("14,4", "14,5"),
                         ("14,,,NW1/4NW1/4\n", ""), ("14,,,NW1/4NW1/4", "14,,,SW1/4NW1/4"), ("T,2", "T,3")):
            with self.subTest(new=new):
                self.assertNotEqual(Lots.read(LAKE.replace(old, new, 1)), lake())
        # The lots and acres of a table without land, at the standard places.
        standard = Lots.read("section,lot,acres\nT,2,N,3,W\n5,1,40.45\n")
        self.assertNotEqual(standard, Lots.read("section,lot,acres,land\nT,2,N,3,W\n5,1,40.45,NE1/4NE1/4\n"))

    def test_copies(self):
        for lots in (lake(), parts()):
            for again in (pickle.loads(pickle.dumps(lots)), copy.copy(lots), copy.deepcopy(lots)):
                self.assertEqual((again, again.csv()), (lots, lots.csv()))

    def test_representation(self):
        self.assertEqual(repr(lake()), "<township.Lots of T. 2 N., R. 3 W., 1912-03-04: 5 lots>")
        self.assertEqual(repr(parts()), "<township.Lots of T. 2 N., R. 3 W.: 1 lot>")
        dated = Lots.read("section,lot,acres\nT,2,N,3,W,1912-03-04\n5,1,40.45\n")
        self.assertEqual(repr(dated), "<township.Lots of T. 2 N., R. 3 W., 1912-03-04: 1 of 47 lots>")

    def test_table_without_a_short_text(self):
        """In each of 8 sections, the 32 rows of places belong to two lots in turn. A row is one aliquot part, but the
        canonical text has no part that is wider than two places and one place high: it writes 16 parts for a row."""
        halves = ["".join(f"{'NS'[row >> bit & 1]}1/2" for bit in range(5)) for row in range(32)]
        rows = {lot: ", ".join(halves[row] for row in range(32) if bin(row).count("1") % 2 == lot) for lot in (0, 1)}
        table = "section,lot,acres,land\nT,2,N,3,W\n"
        table += "".join(f'{section},{lot + 1},320.00,"{rows[lot]}"\n' for section in range(1, 9) for lot in (0, 1))
        lots = Lots.read(table)
        self.assertGreater(len(lots.csv()), 65_536)
        self.assertEqual(pickle.loads(pickle.dumps(lots)), lots)
        self.assertEqual(lots.acres("secs. 1 to 8."), Decimal("5120.00"))


class Descriptions(RefusalCase):
    def test_acres(self):
        for description, acres in (
            # 38.50 + 12.25 + 19.80, and 71.10 for a lot that is taken whole.
            ("sec. 14, lots 1 to 3.", "70.55"),
            ("sec. 14, lot 4.", "71.10"),
            ("sec. 14, lot 2.", "12.25"),
            # The four lots, and 640 - 4 * 40 - 40 acres that are in no lot and there: 141.65 + 440.
            ("sec. 14.", "581.65"),
            ("sec. 14, all.", "581.65"),
            ("secs. 13 and 14.", "1221.65"),
            ("sec. 14, SW1/4NW1/4, S1/2NE1/4.", "120.00"),
            # In section 5, only lot 1 is a lot.
            ("sec. 5, lot 1, NW1/4NE1/4.", "80.45"),
        ):
            with self.subTest(description=description):
                self.assertEqual(lake().acres(description), Decimal(acres))
                self.assertEqual(lake().area(description), Fraction(acres))
                self.assertEqual(lake().land(description).acres(lake()), Decimal(acres))

    def test_lot_in_several_parts(self):
        # 45.01, and 640 - 40 - 10 - 30 acres in no lot.
        self.assertEqual(parts().acres("sec. 14, lot 9."), Decimal("45.01"))
        self.assertEqual(parts().acres("sec. 14."), Decimal("605.01"))

    def test_canonical_descriptions(self):
        for description, text in (
            ("sec. 14, SE1/4, lot 3 and lot 1.", "sec. 14, lots 1, 3, SE1/4."),
            ("sec. 14, lots 1 to 4, S1/2NE1/4, SW1/4NW1/4, S1/2.", "sec. 14, all."),
            ("sec. 5.", "sec. 5, all."),
        ):
            self.assertEqual(lake().normal(description), f"{WHERE},\n{text}\n")
        found = lake().normal_many(["sec. 14, lot 2.", "sec. 14, lot 5.", b"sec. 13"])
        self.assertEqual((found[0], found[1].number, found[2]),
                         (f"{WHERE},\nsec. 14, lot 2.\n", 64, f"{WHERE},\nsec. 13, all.\n"))
        self.assertEqual(lake().normal_many(["sec. 14, lot 2.", "sec. 14, lot 5."] * 1000, threads=2), found[:2] * 1000)

    def test_refusals(self):
        for description, number, at, sentence, hints in (
            ("sec. 14, lot 5.", 64, 13, "section 14 has lots 1 to 4", ()),
            ("sec. 13, lot 1.", 64, 13, "section 13 has no lots", ()),
            ("sec. 5, lots 1 and 2.", 64, 19, "section 5 has only lot 1", ()),
            ("sec. 14, NE1/4.", 66, 9, "this part includes lots; name the lots instead",
             ("write sec. 14, lots 1, 2 and 3, S1/2NE1/4",)),
            ("sec. 14, NE1/4NE1/4.", 66, 9, "this part includes a lot; name the lot instead",
             ("write sec. 14, lot 1",)),
            ("sec. 14, E1/2NW1/4NE1/4.", 66, 9, "this part cuts lots; lots can only be named whole",
             ("it includes land of lots 2 and 3 of section 14",)),
            ("sec. 14, NW1/4NW1/4.", 68, 9, "the plat has no land in this part", ()),
            ("sec. 14, W1/2NW1/4.", 68, 9, "the plat has no land in some of this part; name the rest instead",
             ("write sec. 14, SW1/4NW1/4",)),
            ("sec. 14, lots 1 and 1.", 67, 20, "this land was named before", None),
            ("T. 3 N., R. 3 W., sec. 14.", 61, 0, None, None),
            ("sec. 14, NE/4.", 42, 11, None, None),
        ):
            for call in (lake().acres, lake().area, lake().land, lake().normal, lake().notes):
                with self.subTest(description=description, call=call.__name__):
                    refused = self.refused(call, description)
                    self.assertEqual((refused.number, refused.at, refused.source), (number, at, "description"))
                    self.assertEqual((refused.line, refused.column, refused.start), (1, at + 1, at))
                    self.assertIn(sentence or "", refused.sentence)
                    self.assertEqual(refused.hints, refused.hints if hints is None else hints)

    def test_number_in_a_gap(self):
        lots = Lots.read("section,lot,acres,land\nT,2,N,3,W\n" + "".join(
            f"14,{lot},40.00,{part}1/4NE1/4\n" for lot, part in ((2, "NE"), (4, "NW"), (7, "SW"), (8, "SE"))))
        sentence = "section 14 has lots 2, 4, 7, and 8"
        for lot, hints in (
            ("lot 3", ("the nearest lots are 2 and 4",)),
            ("lot 5", ("the nearest lots are 4 and 7",)),
            ("lot 6", ("the nearest lots are 4 and 7",)),
            ("lots 2 to 3", ("the nearest lots are 2 and 4",)),
            # The range is refused at its last number, which is a lot.
            ("lots 2 to 8", ()),
            # Before the first lot, and after the last one.
            ("lot 1", ()),
            ("lot 9", ()),
            ("lot 300", ()),
        ):
            with self.subTest(lot=lot):
                refused = self.refused(lots.acres, f"sec. 14, {lot}.")
                self.assertEqual((refused.number, refused.sentence, refused.hints), (64, sentence, hints))
        # Of the standard lots, none is missing between two others.
        self.assertEqual(self.refused(Lots.new(WHERE).acres, "sec. 6, lot 8.").hints, ())

    def test_section_that_is_not_there(self):
        refused = self.refused(parts().acres, "secs. 19 to 21.")
        self.assertEqual((refused.number, refused.at), (68, 12))
        refused = self.refused(parts().acres, "sec. 14; sec. 20, all.")
        self.assertEqual((refused.number, refused.at), (68, 18))
        self.assertEqual(refused.sentence, "the plat has no land in this section")

    def test_many(self):
        descriptions = ["sec. 14, lots 1 to 3.", "sec. 14, NE1/4.", "sec. 14, NE1/4 of SE1/4 and SW1/4."]
        answers = lake().acres_many(descriptions)
        self.assertEqual((answers[0], answers[1].number, answers[2]), (Decimal("70.55"), 66, Decimal("200.00")))
        each = [getattr(answer, "number", answer) for answer in lake().acres_of(descriptions)]
        self.assertEqual(each, [answers[0], 66, answers[2]])
        full = lake()._full_answers(descriptions)
        self.assertEqual((full.hundredths, full.refused), ([7055, 0, 20000], [1]))
        self.assertEqual((full.refusal(1), full.sentence(1)), (Refusal(66, 9), answers[1].sentence))
        self.assertEqual(full.texts(on_one_line=True)[0], f"{WHERE}, sec. 14, lots 1, 2, 3.")
        self.assertEqual(full.texts()[1], "")
        # It may mean the NE1/4 of both quarters, or that of one and the other as a whole.
        self.assertEqual(full.noted, [2])
        self.assertEqual(full.sentence(2), lake().notes(descriptions[2])[0].sentence)

    def test_notes(self):
        self.assertEqual(lake().notes("sec. 14, lots 1 to 3."), [])
        note, = lake().notes("sec. 14, SE1/4 SW1/4.")
        self.assertTrue(note.sentence.startswith("SE1/4 SW1/4 is read as one part, the SE1/4 of the SW1/4"), note)
        self.assertNotIn("acres", note.sentence)
        # With the standard lots, the acreage is nominal: the table has another one for lot 1.
        note, = Lots.of_figures(WHERE, {(5, 1): "40.45"}).notes("sec. 5, lot 1 and 3")
        self.assertIn("acres", note.sentence)
        self.assertNotIn("40.45", note.sentence)

    def test_readings(self):
        reading, = lake().suggest("Sec. 14: Lots 1, 2")
        self.assertEqual((reading.acres, reading.normal), (Decimal("50.75"), f"{WHERE},\nsec. 14, lots 1, 2.\n"))


class Lands(RefusalCase):
    def test_land(self):
        land = lake().land("sec. 14, lots 1 and 4.")
        self.assertEqual((land.date, land.lots, land.township), (datetime.date(1912, 3, 4), lake(), (2, "N", 3, "W")))
        self.assertEqual(land.text, f"{WHERE},\nsec. 14, lots 1, 4.\n")
        self.assertEqual(repr(land), f"<township.Land: {WHERE}, sec. 14, lots 1, 4.>")

    def test_parts(self):
        def blocks(lots, description):
            return lots.land(description).parts

        # Lot 1 is the northeast quarter-quarter: 8 by 8 places from column 0 and row 24 on.
        self.assertEqual(blocks(lake(), "sec. 14, lot 1, SE1/4."),
                         [Part(14, 1, 0, 24, 8, 8), Part(14, None, 0, 0, 16, 16)])
        self.assertEqual(blocks(lake(), "sec. 14, lots 2 to 4."),
                         [Part(14, 2, 8, 28, 8, 4), Part(14, 3, 8, 24, 8, 4), Part(14, 4, 16, 16, 8, 16)])
        # The lots of a section that is named as a whole are not.
        self.assertEqual({part.lot for part in blocks(lake(), "sec. 14.")}, {None})
        self.assertEqual(blocks(parts(), "sec. 14, lot 9."), [Part(14, 9, 0, 24, 8, 8), Part(14, 9, 28, 0, 4, 4)])
        self.assertEqual(blocks(lake(), "sec. 13."), [Part(13, None, 0, 0, 32, 32)])

    def test_two_lots_in_a_quarter_quarter(self):
        second, third = (lake().land(f"sec. 14, lot {lot}.") for lot in (2, 3))
        self.assertTrue(second.isdisjoint(third))
        self.assertEqual((second | third).text, f"{WHERE},\nsec. 14, lots 2, 3.\n")
        # 32 places each.
        self.assertEqual([sum(bin(row).count("1") for row in land.rows[14]) for land in (second, third)], [32, 32])

    def test_operations(self):
        section = lake().land("sec. 14.")
        rest = section - lake().land("sec. 14, lots 1 to 3.")
        self.assertEqual(rest.text, f"{WHERE},\nsec. 14, lot 4, S1/2NE1/4, SW1/4NW1/4, S1/2.\n")
        # 71.10 + 440
        self.assertEqual(lake().acres(rest), Decimal("511.10"))
        self.assertEqual(rest.lots, lake())
        self.assertEqual((rest & section, rest | section), (rest, section))
        self.assertEqual(rest ^ section, lake().land("sec. 14, lots 1 to 3."))
        self.assertTrue(rest < section and rest != section and section.contains("sec. 14, lot 2."))
        self.assertIn("sec. 14, lot 4.", rest)
        self.assertNotIn("sec. 14, lot 2.", rest)
        both = rest | lake().land("sec. 5, lot 1.")
        self.assertEqual({number: each.text for number, each in both.sections.items()},
                         {5: f"{WHERE},\nsec. 5, lot 1.\n", 14: rest.text})

    def test_copies(self):
        for lots in (lake(), parts(), Lots.read("section,lot,acres\nT,2,N,3,W,1912-03-04\n")):
            for description in ("sec. 14.", "sec. 13, N1/2.") if lots.has_land else ("sec. 5, lot 1; sec. 14.",):
                land = lots.land(description)
                again = pickle.loads(pickle.dumps(land))
                self.assertEqual((again, hash(again), again.text, again.date), (land, hash(land), land.text, land.date))
                self.assertEqual(again.lots, land.lots)

    def test_rows_with_part_of_a_lot(self):
        land = lake().land("sec. 14, lot 1.")
        make, (where, rows, date, lots) = land.__reduce__()
        with self.assertRaisesRegex(ValueError, "part of a lot"):
            make(where, {14: [row & 1 for row in rows[14]]}, date, lots)

    def test_different_plats(self):
        land = lake().land("sec. 13.")
        other_date = Lots.read(LAKE.replace("1912-03-04", "1950-01-01")).land("sec. 13.")
        undated = Lots.read(LAKE.replace(",1912-03-04", "")).land("sec. 13.")
        standard = Land.of(WHERE, "sec. 13.")
        dated_standard = Lots.read("section,lot,acres\nT,2,N,3,W,1912-03-04\n").land("sec. 13.")
        # The same date, but lot 1 is elsewhere.
        other_lots = Lots.read(LAKE.replace("14,1,38.50,NE1/4NE1/4", "14,1,38.50,SE1/4NE1/4")).land("sec. 13.")
        for other in (other_date, undated, standard, dated_standard, other_lots):
            for call in (Land.__or__, Land.__and__, Land.__sub__, Land.__xor__, Land.__le__, Land.__lt__, Land.__ge__,
                         Land.__gt__, Land.isdisjoint, Land.overlaps, Land.contains):
                with self.subTest(other=other.date, call=call.__name__):
                    with self.assertRaisesRegex(ValueError, f"these are on two different plats of {WHERE}"):
                        call(land, other)
        for other in (other_date, undated, standard, dated_standard):
            self.assertNotEqual(land, other)
        self.assertEqual((standard.date, dated_standard.date), (None, datetime.date(1912, 3, 4)))

    def test_land_is_measured_on_its_plat(self):
        land, standard = lake().land("sec. 13."), Land.of(WHERE, "sec. 13.")
        for by, other in ((lake(), standard), (parts(), land), (even(), land)):
            for call in (by.acres, by.area):
                with self.assertRaisesRegex(ValueError, "two different plats of"):
                    call(other)
        # Land that was read without a table is on each plat with the standard lots, whatever its date is.
        dated = Lots.read("section,lot,acres\nT,2,N,3,W,1912-03-04\n5,1,40.45\n")
        self.assertEqual(dated.acres(Land.of(WHERE, "sec. 5, lot 1.")), Decimal("40.45"))
        self.assertEqual(even().acres(dated.land("sec. 5, lot 1.")), Decimal("40.00"))
        with self.assertRaisesRegex(ValueError, "two different plats of"):
            even().differences(lake())
        self.assertIn("sec. 5, lot 1.", dated.land("sec. 5."))


class Tracts(RefusalCase):
    TRACTS = [("A", "sec. 14, lots 1 and 2."), ("B", "sec. 14, lot 3, SE1/4.")]

    def test_report(self):
        report = lake().report(self.TRACTS)
        # 38.50 + 12.25, and 19.80 + 160.
        self.assertEqual([str(tract.acres) for tract in report.tracts], ["50.75", "179.80"])
        self.assertEqual(report.total, Decimal("230.55"))
        lands = [(name, lake().land(description)) for name, description in self.TRACTS]
        self.assertEqual(lake().report(lands), report)

    def test_refusals_of_lists(self):
        refused = self.refused(lake().report, [("A", "sec. 14, lot 1."), ("B", "sec. 14, NE1/4.")])
        self.assertEqual((refused.number, refused.at, refused.inner), (83, 3, Refusal(66, 9)))
        self.assertEqual(refused.sentence, "tract `B`: this part includes lots; name the lots instead")
        self.assertEqual(refused.hints, ("write sec. 14, lots 1, 2 and 3, S1/2NE1/4",))
        # The record is `"B","sec. 14, NE1/4."`.
        self.assertEqual(str(refused)[:14], "tracts:3:15: t")
        refused = self.refused(lake().report, [("A", "sec. 14, lot 1."), ("B", "sec. 14.")])
        self.assertEqual((refused.number, refused.at, refused.inner), (84, 3, None))
        self.assertEqual(refused.sentence, "tract `B` overlaps tract `A` (record 2); both include sec. 14, lot 1.")
        refused = self.refused(lake().report, [("A", "sec. 14, lot 5."), ("A", "sec. 14.")])
        self.assertEqual((refused.number, refused.at, refused.inner), (83, 2, Refusal(64, 13)))
        refused = self.refused(lake().report, [("A", "sec. 14, lot 4."), ("A", "sec. 13.")])
        self.assertEqual((refused.number, refused.at), (82, 3))

    def test_each_tract(self):
        more = [("C", "sec. 14, lot 5."), ("A", "sec. 14."), ("D", "sec. 5, lot 1.")]
        answers = lake().report_each([*self.TRACTS, *more])
        self.assertEqual([str(answer.acres) for answer in answers], ["50.75", "179.80", "None", "None", "40.45"])
        # What the nominal plat says of the lots is not in the answers.
        refusals = [Refusal(83, 4), Refusal(82, 5)]
        self.assertEqual([answer.refusal for answer in answers], [None, None, *refusals, None])
        self.assertEqual([answer.inner for answer in answers], [None, None, Refusal(64, 13), None, None])

    def test_land_of_another_township(self):
        # Its text is refused for its heading.
        other = Land.of("T. 3 N., R. 3 W.", "sec. 14.")
        answer, = lake().report_each([("A", other)])
        self.assertEqual((answer.acres, answer.refusal, answer.inner), (None, Refusal(83, 2), Refusal(61, 0)))
        self.assertEqual(lake().overlaps([("A", other), ("B", other), ("C", "sec. 14.")]), ())
        with self.assertRaisesRegex(ValueError, f"two different plats of {WHERE}"):
            lake().report_each([("A", Land.of(WHERE, "sec. 14."))])

    def test_land_on_another_plat(self):
        """The text of such land would name other land: on the plat of field notes, section 14 has no lake."""
        standard, dated = Land.of(WHERE, "sec. 14."), Lots.read("section,lot,acres\nT,2,N,3,W,1912-03-04\n").land("sec. 14.")
        for by, land in ((lake(), standard), (lake(), dated), (parts(), lake().land("sec. 14.")), (even(), lake().land("sec. 14.")),
                         (lake(), lake_without_its_date().land("sec. 5, lot 1."))):
            for call in (by.report, by.report_each, by.overlaps):
                with self.subTest(by=by, call=call.__name__):
                    with self.assertRaisesRegex(ValueError, f"two different plats of {WHERE}"):
                        call([("A", land)])
        # The standard lots are the same at each date.
        self.assertEqual(even().report([("A", dated)]).total, Decimal("640.00"))

    def test_land_of_other_lots(self):
        """Two tables without a date, whose plats the library can't tell apart, with lots at other places."""
        table = "section,lot,acres,land\nT,2,N,3,W\n14,1,38.50,"
        whole, halved, moved = (Lots.read(f"{table}{land}\n") for land in (
            "NE1/4NE1/4", "N1/2NE1/4NE1/4\n14,2,18.50,S1/2NE1/4NE1/4", "SE1/4NE1/4"))
        for other in (halved, moved):
            land = other.land("sec. 14, lot 1.")
            for call in (whole.acres, whole.area, land.acres, township.Plats([whole]).acres):
                with self.assertRaisesRegex(ValueError, f"two different plats of {WHERE}"):
                    call(whole if call == land.acres else land)
            for listed in (whole.report, whole.report_each, whole.overlaps):
                with self.assertRaisesRegex(ValueError, f"two different plats of {WHERE}"):
                    listed([("A", land)])
        # The same lots with another acreage.
        again = Lots.read(whole.csv().replace("38.50", "38.60"))
        self.assertEqual(again.acres(whole.land("sec. 14, lot 1.")), Decimal("38.60"))
        self.assertEqual(str(again.report([("A", whole.land("sec. 14, lot 1."))]).total), "38.60")

    def test_overlaps(self):
        more = [("C", "sec. 14, lot 5."), ("D", "sec. 14."), ("E", "sec. 14, lots 2 and 4.")]
        found = lake().overlaps([*self.TRACTS, *more])
        self.assertEqual([(each.first, each.second, str(each.acres)) for each in found],
                         [(0, 3, "50.75"), (1, 3, "179.80"), (0, 4, "12.25"), (3, 4, "83.35")])


class Refusals(RefusalCase):
    """Each refusal of a lot table, with its place and the beginning of its explanation."""

    LAND = "section,lot,acres,land\nT,2,N,3,W\n"

    def test_each(self):
        # 64 lots of 10 acres, and the two halves of the last 10 acres.
        quarters = ("NE1/4", "NW1/4", "SE1/4", "SW1/4")
        tens = [f"{a}{b}{c}" for a in quarters for b in quarters for c in quarters]
        many = [*tens[:-1], f"N1/2{tens[-1]}", f"S1/2{tens[-1]}"]
        # 129 quarter-quarters in two halves, 16 in a section.
        halves = [f"{half}1/2{a}{b}" for a in quarters for b in quarters for half in "NS"]
        divided = [f"{index // 32 + 1},{index % 32 + 1},20.00,{halves[index % 32]}\n" for index in range(258)]
        heading = "the heading must be `section,lot,acres`, or `section,lot,acres,land`: field 3 is `land`"
        for table, number, at, sentence in (
            (" " * 65_537, 86, 65_536, "the lot table is longer than 65,536 bytes"),
            ("", 87, 1, "the lot table is empty"),
            ("section,lot,land\n", 88, 1, heading),
            (self.LAND + "14,1,38.50\n", 89, 3, "this record has 3 fields, not 4"),
            ("section,lot,acres,land\nT,0,N,3,W\n", 90, 2, "`0` is not a township number"),
            (self.LAND + "14,100,38.50,NE1/4\n", 91, 3, "`100` is not a lot number"),
            (self.LAND + "14,1,0.00,NE1/4\n", 92, 3, "`0.00` is not an acreage"),
            (self.LAND + "14,1,38.50,NE1/4\n14,1,38.50,NW1/4\n", 93, 4, "duplicate record: section 14, lot 1"),
            ("section,lot,acres,land\nT,2,N,3,W,1913-02-29\n", 95, 2, "`1913-02-29` is not a date"),
            (self.LAND + "14,1,38.50,NENE\n", 96, 3, "`NENE` is not land in aliquot parts"),
            (self.LAND + f"14,1,0.15,{6 * 'N1/2'}\n", 97, 3, "a part of this land is too small"),
            (self.LAND + "14,1,38.50,NE1/4\n14,,,N1/2\n", 98, 4, "this land shares a place with another part"),
            (self.LAND + "".join(f"8,{lot},10.00,{land}\n" for lot, land in enumerate(many, 1)), 99, 67,
             "this is one lot too many: a section has at most 64 lots"),
            (self.LAND + "14,1,38.50,N1/2NE1/4NE1/4\n", 100, 3, "a quarter-quarter of this lot also contains land"),
            (self.LAND + "".join(divided), 101, 260, "more than 128 quarter-quarters are divided"),
        ):
            with self.subTest(number=number):
                refused = self.refused(Lots.read, table)
                self.assertEqual((refused.number, refused.at, refused.source), (number, at, "lots"))
                self.assertTrue(refused.sentence.startswith(sentence), refused.sentence)
                self.assertEqual(refused.line, at if number > 87 else None)


@unittest.skipUnless((TOP / "tests" / "lots" / "model.py").exists(), "the model of lot tables is in the repository")
class Random(unittest.TestCase):
    """Random tables of the slow model of lot tables, which uses nothing of the package."""

    TABLES = 300

    @classmethod
    def setUpClass(cls):
        sys.path.insert(0, str(TOP / "tests" / "lots"))
        cls.addClassCleanup(sys.path.remove, str(TOP / "tests" / "lots"))

    def tables(self):
        """The text of each table that is accepted, and what it is by the model."""
        from generated_tables import GeneratedTable
        from tables import Faulty, table_of

        for index in range(self.TABLES):
            text = GeneratedTable(random.Random(f"csv/{index}")).text()
            try:
                yield text, table_of(text)
            except Faulty:
                pass

    @staticmethod
    def places(land):
        """The places of aliquot parts."""
        from descriptions import aliquot_parts_of
        from places import part

        found = 0
        for each in aliquot_parts_of(land.encode()):
            assert not found & part(each.steps), f"{land} has a place twice"
            found |= part(each.steps)
        return found

    def test_tables(self):
        with_land = 0
        for text, model in self.tables():
            lots = Lots.read(text)
            with self.subTest(text=text):
                with_land += lots.has_land
                self.assertEqual(Lots.read(lots.csv()), lots)
                self.assertEqual(pickle.loads(pickle.dumps(lots)), lots)
                self.assertEqual((tuple(lots.township), lots.date), (model.township, model.date))
                for number in range(1, 37):
                    section = model.section(number)
                    wanted = {lot: (each.hundredths, each.places) for lot, each in section.lots.items()}
                    found = {
                        each.lot: (each.acres and int(each.acres * 100), self.places(each.land))
                        for each in lots.section(number)
                    }
                    self.assertEqual(found.pop(None, (None, 0)), (None, section.missing))
                    self.assertEqual(found, wanted)
        self.assertGreater(with_land, self.TABLES // 2)


if __name__ == "__main__":
    unittest.main()
