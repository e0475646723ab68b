"""Lot tables: how they are read, the acreage by them, and how they differ from a plat."""
import copy
import os
import pickle
import tempfile
import unittest
from decimal import Decimal
from fractions import Fraction
from pathlib import Path

import township
from samples import RefusalCase, even, uneven
from township import Land, Lots

WHERE = "T. 2 N., R. 3 W."
OTHER = "T. 3 N., R. 3 W."
HEADING = "section,lot,acres\nT,2,N,3,W\n"
TABLE = HEADING + "5,1,40.45\n6,7,36.86\n5,2,40.50\n"


def table() -> Lots:
    return Lots.read(TABLE)


def printed(plat: township.Plat) -> Lots:
    """The figures that a plat prints, as a lot table."""
    figures = {(section.number, lot): acres for section in plat.sections.values() for lot, acres in section.lots.items()}
    return Lots.of_figures(plat.township, figures)


class Made(RefusalCase):
    def test_read(self):
        self.assertEqual(table().township, (2, "N", 3, "W"))
        self.assertEqual(Lots.read(TABLE.encode()), table())
        self.assertEqual(Lots.read(TABLE.replace("\n", "\r\n")), table())

    def test_figures(self):
        figures = table().figures
        self.assertEqual(len(figures), 47)
        self.assertEqual(list(figures)[19:28], [(5, 4), (6, 1), (6, 2), (6, 3), (6, 4), (6, 5), (6, 6), (6, 7), (7, 1)])
        has = {lot: acres for lot, acres in figures.items() if acres is not None}
        self.assertEqual(has, {(5, 1): Decimal("40.45"), (5, 2): Decimal("40.50"), (6, 7): Decimal("36.86")})

    def test_of_figures(self):
        figures = {(5, 1): "40.45", (5, 2): 40.5, (6, 7): Decimal("36.860"), (5, 3): None}
        self.assertEqual(Lots.of_figures(WHERE, figures), table())
        self.assertEqual(Lots.of_figures((2, "N", 3, "W"), table().figures), table())
        self.assertEqual(Lots.of_figures(WHERE, {(5, 1): 40}).figures[5, 1], Decimal("40.00"))

    def test_each_lot_has_its_own_figure(self):
        # A different figure for each lot: 10.01 acres for the first one, 10.47 for the last.
        figures = {lot: Decimal(1001 + index) / 100 for index, lot in enumerate(township.Lots.of_figures(WHERE, {}).figures)}
        lots = Lots.of_figures(WHERE, figures)
        self.assertEqual(len(figures), 47)
        for (section, lot), acres in figures.items():
            with self.subTest(section=section, lot=lot):
                self.assertEqual(str(lots.acres(f"sec. {section}, lot {lot}.")), f"{acres:.2f}")

    def test_figures_at_their_limits(self):
        for figure in ("0.01", "999.99"):
            lots = Lots.of_figures(WHERE, {(5, 1): figure})
            self.assertEqual(lots.csv(), f"{HEADING}5,1,{figure}\n")
            self.assertEqual(Lots.read(lots.csv()), lots)

    def test_figures_that_are_none(self):
        for figure in ("0.00", 0, "1000.00", 1000, -1, "40.455", 40.455, "", "40,45", " 40", float("nan"), 1e9):
            with self.subTest(figure=figure), self.assertRaises(ValueError):
                Lots.of_figures(WHERE, {(5, 1): figure})
        # Section 14 has no lots, and section 5 has four.
        for lot in ((14, 1), (5, 5), (5, 0), (0, 1), (37, 1), 5, "5,1"):
            with self.subTest(lot=lot), self.assertRaises(ValueError):
                Lots.of_figures(WHERE, {lot: 40})
        with self.assertRaises(ValueError):
            Lots.of_figures("sec. 5", {(5, 1): 40})

    def test_csv(self):
        self.assertEqual(table().csv(), HEADING + "5,1,40.45\n5,2,40.50\n6,7,36.86\n")
        self.assertEqual(Lots.read(table().csv()), table())

    def test_open(self):
        with tempfile.TemporaryDirectory() as folder:
            path = Path(folder, "lots.csv")
            path.write_text(TABLE)
            for name in (path, str(path), os.fsencode(path)):
                self.assertEqual(Lots.open(name), table())
            path.write_text("section,lot\n")
            refused = self.refused(Lots.open, path)
            self.assertEqual((refused.number, refused.at, refused.source), (88, 1, str(path)))
            with self.assertRaises(FileNotFoundError):
                Lots.open(Path(folder, "none.csv"))

    def test_is_not_made_bare(self):
        with self.assertRaises(TypeError):
            Lots()


class Refusals(RefusalCase):
    def test_tables(self):
        for given, number, at in (
            (HEADING + " " * (65_537 - len(HEADING)), 86, 65_536),
            ("", 87, 1),
            ("section,lot\n", 88, 1),
            ("section,lot,acres\nT,2,N,3\n", 89, 2),
            (HEADING + "5,1\n", 89, 3),
            ("section,lot,acres\nT,100,N,3,W\n", 90, 2),
            ("section,lot,acres\n", 90, 2),
            (HEADING + "5,1,40.45\n5,5,40.00\n", 91, 4),
            (HEADING + "14,1,40.00\n", 91, 3),
            (HEADING + "5,1,40.455\n", 92, 3),
            (HEADING + "5,1,0.00\n", 92, 3),
            (HEADING + "5,1,1000.00\n", 92, 3),
            (HEADING + "5,1,40.45\n5,2,40.45\n5,1,40.45\n", 93, 5),
        ):
            with self.subTest(number=number, at=at):
                refused = self.refused(Lots.read, given)
                self.assertEqual((refused.number, refused.at, refused.source), (number, at, "lots"))
                # No record is shown if there is none, or none that is at fault.
                is_shown = given not in ("", "section,lot,acres\n") and number != 86
                # A record is on the line with its number.
                self.assertEqual((refused.line, refused.column is None), (at, False) if is_shown else (None, True))
                self.assertEqual(str(refused), f"lots:{at}: {refused.sentence}" if is_shown else f"lots: {refused.sentence}")
                # A long sentence takes more than one line.
                words = " ".join(refused.explanation.split())
                self.assertTrue(words.startswith(f"township: {refused}"), words)
                self.assertEqual("^" in refused.explanation or refused.start == refused.end, True)

    def test_table_is_shown_at_the_fields_that_are_wrong(self):
        table = HEADING + "5,1,40.45\n5,2,40.5000\n"
        refused = self.refused(Lots.read, table)
        self.assertEqual((refused.number, refused.line, refused.column), (92, 4, 5))
        self.assertEqual(table[refused.start : refused.end], "40.5000")
        self.assertEqual(refused.hints, ("write `40.50`",))
        again = HEADING + "5,1,40.45\n05,1,40.50\n"
        refused = self.refused(Lots.read, again)
        self.assertEqual((refused.number, refused.line, refused.other.record), (93, 4, 3))
        self.assertEqual(again[refused.start : refused.end], "05,1")
        self.assertEqual(again[refused.other.start : refused.other.end], "5,1")
        self.assertEqual(refused.hints, ("record 3 at line 3 is also for this lot",))

    def test_name_of_the_file_is_shown(self):
        with tempfile.TemporaryDirectory() as folder:
            path = Path(folder) / "lots.csv"
            path.write_text(HEADING + "5,9,40.45\n")
            refused = self.refused(Lots.open, path)
        self.assertEqual((refused.source, refused.line), (str(path), 3))
        self.assertEqual(str(refused), f"{path}:3: there is no lot 9: section 5 has lots 1 to 4")

    def test_lot_that_a_tract_has_and_the_table_lacks(self):
        refused = self.refused(table().report, [("A", "sec. 5, lot 1."), ("B", "sec. 5, lots 2 and 3.")])
        self.assertEqual((refused.number, refused.at, refused.inner), (83, 3, (94, 503)))
        self.assertEqual(refused.sentence, "tract `B`: the lot table has no record for lot 3 of section 5")
        self.assertEqual(
            refused.explanation,
            "township: tracts:3: tract `B`: the lot table has no record for lot 3 of section 5\n"
            "  of section 5, it has these lots: 1, 2\n",
        )

    def test_name_of_a_file(self):
        refused = self.refused(Lots.read, "lots.csv")
        self.assertEqual(refused.number, 88)
        self.assertTrue(refused.explanation.endswith("Lots.open reads one\n"))

    def test_lacking_lot(self):
        # Of sections 5 and 6, the table has lots 1 and 2 of the one, and lot 7 of the other.
        for description, at in (("sec. 5, lots 1 to 4.", 503), ("sec. 6; sec. 5, lot 4.", 504), ("sec. 6, lots 7 and 6.", 606)):
            for given, source in ((description, "description"), (Land.of(WHERE, description), "land")):
                for call in (table().acres, table().area):
                    with self.subTest(description=description, source=source):
                        refused = self.refused(call, given)
                        self.assertEqual((refused.number, refused.at, refused.source), (94, at, source))
                        sentence = f"the lot table has no record for lot {at % 100} of section {at // 100}"
                        self.assertEqual(str(refused), f"{source}: {sentence}")

    def test_descriptions(self):
        # They are refused as on a plat, before any lot that is lacking.
        for description in ("", "sec. 5, lot 5.", "sec. 5, N1/2.", "sec. 7, lots 1 and 1.", f"{OTHER}, sec. 14.", "sec. 14-"):
            with self.subTest(description=description):
                refused = self.refused(uneven().acres, description)
                self.assertEqual(self.refused(table().acres, description), refused)
                self.assertEqual(self.refused(table().area, description), refused)

    def test_land_in_another_township(self):
        for call in (table().acres, table().area):
            with self.assertRaisesRegex(ValueError, r"T\. 3 N\., R\. 3 W\. and T\. 2 N\., R\. 3 W\."):
                call(Land.of(OTHER, "sec. 14."))

    def test_neither_text_nor_land(self):
        for given in (None, 14, table()):
            with self.subTest(given=given), self.assertRaises(TypeError):
                table().acres(given)


class Measured(unittest.TestCase):
    def test_acres(self):
        # Two returned lots, and two quarter-quarters of 40 acres.
        for given in ("sec. 5, lots 1 and 2, S1/2NE1/4.", b"sec. 5, lots 1 and 2, S1/2NE1/4.",
                      Land.of(WHERE, "sec. 5, lots 1 and 2, S1/2NE1/4.")):
            self.assertEqual(table().acres(given), Decimal("160.95"))
            self.assertEqual(table().area(given), Fraction(16095, 100))

    def test_acres_are_rounded_once(self):
        # 5/8 of an acre.
        smallest = "sec. 14, NE1/4NE1/4NE1/4NE1/4NE1/4."
        self.assertEqual((table().area(smallest), table().acres(smallest)), (Fraction(5, 8), Decimal("0.63")))

    def test_land_measures_itself(self):
        lot = Land.of(WHERE, "sec. 6, lot 7.")
        self.assertEqual((lot.acres(table()), lot.area(table())), (Decimal("36.86"), Fraction(3686, 100)))
        with self.assertRaises(TypeError):
            lot.acres(table(), account="plat")

    def test_figures_of_a_plat_are_its_account(self):
        for plat in (even(), uneven()):
            for description in ("secs. 1 to 36.", "sec. 6, lots 1 to 7.", "sec. 7, lots 1 to 4; sec. 14, NE1/4."):
                self.assertEqual(printed(plat).area(description), plat.area(description, "plat"))


class Reports(RefusalCase):
    def test_report(self):
        # 40.45 acres; 40.50 and 80 acres.
        report = table().report([("A", "sec. 5, lot 1."), ("the \"old\" place", "sec. 5, lot 2, S1/2NE1/4.")])
        self.assertEqual(report.tracts, (("A", Decimal("40.45")), ("the \"old\" place", Decimal("120.50"))))
        self.assertEqual(report.total, Decimal("160.95"))
        self.assertEqual(table().report([]), ((), Decimal("0.00")))
        self.assertEqual(table().report_csv(b"name,description\nA,sec. 14\n").total, Decimal("640.00"))

    def test_total_is_rounded_once(self):
        # Each tract has 5/8 of an acre, 0.63 rounded; together they have 1.25.
        smallest = [("A", "sec. 14, NE1/4NE1/4NE1/4NE1/4NE1/4."), ("B", "sec. 14, NW1/4NE1/4NE1/4NE1/4NE1/4.")]
        report = table().report(smallest)
        self.assertEqual([tract.acres for tract in report.tracts], [Decimal("0.63")] * 2)
        self.assertEqual(report.total, Decimal("1.25"))

    def test_lacking_lot(self):
        # Of section 5, the table has lots 1 and 2. The lot comes before what is wrong with later tracts.
        for tracts, record, name, at in (
            ([("A", "sec. 5, lots 1 to 4.")], 2, "A", 503),
            ([("A", "sec. 14."), ("B", "sec. 14; sec. 5, lot 4.")], 3, "B", 504),
            ([("A", "sec. 14."), ("B", "sec. 7, lot 1."), ("A", "sec. 15.")], 3, "B", 701),
        ):
            with self.subTest(tracts=tracts):
                refused = self.refused(table().report, tracts)
                self.assertEqual((refused.number, refused.at, refused.inner), (83, record, (94, at)))
                sentence = f"the lot table has no record for lot {at % 100} of section {at // 100}"
                self.assertEqual(str(refused), f"tracts:{record}: tract `{name}`: {sentence}")

    def test_refused(self):
        # A list is refused as on a plat, before any later lot that is lacking.
        lacking = ("Z", "sec. 31, lot 1.")
        for tracts in (
            [("", "sec. 14.")],
            [("A", "sec. 14."), ("A", "sec. 15."), lacking],
            [("A", "sec. 14, NE1/4 and N1/2."), lacking],
            [("A", "sec. 5, lot 5."), lacking],
            [("A", "sec. 14."), ("B", "sec. 14, NE1/4."), lacking],
        ):
            with self.subTest(tracts=tracts):
                self.assertEqual(self.refused(table().report, tracts), self.refused(uneven().report, tracts))
        for given in (b"", b"name;description\n"):
            self.assertEqual(self.refused(table().report_csv, given), self.refused(uneven().report_csv, given))


class Differences(unittest.TestCase):
    def test_each_lot_that_differs(self):
        # The plat's figures of lots 1 and 2 of section 5 are 40.45 and 40.55.
        found = uneven().differences(table())
        self.assertEqual([(one.section, one.lot, one.returned) for one in found],
                         [(5, 2, Decimal("40.50")), (6, 7, Decimal("36.86"))])
        for one in found:
            self.assertEqual(one.computed, uneven().sections[one.section].lots[one.lot])
            self.assertEqual(one.by, one.returned - one.computed)
        self.assertEqual(str(found[0].by), "-0.05")

    def test_none(self):
        for plat in (even(), uneven()):
            self.assertEqual(plat.differences(printed(plat)), [])
        self.assertEqual(even().differences(Lots.of_figures(WHERE, {})), [])

    def test_every_lot(self):
        lots = Lots.of_figures(WHERE, dict.fromkeys(table().figures, "40.01"))
        found = even().differences(lots)
        self.assertEqual([(one.section, one.lot) for one in found], list(lots.figures))
        self.assertEqual({(one.computed, one.by) for one in found}, {(Decimal("40.00"), Decimal("0.01"))})

    def test_in_another_township(self):
        with self.assertRaisesRegex(ValueError, "two different townships"):
            even().differences(Lots.of_figures(OTHER, {}))


class Values(unittest.TestCase):
    def test_equal(self):
        self.assertEqual(Lots.read(TABLE), table())
        self.assertEqual(hash(Lots.read(TABLE)), hash(table()))
        others = {table(), Lots.read(HEADING), Lots.of_figures(OTHER, table().figures)}
        self.assertEqual(len(others), 3)
        self.assertNotEqual(table(), table().csv())

    def test_pickled(self):
        for protocol in range(pickle.HIGHEST_PROTOCOL + 1):
            self.assertEqual(pickle.loads(pickle.dumps(table(), protocol)), table())

    def test_copied(self):
        self.assertEqual(copy.copy(table()), table())
        self.assertEqual(copy.deepcopy(table()), table())

    def test_cannot_be_changed(self):
        for name in ("figures", "township", "other"):
            with self.subTest(name=name), self.assertRaises(AttributeError):
                setattr(table(), name, None)
        with self.assertRaises(TypeError):
            table().figures[5, 1] = Decimal(40)

    def test_shown(self):
        self.assertEqual(repr(table()), "<township.Lots of T. 2 N., R. 3 W.: 3 of 47 lots>")


if __name__ == "__main__":
    unittest.main()
