"""Readings on the plat of a lot table, and those that assume the standard lots because no plat is known."""
import unittest
from decimal import Decimal

import township
from batches import LOTS, NOTES, BatchCase, records
from samples import even, uneven
from test_lots_land import LAKE, WHERE, lake
from township import Lots, Plats, suggest, suggest_parts

#: What a reading assumes if no plat is known.
STANDARD = "the plat has the standard lots"

#: The text of section 14's north half on the plat of `CORNER`, whose only lot there is in the northeast corner.
NORTH_HALF = f"{WHERE},\nsec. 14, lot 1, NW1/4NE1/4, S1/2NE1/4, NW1/4.\n"
CORNER = "section,lot,acres,land\nT,2,N,3,W\n14,1,38.50,NE1/4NE1/4\n"


def corner() -> Lots:
    return Lots.read(CORNER)


class OnATable(unittest.TestCase):
    def test_lots_of_the_table_are_named(self):
        # 38.50, and 40, 80, and 160. By field notes, the same text is the half of a section without lots.
        reading, = corner().suggest("Sec 14: N2")
        self.assertEqual((reading.manner, reading.acres, reading.normal), ("lots named", Decimal("318.50"), NORTH_HALF))
        self.assertEqual(corner().normal(reading.text), NORTH_HALF)
        reading, = even().suggest("Sec 14: N2")
        self.assertEqual((reading.text, reading.manner, reading.acres), ("Sec 14: N1/2", "changed", Decimal("320.00")))

    def test_standard_lots_are_not_named(self):
        # Section 6 has no record, and so no lots.
        reading, = lake().suggest("NW4 Sec 6")
        self.assertEqual((reading.text, reading.manner, reading.acres), ("sec. 6, NW1/4", "changed", Decimal("160.00")))
        self.assertEqual(even().suggest("NW4 Sec 6")[0].manner, "lots named")

    def test_a_lot_that_only_the_table_has(self):
        reading, = lake().suggest("L4 Sec 14")
        self.assertEqual((reading.acres, reading.normal), (Decimal("71.10"), f"{WHERE},\nsec. 14, lot 4.\n"))
        self.assertEqual(list(even().suggest("L4 Sec 14")), [])

    def test_a_lot_that_the_table_lacks(self):
        # Of the standard lots of section 5, this plat has only the first one.
        self.assertEqual(list(lake().suggest("Lot 2, Sec 5")), [])
        self.assertEqual(len(even().suggest("Lot 2, Sec 5")), 1)
        # The acreage of the standard lots may not be known.
        reading, = Lots.of_figures(WHERE, {(5, 1): "40.45"}).suggest("N2NE4 Sec 5")
        self.assertEqual((reading.manner, reading.acres), ("lots named", None))
        self.assertEqual((reading.refused.number, reading.refused.at), (94, 502))

    def test_an_exception(self):
        # All that the plat has in section 14, which is 581.65 acres, without lot 1 of 38.50 acres.
        reading, = lake().suggest("Sec 14: All less Lot 1")
        self.assertEqual((reading.manner, reading.acres), ("remainder", Decimal("543.15")))
        self.assertEqual(reading.normal, f"{WHERE},\nsec. 14, lots 2, 3, 4, S1/2NE1/4, SW1/4NW1/4, S1/2.\n")
        self.assertEqual(list(even().suggest("Sec 14: All less Lot 1")), [])

    def test_a_part_with_a_lake(self):
        self.assertEqual([list(lake().suggest(f"Sec 14: {part}")) for part in ("N2", "NWNW", "NWNE of NE")], [[]] * 3)

    def test_another_township(self):
        reading, = corner().suggest("N2 Sec 14-3N-3W")
        self.assertEqual((reading.manner, reading.acres, reading.refused.number), ("lots named", None, 61))

    def test_a_table_with_the_standard_lots(self):
        lots = Lots.new(WHERE)
        for text in ("N2 Sec 5", "Sec 14: N2", "sec. 14: NE¼NE¼ SW¼SW¼", "the old mill", ""):
            self.assertEqual([each.text for each in lots.suggest(text)], [each.text for each in even().suggest(text)])
            self.assertEqual(lots.suggest(text).unread, even().suggest(text).unread)

    def test_phrases_are_left_out(self):
        reading, = corner().suggest("Kestrel: Sec 14: N2", ignore=["Kestrel:"])
        self.assertEqual(reading.acres, Decimal("318.50"))
        self.assertEqual(reading.assumptions, ("without `Kestrel:`: you said that this is not land",))

    def test_many_changes(self):
        # More than a first call has room for, in 36 sections without lots.
        text = "; ".join(f"sec. {number}, NE4NE4, SW4SW4" for number in range(15, 36))
        lots = Lots.read(CORNER)
        reading, = lots.suggest(text + " " * 3_000)
        self.assertEqual((len(reading.changes), reading.acres), (21 * 4, Decimal("1680.00")))

    def test_nothing_is_assumed_of_the_lots(self):
        for by in (lake(), Lots.new(WHERE), even(), uneven()):
            for text in ("sec. 14.", "Sec 5: N2", "Sec 5: Lot 1"):
                for reading in by.suggest(text):
                    self.assertFalse(reading.assumes_standard_lots, (by, text))
                    self.assertNotIn(STANDARD, reading.assumptions)


class WithoutAPlat(unittest.TestCase):
    def test_what_depends_on_the_lots(self):
        for text in (
            # A lot, whole sections, lots in place of an aliquot part, and what an exception leaves.
            "Lot 1, Sec 5", "sec. 14.", "Sec 14: all", "sec. 14, N1/2, S1/2.", "secs. 13 and 14", "T2N R3W sec. 6, lot 7.",
            "N2 Sec 5", "Sec 14: W2 less the NENW", "Sec 13: N2; Sec 14: All",
        ):
            for reading in suggest(text):
                self.assertTrue(reading.assumes_standard_lots, text)
                self.assertEqual(reading.assumptions[-1], STANDARD, text)
            self.assertEqual(len(suggest(text)), 1, text)

    def test_what_does_not(self):
        # Aliquot parts without lots; and descriptions that a plat with the standard lots refuses: of a lot that it lacks,
        # and of a part that includes lots.
        for text in ("Sec 14: N2", "S2 Sec 5", "T2N R3W Sec 6: E2SE4", "sec. 14, NE1/4.", "Sec 13: N2; Sec 14: S2",
                     "sec. 14, lot 1.", "sec. 5, N1/2.", "T. 2 N., R. 3 W., sec. 37."):
            reading, = suggest(text)
            self.assertEqual((reading.assumes_standard_lots, STANDARD in reading.assumptions), (False, False), text)

    def test_each_reading_says_it(self):
        # Of the two, only the first one is a whole section.
        for reading in suggest("sec. 14: N½N½ S½N½, S½"):
            self.assertEqual(reading.assumes_standard_lots, reading.text == "sec. 14: N½N½, S½N½, S½")

    def test_assumptions_of_changes_come_first(self):
        reading, = suggest("TRACT 1: sec. 14.")
        self.assertEqual(reading.assumptions, ("without `TRACT 1:`: this is not land", STANDARD))
        reading, = suggest("blah sec. 14.", ignore=["blah"])
        self.assertEqual(reading.assumptions, ("without `blah`: you said that this is not land", STANDARD))

    def test_parts(self):
        first, second = suggest_parts("T2N R3W Sec 14: N2; T3N R3W Sec 5: N2")
        self.assertEqual([part.readings[0].assumptions for part in (first, second)], [(), (STANDARD,)])


class Townships(unittest.TestCase):
    TEXT = "T2N-R3W Sec 14: N2; T3N-R3W Sec 5: N2; T4N-R3W Sec 5: N2"

    def plats(self) -> Plats:
        north = Lots.new("T. 3 N., R. 3 W.")
        return Plats([even(), corner(), north])

    def test_each_part_by_its_township(self):
        parts = self.plats().suggest(self.TEXT)
        readings = [part.readings[0] for part in parts]
        self.assertEqual([reading.acres for reading in readings], [Decimal("318.50"), Decimal("320.00"), None])
        self.assertEqual(readings[0].normal, NORTH_HALF)
        # Of the last township, there is no plat.
        self.assertEqual([reading.assumptions for reading in readings], [(), (), (STANDARD,)])

    def test_field_notes(self):
        reading = Plats([even()]).suggest(self.TEXT)[0].readings[0]
        self.assertEqual((reading.text, reading.acres, reading.assumptions), ("T2N R3W Sec 14: N1/2", Decimal("320.00"), ()))

    def test_land_before_its_heading(self):
        for text in ("N2 of Sec 14, T2N R3W", "N2 Sec 14-2N-3W", "Kestrel N2 of Sec 14, T2N R3W"):
            (_, (reading,)), = self.plats().suggest(text, ignore=["Kestrel"])
            self.assertEqual((reading.acres, reading.normal), (Decimal("318.50"), NORTH_HALF), text)

    def test_only_the_table_has_a_reading(self):
        for text in ("T2N R3W Sec 14: All less Lot 1", "All of Sec 14 less Lot 1, T2N R3W"):
            (_, (reading,)), = Plats([lake()]).suggest(text)
            self.assertEqual(reading.acres, Decimal("543.15"), text)

    def test_lots_that_only_the_table_has(self):
        # A regular township has no lots in section 14. The township is in no heading.
        others = Lots.read(LAKE.replace("T,2,N", "T,3,N").replace("71.10", "70.10"))
        plats = Plats([others, lake(), even()])
        for text, acres in (
            ("L4 Sec 14-2N-3W", "71.10"), ("Lots 1, 2 of Sec 14-02N-03W", "50.75"), ("14-2N-3W: Lot 4", "71.10"),
            ("Sec 14-3N-3W L4", "70.10"), ("Fractional NE/4 Sec 14-2N-3W", "150.55"), ("Kestrel L4 (E2NW) Sec 14-2N-3W", "71.10"),
        ):
            (_, (reading,)), = plats.suggest(text, ignore=["Kestrel"])
            self.assertEqual((reading.acres, STANDARD in reading.assumptions), (Decimal(acres), False), text)
        # A lot that the plat doesn't have; another range, of which there is no table; and two townships.
        for text in ("L9 Sec 14-2N-3W", "L4 Sec 14-2N-4W", "L4 Sec 14-2S-3W", "L4 Sec 14-2N-3W, L4 Sec 14-3N-3W", "L4 Sec 14"):
            self.assertEqual([list(part.readings) for part in plats.suggest(text)], [[]], text)

    def test_without_a_heading(self):
        (_, (reading,)), = self.plats().suggest("N2 Sec 14")
        self.assertEqual(reading.refused.number, 31)


class Command(BatchCase):
    def assertShows(self, words, text, status, *lines):
        run = self.run_words("suggest", *words, "-", input=text.encode())
        self.assertEqual((run.returncode, run.stdout.decode(), run.stderr), (status, "".join(f"{line}\n" for line in lines), b""))

    def folder_of_plats(self):
        self.put(CORNER, "plats/2N.csv")
        self.put(CORNER.replace("T,2,N", "T,3,N").replace("14,1,38.50", "14,1,39.50"), "plats/3N.csv")
        return self.folder / "plats"

    def test_a_table(self):
        table = self.put(CORNER, "lots.csv")
        self.assertShows(
            ("--lots", table), "Sec 14: N2", 0,
            "1. sec. 14, lot 1, NW1/4NE1/4, S1/2NE1/4, NW1/4.    318.50 acres",
            "     N2        is N1/2",
            "     the aliquot part includes lots, which are named in its place",
        )
        # The standard lots of section 5 are those of any table without places.
        self.assertShows(
            ("--lots", self.put(LOTS, "standard.csv")), "L1, Sec 5", 0,
            "1. sec. 5, lot 1.    41.23 acres",
            "     L1        is lot 1",
            "     Sec 5     is the section",
        )

    def test_a_folder(self):
        text = "T2N R3W Sec 14: N2; T3N R3W Sec 14: NE¼NE¼ SW¼SW¼; T4N R3W Sec 14: All"
        run = self.run_words("suggest", "--plats", self.folder_of_plats(), "-", input=text.encode())
        self.assertEqual((run.returncode, run.stderr), (1, b""))
        lines = run.stdout.decode().splitlines()
        self.assertEqual([line for line in lines if line.startswith("part ")], [
            "part 1 of 3: T. 2 N., R. 3 W.", "part 2 of 3: T. 3 N., R. 3 W.", "part 3 of 3: T. 4 N., R. 3 W.",
        ])
        self.assertRegex(lines[1], r"\A1\. T\. ?2 ?N.*lot 1.*    318\.50 acres\Z")
        last = lines[lines.index("part 3 of 3: T. 4 N., R. 3 W.") + 1 :]
        self.assertTrue(last[0].endswith("    there are no field notes and no lot table for T. 4 N., R. 3 W."), last)
        self.assertEqual(last[-1], f"     {STANDARD}")

    def test_one_township_of_a_folder(self):
        folder = self.folder_of_plats()
        run = self.run_words("suggest", "--plats", folder, "-", input=b"N2 of Sec 14, T3N R3W")
        self.assertEqual((run.returncode, run.stderr), (0, b""))
        self.assertIn(b"    319.50 acres\n", run.stdout)
        self.assertNotIn(b"part 1", run.stdout)
        run = self.run_words("suggest", "--plats", folder, "-", input=b"the old mill; T2N R3W sec. 14: N2")
        self.assertEqual(run.returncode, 4)

    def test_phrases_and_account(self):
        words = self.put("blah\n", "phrases.txt")
        self.put_notes("notes/b1.csv")
        for account, acres in (("exact", b"156.40"), ("plat", b"156.42")):
            run = self.run_words("suggest", "--plats", self.folder / "notes", "--words", words, "--account", account, "-",
                                 input=b"blah T2N R3W sec. 7, lots 1-4")
            self.assertEqual((run.returncode, run.stderr), (0, b""))
            self.assertIn(b"    " + acres + b" acres\n", run.stdout)

    def test_meridians(self):
        self.put(CORNER, "plats/Boise/2N.csv")
        self.put(CORNER.replace("38.50", "39.50"), "plats/Willamette/2N.csv")
        plats = self.folder / "plats"
        for meridian, acres in (("Boise", b"318.50"), ("willamette", b"319.50")):
            run = self.run_words("suggest", "--plats", plats, "--meridian", meridian, "-", input=b"T2N R3W Sec 14: N2")
            self.assertEqual((run.returncode, run.stderr), (0, b""))
            self.assertIn(b"    " + acres + b" acres\n", run.stdout)
        for words, said in (
            ((), b"has folders by principal meridian; say which one"),
            (("--meridian", "Humboldt"), b"there is no folder for the principal meridian `Humboldt`"),
        ):
            run = self.run_words("suggest", "--plats", plats, *words, "-", input=b"T2N R3W Sec 14: N2")
            self.assertEqual((run.returncode, run.stdout), (3, b""))
            self.assertRegex(run.stderr, rb"\Atownship: [^\n]*" + said + rb"[^\n]*\n\Z")

    def test_refused_files(self):
        bad = self.put(CORNER + "14,1,40.00,NW1/4NE1/4\n", "plats/bad.csv")
        for words in (("--lots", bad), ("--plats", self.folder / "plats")):
            run = self.run_words("suggest", *words, "-", input=b"T2N R3W Sec 14: N2")
            self.assertEqual((run.returncode, run.stdout), (3, b""))
            self.assertTrue(run.stderr.startswith(b"township: " + bytes(bad) + b":4: "), run.stderr)

    def test_misuse(self):
        table, folder = self.put(CORNER, "lots.csv"), self.folder_of_plats()
        for words, said in (
            (("--lots", table, "--plats", folder, "-"), b"name a lot table with --lots, or a folder with --plats"),
            (("--lots", table, "--account", "plat", "-"), b"with --lots there is only one account"),
            (("--lots", table, "--meridian", "Boise", "-"), b"--meridian needs a folder, which --plats names"),
            (("--lots", table, NOTES, "-"), b"name a description"),
            (("--plats", folder), b"name a description"),
            (("--lots", "-", "-"), b"only one file can be standard input"),
        ):
            with self.subTest(said=said):
                run = self.run_words("suggest", *words)
                self.assertEqual((run.returncode, run.stdout), (2, b""))
                self.assertIn(said, run.stderr)


class Batch(BatchCase):
    def test_by_a_table(self):
        run = self.run_words("batch", "--lots", self.put(CORNER, "lots.csv"), self.put('description\n"Sec 14: N2"\n'), "--suggest")
        (_, row) = records(run.stdout)
        self.assertEqual(row[-5:], ["sec. 14, lot 1, NW1/4NE1/4, S1/2NE1/4, NW1/4.", "1", "", "318.50", ""])

    def test_by_a_folder(self):
        self.put(CORNER, "plats/2N.csv")
        self.put_notes("plats/3N.csv", "T,3,N,3,W")
        data = 'township,description\nT2N R3W,"Sec 14: N2"\nT3N R3W,"Sec 14: N2"\nT4N R3W,"Sec 14: N2"\n'
        run = self.run_words("batch", "--plats", self.folder / "plats", self.put(data), "--suggest")
        self.assertEqual([row[-2] for row in records(run.stdout)[1:]], ["318.50", "320.00", ""])

    def test_headings(self):
        self.put(CORNER, "plats/2N.csv")
        self.put_notes("plats/3N.csv", "T,3,N,3,W")
        texts = ("T2N R3W Sec 14: N2", "T2N R3W Sec 14: N2; T3N R3W Sec 14: N2", "T2N R3W Sec 14: N2; T4N R3W Sec 14: All")
        data = "description\n" + "".join(f'"{text}"\n' for text in texts)
        run = self.run_words("batch", "--plats", self.folder / "plats", "--headings", self.put(data), "--suggest")
        rows = [row[-5:] for row in records(run.stdout)[1:]]
        # 318.50, and the half of a section without lots; and a township without a plat.
        self.assertEqual([row[1:4] for row in rows], [["1", "", "318.50"], ["1", "", "638.50"], ["1", STANDARD, ""]])
        self.assertTrue(all("lot 1, NW1/4NE1/4, S1/2NE1/4, NW1/4" in row[0] for row in rows), rows)


if __name__ == "__main__":
    unittest.main()
