"""`python3 -m township parts --gis`: land as rows with the keys of polygons."""
import csv
import unittest
from decimal import Decimal

from batches import BatchCase, records
from samples import TOP
from township import Lots
from township._gis import rows_of

TOWNSHIP = "T. 2 N., R. 3 W."

#: The 16 quarter-quarters, in the order of a canonical description.
ALL = [small + large for large in ("NE", "NW", "SW", "SE") for small in ("NE", "NW", "SW", "SE")]


def rows(description):
    """The rows of a description, each as a tuple without its section."""
    lots = Lots.new(TOWNSHIP)
    return [tuple(row[1:]) for row in rows_of(lots, lots.land(description))]


class Rows(unittest.TestCase):
    def test_whole_section(self):
        self.assertEqual(rows("sec. 14."), [(quarter, None, 1, "") for quarter in ALL])

    def test_whole_section_with_lots(self):
        lots = ["NENE", "NWNE", "NENW", "NWNW", "SWNW", "NWSW", "SWSW"]
        expected = [(quarter, number, 1, "") for number, quarter in enumerate(lots, 1)]
        expected += [(quarter, None, 1, "") for quarter in ALL if quarter not in lots]
        self.assertEqual(rows("sec. 6."), expected)
        self.assertEqual(rows("sec. 6, lots 7 and 2, SW1/4NE1/4."),
                         [("NWNE", 2, 1, ""), ("SWSW", 7, 1, ""), ("SWNE", None, 1, "")])

    def test_parts_of_quarter_quarters(self):
        self.assertEqual(rows("sec. 14, N1/2NW1/4SE1/4, SE1/4NW1/4SE1/4, W1/2W1/2SW1/4."), [
            ("NWSW", None, Decimal("0.5"), "W1/2NW1/4SW1/4"),
            ("SWSW", None, Decimal("0.5"), "W1/2SW1/4SW1/4"),
            ("NWSE", None, Decimal("0.75"), "N1/2NW1/4SE1/4, SE1/4NW1/4SE1/4")])
        self.assertEqual(rows("sec. 14, NE1/4NE1/4NE1/4NE1/4NE1/4."),
                         [("NENE", None, Decimal("0.015625"), "NE1/4NE1/4NE1/4NE1/4NE1/4")])

    def test_areas(self):
        """The rows have the acreage of the land."""
        lots = Lots.new(TOWNSHIP)
        tested = 0
        for description in (
            "secs. 1 to 36.",
            "sec. 6, lots 1 to 3, NE1/4SW1/4.",
            "sec. 31, lot 4; sec. 32, S1/2S1/2S1/2.",
            "sec. 14, NE1/4NE1/4NE1/4NE1/4, SW1/4; sec. 7, lots 1, 3, E1/2.",
        ):
            acres = sum(40 * row.share for row in rows_of(lots, lots.land(description)))
            self.assertEqual(acres, lots.acres(description))
            tested += 1
        self.assertEqual(tested, 4)


class TableRows(unittest.TestCase):
    """Land on the plat of a table that says where its lots lie."""

    #: A lake covers the NW1/4NW1/4 of section 14, and half of a quarter-quarter of section 15 without lots.
    TABLE = """section,lot,acres,land
T,2,N,3,W,1912-03-04
14,1,38.50,NE1/4NE1/4
14,2,12.25,N1/2NW1/4NE1/4
14,3,19.80,S1/2NW1/4NE1/4
14,4,71.10,E1/2NW1/4
14,,,NW1/4NW1/4
15,7,30.00,"W1/2SE1/4SE1/4, SW1/4SE1/4"
15,,,"E1/2SE1/4SE1/4, N1/2NE1/4NE1/4"
16,1,600.00,"N1/2, S1/2"
"""

    def rows(self, description):
        lots = Lots.read(self.TABLE)
        return [tuple(row[1:]) for row in rows_of(lots, lots.land(description))]

    def test_lots_of_a_section(self):
        lots = [("NENE", 1, 1, ""), ("NWNE", 2, 1, ""), ("NWNE", 3, 1, ""), ("NENW", 4, 1, ""), ("SENW", 4, 1, "")]
        self.assertEqual(self.rows("sec. 14, lots 1 to 4."), lots)
        others = [quarter for quarter in ALL if quarter not in ("NENE", "NWNE", "NENW", "SENW", "NWNW")]
        self.assertEqual(self.rows("sec. 14."), lots + [(quarter, None, 1, "") for quarter in others])
        self.assertEqual(len(others), 11)

    def test_land_beside_a_lake(self):
        self.assertEqual(self.rows("sec. 15, lot 7, S1/2NE1/4NE1/4, NE1/4SE1/4NE1/4."), [
            ("SWSE", 7, 1, ""), ("SESE", 7, 1, ""), ("NENE", None, Decimal("0.5"), "S1/2NE1/4NE1/4"),
            ("SENE", None, Decimal("0.25"), "NE1/4SE1/4NE1/4")])

    def test_a_lot_that_is_a_section(self):
        self.assertEqual(self.rows("sec. 16, lot 1."), [(quarter, 1, 1, "") for quarter in ALL])
        self.assertEqual(self.rows("sec. 16."), self.rows("sec. 16, lot 1."))

    def test_other_sections(self):
        # In a regular township, section 5 has lots; here it has none.
        self.assertEqual(self.rows("sec. 5, N1/2N1/2."), [
            (quarter, None, 1, "") for quarter in ("NENE", "NWNE", "NENW", "NWNW")])


class Command(BatchCase):
    def parts(self, description, *words):
        lots = self.put(Lots.new(TOWNSHIP).csv(), "lots.csv")
        return self.run_words("parts", "--gis", *words, lots, "-", input=description)

    def test_rows(self):
        run = self.parts(b"sec. 5, lots 1 and 2, S1/2NE1/4; sec. 15, N1/2SW1/4, SW1/4NW1/4SE1/4.")
        self.assertEqual((run.returncode, run.stderr), (0, b""))
        self.assertEqual(run.stdout.decode(), (
            "FRSTDIVNO,QQSEC,GOVLOT,SHARE,PART\n05,NENE,1,1,\n05,NWNE,2,1,\n05,SWNE,,1,\n05,SENE,,1,\n15,NESW,,1,\n"
            "15,NWSW,,1,\n15,NWSE,,0.25,SW1/4NW1/4SE1/4\n"))

    def test_polygons_of_the_sample(self):
        """Each row of section 5 joins to the polygon with the same keys."""
        with open(TOP / "samples" / "intersected.csv", newline="") as file:
            polygons = {(each["FRSTDIVID"], each["QQSEC"], each["GOVLOT"]) for each in csv.DictReader(file)}
        run = self.parts(b"sec. 5, lots 1 to 4, S1/2N1/2.", "--plss-id", "ID080020N0030W0")
        heading, *found = records(run.stdout)
        self.assertEqual(heading, ["PLSSID", "FRSTDIVID", "FRSTDIVNO", "QQSEC", "GOVLOT", "SHARE", "PART"])
        keys = {(each[1], each[3], each[4]) for each in found}
        self.assertEqual(len(keys), 8)
        self.assertLessEqual(keys, polygons)

    def test_a_table_with_land(self):
        lots = self.put(TableRows.TABLE, "lots.csv")
        run = self.run_words("parts", "--gis", "--plss-id", "ID080020N0030W0", lots, "-", input=b"sec. 14, lots 2 and 4.")
        self.assertEqual((run.returncode, run.stderr), (0, b""))
        self.assertEqual([row[1:] for row in records(run.stdout)[1:]], [
            ["ID080020N0030W0SN140", "14", quarter, lot, "1", ""]
            for quarter, lot in (("NWNE", "2"), ("NENW", "4"), ("SENW", "4"))])
        for description, number in ((b"sec. 14, NW1/4NW1/4.", 68), (b"sec. 14, NE1/4.", 66), (b"sec. 14, lot 5.", 64)):
            run = self.run_words("parts", "--gis", lots, "-", input=description)
            self.assertEqual((run.returncode, run.stdout.split()[:2]), (1, [b"refused", b"%d" % number]))

    def test_note_and_refusals(self):
        run = self.parts(b"sec. 14, NE1/4 SE1/4.")
        self.assertEqual(run.returncode, 0)
        self.assertIn(b"note: NE1/4 SE1/4 is read as one part", run.stderr)
        run = self.parts(b"sec. 14, NE1/4 and N1/2.")
        self.assertEqual((run.returncode, run.stdout), (1, b"refused 67 at 19\n"))
        self.assertIn(b"this land was named before", run.stderr)
        run = self.run_words("parts", "--gis", self.put(b"section,lot\n", "lots.csv"), "-", input=b"sec. 14.")
        self.assertEqual((run.returncode, run.stdout), (1, b"refused 88 at 1\n"))

    def test_command_lines_that_are_not_valid(self):
        lots = self.put(Lots.new(TOWNSHIP).csv(), "lots.csv")
        for words, said in (
            (("--gis", lots), b"name the lot table and a description"),
            (("--gis", lots, "-", "-"), b"name the lot table and a description"),
            (("--gis", "-", "-"), b"only one file can be standard input"),
            ((lots, "-"), b"--gis"),
            (("--gis", "--plss-id", "ID08", lots, "-"), b"`ID08` is not the identifier of a township"),
            (("--gis", "--plss-id", "ID080030N0030W0", lots, "-"), b"is the identifier of T. 3 N., R. 3 W., but"),
        ):
            with self.subTest(words=words):
                run = self.run_words("parts", *words, input=b"sec. 14.")
                self.assertEqual((run.returncode, run.stdout), (2, b""))
                self.assertIn(said, run.stderr)
        self.assertEqual(self.run_words("parts", "--gis", lots, self.folder / "none.txt").returncode, 3)


if __name__ == "__main__":
    unittest.main()
