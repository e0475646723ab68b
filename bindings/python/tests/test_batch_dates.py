"""Batches over folders with several lot tables of a township, which differ by the date of the plat."""
import datetime
import os
import re
import unittest
from importlib.util import find_spec

import township
from batches import ADDED, BatchCase, WorkbookCase, records
from samples import TOP

HEADING = "section,lot,acres,land\n"

#: Lot 1 of section 14 on three plats of T. 2 N., R. 3 W.: in its northeast corner, there too, and in its southwest one.
OLD = HEADING + "T,2,N,3,W,1880-01-02\n14,1,38.50,NE1/4NE1/4\n"
NEW = HEADING + "T,2,N,3,W,1912-03-04\n14,1,37.25,NE1/4NE1/4\n14,2,41.00,NW1/4NE1/4\n"
UNDATED = HEADING + "T,2,N,3,W\n14,1,36.00,SW1/4SW1/4\n"


class DatesCase(BatchCase):
    """A test with a folder of these tables."""

    def setUp(self):
        super().setUp()
        self.put(OLD, "plats/old.csv")
        self.put(NEW, "plats/new.csv")
        self.put(UNDATED, "plats/undated.csv")

    def over(self, rows, *words, status=0, heading="date,township,description"):
        """The acres, the sentence, and the file of each record that results from these rows."""
        listed = self.put(f"{heading}\n" + "".join(f"{row}\n" for row in rows))
        run = self.run_words("batch", "--plats", self.folder / "plats", listed, *words)
        self.assertEqual(run.returncode, status, run.stderr)
        self.said = run.stderr.decode()
        names, *found = records(run.stdout)
        width = len(names) - len(ADDED) - (2 if "--headings" in words else 1)
        return [(row[width], row[width + 3], row[names.index("plat")]) for row in found]


class Dates(DatesCase):
    LOT = 'T2N R3W,"sec. 14, lot 1."'

    def test_the_newest_table(self):
        self.assertEqual(self.over([f",{self.LOT}"]), [("37.25", "", "new.csv")])
        # A date in the list is only used if the command line says so.
        self.assertEqual(self.over([f"1880-01-02,{self.LOT}"]), [("37.25", "", "new.csv")])

    def test_the_table_of_a_date(self):
        rows = [f"{date},{self.LOT}" for date in ("1880-01-02", "1912-03-04", "", " 1880-01-02 ")]
        self.assertEqual(self.over(rows, "--date", "date"), [
            ("38.50", "", "old.csv"), ("37.25", "", "new.csv"), ("37.25", "", "new.csv"), ("38.50", "", "old.csv")])
        # Lot 2 is only on the newer plat.
        [found] = self.over(['1880-01-02,T2N R3W,"sec. 14, lot 2."'], "--date", "date", status=1)
        self.assertEqual((found[0], found[2]), ("", "old.csv"))

    def test_a_date_without_a_table(self):
        rows = [f"1899-05-06,{self.LOT}", f"1880-01-02,{self.LOT}", f"1899-05-06,{self.LOT}"]
        fault = (f"there is no lot table of 1899-05-06 for T. 2 N., R. 3 W. in {self.folder / 'plats'}; there are those "
                 "of 1880-01-02 and 1912-03-04")
        wanted = [("", fault, "missing"), ("38.50", "", "old.csv"), ("", fault, "missing")]
        for jobs in ("1", "2"):
            self.assertEqual(self.over(rows, "--date", "date", "--jobs", jobs, status=1), wanted)
            self.assertEqual(self.said, f"township: {fault}: 2 records\n")

    def test_a_date_of_a_township_without_dates(self):
        self.put_notes("plats/notes.csv", "T,3,S,4,E")
        self.put(UNDATED.replace("T,2,N", "T,4,N"), "plats/other.csv")
        self.put(OLD.replace("T,2,N", "T,5,N"), "plats/one.csv")
        rows = [f"1899-05-06,{name},sec. 14." for name in ("T3S R4E", "T4N R3W", "T5N R3W", "T6N R3W")]
        said = [sentence for acres, sentence, file in self.over(rows, "--date", "date", status=1)
                if (acres, file) == ("", "missing")]
        self.assertEqual([each.partition(" in ")[0] for each in said], [
            "there is no lot table of 1899-05-06 for T. 3 S., R. 4 E.",
            "there is no lot table of 1899-05-06 for T. 4 N., R. 3 W.",
            "there is no lot table of 1899-05-06 for T. 5 N., R. 3 W.",
            "there are no field notes and no lot table for T. 6 N., R. 3 W."])
        self.assertTrue(said[2].endswith("; there is one of 1880-01-02"))
        self.assertEqual(self.over([row.replace("1899-05-06", "") for row in rows[:3]], "--date", "date"), [
            ("640.00", "", "notes.csv"), ("636.00", "", "other.csv"), ("638.50", "", "one.csv")])

    def test_what_is_no_date(self):
        for date in ("3/4/1912", "1912-3-4", "1912-02-30", "1912", "0000-01-01", "19120304", "1912-03-04T00:00", "١٩١٢-03-04"):
            [found] = self.over([f"{date},{self.LOT}"], "--date", "date", status=1)
            self.assertEqual(found, ("", f"`{date}` is not a date: write it as 1912-03-04", ""))

    def test_tables_of_one_date(self):
        self.put(NEW, "plats/same.csv")
        rows = [f",{self.LOT}", f"1912-03-04,{self.LOT}", f"1880-01-02,{self.LOT}"]
        self.assertEqual([acres for acres, _, _ in self.over(rows, "--date", "date")], ["37.25", "37.25", "38.50"])
        self.put(NEW.replace("37.25", "37.26"), "plats/other.csv")
        names = f"{self.folder / 'plats' / 'new.csv'} and {self.folder / 'plats' / 'other.csv'}"
        fault = f"two files have different lot tables of 1912-03-04 for T. 2 N., R. 3 W.: {names}"
        # One of them is not of this township, and perhaps the table of another date is not, either.
        self.assertEqual(self.over(rows, "--date", "date", status=1), [("", fault, "")] * 3)

    def test_an_older_table_is_not_used_if_the_newest_is_refused(self):
        rows = [f",{self.LOT}", f"1950-06-07,{self.LOT}", f"1880-01-02,{self.LOT}"]
        for text in ("section,lot,acres,land\nT,2,N,3,W,1950-06-07\n14,1,x,NE1/4NE1/4\n",
                     'section;lot;acres\r\n;;\r\n"T";2;N;3;W;1950-06-07;;\r\n14;1;40.00\r\n'):
            bad = self.put(text, "plats/newest.csv")
            found = self.over(rows, "--date", "date", status=1)
            fault = f"the lot table of 1950-06-07 for T. 2 N., R. 3 W. is refused: {bad}"
            self.assertEqual(found, [("", fault, ""), ("", fault, ""), ("38.50", "", "old.csv")])
            self.assertTrue(self.said.startswith(f"township: {bad}:"), self.said)
        # One that is older makes no difference, and neither does one without a date.
        for record in ("T,2,N,3,W,1900-01-01", "T,2,N,3,W"):
            self.put(f"section,lot,acres,land\n{record}\n14,1,x,NE1/4NE1/4\n", "plats/newest.csv")
            self.assertEqual(self.over(rows[:1], status=1), [("37.25", "", "new.csv")])

    def test_field_notes_are_not_used_if_the_table_is_refused(self):
        for name in ("old", "new", "undated"):
            (self.folder / "plats" / f"{name}.csv").unlink()
        notes = self.put_notes("plats/notes.csv")
        for record, dated in (("T,2,N,3,W", ""), ("T;2;N;3;W;;", ""), ("T,2,N,3,W,1912-03-04", " of 1912-03-04")):
            bad = self.put(f"section,lot,acres\n{record}\n5,1,39.00\n5,9,40.00\n", "plats/table.csv")
            fault = f"the lot table{dated} for T. 2 N., R. 3 W. is refused: {bad}"
            self.assertEqual(self.over([',T2N R3W,"sec. 5, lot 1."'], status=1), [("", fault, "")])
        # Field notes that are refused, too, are no lot table.
        bad.unlink()
        self.put(notes.read_text().replace("N,5,6,40.00,80.40", "N,5,6,40.00,90.40"), "plats/again.csv")
        self.assertEqual(self.over([',T2N R3W,"sec. 5, lot 1."'], status=1), [("40.45", "", "notes.csv")])

    def test_two_tables_without_a_date(self):
        for name in ("old", "new"):
            (self.folder / "plats" / f"{name}.csv").unlink()
        self.put(UNDATED.replace("36.00", "36.01"), "plats/again.csv")
        [(acres, fault, file)] = self.over([f",{self.LOT}"], status=1)
        self.assertEqual((acres, file), ("", ""))
        self.assertTrue(fault.startswith("two files have different lot tables for T. 2 N., R. 3 W.: "), fault)

    def test_a_standard_table_has_a_date_too(self):
        self.put("section,lot,acres\nT,2,N,3,W,1950-06-07\n5,1,41.23\n", "plats/standard.csv")
        self.assertEqual(self.over([',T2N R3W,"sec. 5, lot 1."']), [("41.23", "", "standard.csv")])

    def test_misuse(self):
        listed = self.put(f"date,township,description\n,{self.LOT}\n")
        run = self.run_words("batch", "--date", "date", "--lots", self.folder / "plats" / "new.csv", listed)
        self.assertEqual((run.returncode, run.stdout), (2, b""))
        self.assertIn(b"--date needs a folder, which --plats names", run.stderr)
        run = self.run_words("batch", "--plats", self.folder / "plats", "--date", "dated", listed)
        self.assertEqual((run.returncode, run.stdout), (3, b""))
        self.assertIn(b"no column `dated`; name the column with --date", run.stderr)

    def test_resuming(self):
        rows = [f"{date},{self.LOT}" for date in ("1880-01-02", "1899-05-06") * 800]
        listed, made = self.put("date,township,description\n" + "".join(f"{row}\n" for row in rows)), self.folder / "made.csv"
        words = ("batch", "--plats", self.folder / "plats", "--date", "date", listed, "--output", made)
        whole = self.run_words(*words)
        written = made.read_bytes()
        made.write_bytes(written[:-300])
        self.assertEqual((self.run_words(*words, "--resume").stderr, made.read_bytes()), (whole.stderr, written))
        self.assertTrue(whole.stderr.endswith(b": 800 records\n"), whole.stderr)


class Meridians(DatesCase):
    def test_dates_and_meridians(self):
        self.put(OLD, "by/Boise/old.csv")
        self.put(NEW, "by/Boise/new.csv")
        self.put(OLD.replace("38.50", "39.50"), "by/Willamette/old.csv")
        listed = self.put("pm,date,township,description\n" + "".join(
            f'{meridian},{date},T2N R3W,"sec. 14, lot 1."\n' for meridian, date in (
                ("Boise", ""), ("Boise", "1880-01-02"), ("Willamette", "1880-01-02"), ("Willamette", "1912-03-04"))))
        run = self.run_words("batch", "--plats", self.folder / "by", "--meridian", "pm", "--date", "2", listed)
        self.assertEqual([(row[4], row[-1]) for row in records(run.stdout)[1:]], [
            ("37.25", "Boise/new.csv"), ("38.50", "Boise/old.csv"), ("39.50", "Willamette/old.csv"), ("", "missing")])


class Headings(DatesCase):
    BOTH = '"T2N R3W sec. 14, lot 1; T3N R3W sec. 14, lot 1"'

    def setUp(self):
        super().setUp()
        self.put(OLD.replace("T,2,N", "T,3,N").replace("38.50", "30.25"), "plats/third.csv")

    def test_the_newest_tables(self):
        found = self.over([f",{self.BOTH}"], "--headings", heading="date,description")
        # 37.25 + 30.25 acres.
        self.assertEqual(found, [("67.50", "", "new.csv; third.csv")])

    def test_each_township_has_the_table_of_the_date(self):
        found = self.over([f"1880-01-02,{self.BOTH}", f"1912-03-04,{self.BOTH}", '1912-03-04,"T2N R3W sec. 14, lot 2"',
                           f"1912,{self.BOTH}"], "--headings", "--date", "date", heading="date,description", status=1)
        # 38.50 + 30.25 acres.
        self.assertEqual(found[0], ("68.75", "", "old.csv; third.csv"))
        self.assertEqual((found[1][0], found[1][2]), ("", "missing"))
        self.assertIn("no lot table of 1912-03-04 for T. 3 N., R. 3 W. in ", found[1][1])
        self.assertEqual(found[2], ("41.00", "", "new.csv"))
        self.assertEqual(found[3], ("", "`1912` is not a date: write it as 1912-03-04", ""))

    def test_lots_are_those_of_each_plat(self):
        # Lot 1 of section 14, and the land around it, on two plats: a part that holds it is refused on both.
        found = self.over(['"T2N R3W sec. 14, NE1/4; T3N R3W sec. 14, lot 1"', '"T2N R3W sec. 14, lots 1, 2; T3N R3W sec. 14"'],
                          "--headings", heading="description", status=1)
        self.assertEqual(found[0][0], "")
        self.assertIn("T. 2 N., R. 3 W.", found[0][1])
        # 37.25 + 41 acres, and 15 quarter-quarters and 30.25 acres.
        self.assertEqual(found[1], ("708.50", "", "new.csv; third.csv"))


class InPython(DatesCase):
    def test_the_newest_tables_of_a_folder(self):
        plats = township.Plats.open(self.folder / "plats")
        self.assertEqual(plats["T2N R3W"], township.Lots.read(NEW))
        self.assertEqual(str(plats.acres("T2N R3W sec. 14, lots 1 and 2")), "78.25")
        land = next(iter(plats.land("T2N R3W sec. 14, lot 2")))
        self.assertEqual((land.date, land.lots), (datetime.date(1912, 3, 4), township.Lots.read(NEW)))
        self.put(NEW.replace("37.25", "37.26"), "plats/other.csv")
        with self.assertRaisesRegex(ValueError, "different lot tables of 1912-03-04 for T. 2 N., R. 3 W.: "):
            township.Plats.open(self.folder / "plats")

    def test_tables_of_one_township(self):
        tables = [township.Lots.read(each) for each in (OLD, NEW, UNDATED)]
        for each in (tables, tables[::-1], [tables[0], *tables]):
            self.assertEqual(list(township.Plats(each).values()), [tables[1]])
        with self.assertRaisesRegex(ValueError, "different lot tables of 1912-03-04"):
            township.Plats([*tables, township.Lots.read(NEW.replace("37.25", "37.26"))])

    def test_land_of_another_plat(self):
        plats = township.Plats([township.Lots.read(NEW)])
        with self.assertRaises(ValueError):
            plats.acres(township.Lots.read(OLD).land("sec. 14, lot 1."))
        # Overlaps on the table's plat: lot 2 is in the whole section.
        [overlap] = plats.overlaps([("A", "T2N R3W sec. 14"), ("B", "T2N R3W sec. 14, lot 2")])
        self.assertEqual((overlap.first, overlap.second, str(overlap.acres)), (0, 1, "41.00"))


class Document(BatchCase):
    """The example in docs/BATCH.md."""

    BATCH = (TOP / "docs" / "BATCH.md").read_text()
    SECTION = BATCH[BATCH.index("**Several plats of a township.**") : BATCH.index("With `--headings`, there is no column")]

    def test_answers(self):
        files, listed, line = ["".join(each[4:] for each in block.splitlines(True))
                               for block in re.findall(r"(?m)(?:^    .*\n)+", self.SECTION)]
        format_of_tables = (TOP / "docs" / "LOTS-FORMAT.md").read_text()
        [lake] = re.findall(r"(?m)^    section,lot,acres,land\n(?:    .*\n)+", format_of_tables)
        (old, first), (new, second) = (each.split() for each in files.splitlines())
        lake = "".join(each[4:] for each in lake.splitlines(True))
        self.assertEqual(lake.splitlines()[1], second)
        self.put(lake, new)
        self.put(f"section,lot,acres\n{first}\n5,1,40.45\n", old)
        came_from = os.getcwd()
        self.addCleanup(os.chdir, came_from)
        os.chdir(self.folder)
        self.put(listed, "list.csv")
        words = line.split()
        self.assertEqual(words[:4], ["python3", "-m", "township", "batch"])
        heading, *rows = records(self.run_words(*words[3 : words.index(">")]).stdout)
        shown, _, *wanted = [[cell.strip() for cell in row.strip("|").split("|")]
                             for row in re.findall(r"(?m)^\|.*\|$", self.SECTION)]
        self.assertEqual([[row[heading.index(name)] for name in shown] for row in rows], wanted)
        self.assertEqual(len(wanted), 3)


@unittest.skipUnless(find_spec("openpyxl"), "openpyxl isn't installed")
class Workbooks(WorkbookCase):
    def test_dates_in_a_workbook(self):
        self.put(OLD, "plats/old.csv")
        self.put(NEW, "plats/new.csv")
        days = (datetime.date(1912, 3, 4), datetime.datetime(1912, 3, 4), "1912-03-04", None, datetime.date(1950, 1, 2))
        path = self.workbook(["approved", "township", "description"],
                             *([day, "T2N R3W", "sec. 14, lot 1."] for day in days))
        run = self.run_words("batch", "--plats", self.folder / "plats", "--date", "approved", path)
        self.assertEqual(run.returncode, 1)
        found = [(row[3], row[-1]) for row in records(run.stdout)[1:]]
        self.assertEqual(found, [("37.25", "new.csv")] * 4 + [("", "missing")])


if __name__ == "__main__":
    unittest.main()
