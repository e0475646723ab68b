"""Lot tables as spreadsheets save them: CSV with changes, and workbooks."""
import tempfile
import unittest
import unittest.mock
from decimal import Decimal
from importlib.util import find_spec
from pathlib import Path

from samples import RefusalCase
from township import Lots

HEADING = "section,lot,acres\nT,2,N,3,W\n"
TABLE = HEADING + "5,1,40.45\n5,2,40.50\n6,7,36.00\n"
#: The rows of such a table, as they are entered in a spreadsheet.
ROWS = (("section", "lot", "acres"), ("T", 2, "N", 3, "W"), (5, 1, 40.45), (), (5, 2, 40.5), (6, 7, 36))


def saved(separator=",", end="\n"):
    """The text of the rows that a spreadsheet saves: a rectangle, with numbers as it shows them."""
    return "".join(separator.join([*map(str, row), *[""] * (5 - len(row))]) + end for row in ROWS)


class Texts(RefusalCase):
    def test_rectangles(self):
        self.assertEqual(saved().split("\n")[:4], ["section,lot,acres,,", "T,2,N,3,W", "5,1,40.45,,", ",,,,"])
        for separator in ",;\t":
            for end in ("\n", "\r\n", "\r"):
                for mark in ("", "\ufeff"):
                    with self.subTest(separator=separator, end=end, mark=mark):
                        self.assertEqual(Lots.read(mark + saved(separator, end)), Lots.read(TABLE))

    def test_quoted(self):
        quoted = "\n".join(",".join(f'"{cell}"' for cell in line.split(",")) for line in saved().splitlines())
        self.assertEqual(Lots.read(quoted), Lots.read(TABLE))

    def test_many_empty_rows(self):
        self.assertEqual(Lots.read(saved() + ",,,,\n" * 1000), Lots.read(TABLE))

    def test_refusals_are_at_the_line_of_the_text(self):
        # The fourth line is empty, so the record on the fifth is the fourth.
        for line, number, sentence in (
            ("5;5;40.5;;", 91, "there is no lot 5: section 5 has lots 1 to 4"),
            ("5;2;40,5;;", 92, "`40,5` is not an acreage: write 0.01 to 999.99, with two decimals, as in `40.45`"),
            ("5;2;40.455;;", 92, "`40.455` is not an acreage: write 0.01 to 999.99, with two decimals, as in `40.45`"),
            ("5;2; 40.5;;", 92, "` 40.5` is not an acreage: write 0.01 to 999.99, with two decimals, as in `40.45`"),
            ("5;1;40.5;;", 93, None),
            (";2;40.5;;", 91, None),
        ):
            with self.subTest(line=line):
                table = saved(";").replace("5;2;40.5;;", line)
                refused = self.refused(Lots.read, table)
                self.assertEqual((refused.number, refused.at, refused.line), (number, 4, 5))
                self.assertEqual((refused.start, refused.end, refused.other), (None, None, None))
                if sentence is not None:
                    self.assertEqual(str(refused), f"lots:5: {sentence}")

    def test_quotation_mark_without_another(self):
        refused = self.refused(Lots.read, saved().replace("40.5,", '40.5",'))
        self.assertEqual((refused.number, refused.line), (89, 5))

    def test_too_large_is_not_read_as_far_as_it_goes(self):
        with tempfile.TemporaryDirectory() as folder:
            path = Path(folder, "lots.csv")
            # The last lot is after the bytes that are read.
            path.write_text(saved() + ",,,,\n" * 14_000 + "31,4,40,,\n")
            for call, given in ((Lots.open, path), (Lots.read, path.read_text())):
                self.assertEqual(self.refused(call, given).number, 86)


@unittest.skipUnless(find_spec("openpyxl"), "openpyxl isn't installed")
class Workbooks(RefusalCase):
    def setUp(self):
        folder = tempfile.TemporaryDirectory()
        self.addCleanup(folder.cleanup)
        self.path = Path(folder.name, "Lots.XLSX")

    def save(self, *rows):
        import openpyxl

        book = openpyxl.Workbook()
        for row in rows:
            book.active.append(row)
        book.create_sheet("other").append(["not", "a", "table"])
        book.active = 1
        book.save(self.path)

    def test_first_sheet(self):
        self.save(*ROWS)
        for name in (self.path, str(self.path), bytes(self.path)):
            self.assertEqual(Lots.open(name), Lots.read(TABLE))

    def test_numbers(self):
        for number, acres in ((40, "40.00"), (40.0, "40.00"), (40.5, "40.50"), (0.01, "0.01"), (999.99, "999.99"),
                              ("40.45", "40.45"), (40.1 + 0.35, "40.45")):
            with self.subTest(number=number):
                self.save(*ROWS[:2], (5, 1, number))
                self.assertEqual(Lots.open(self.path).figures[5, 1], Decimal(acres))

    def test_cells_that_are_refused(self):
        for cell in (40.455, 1000, 0, -1, "40,45", "40.45 acres", None, True, "40.45\n"):
            with self.subTest(cell=cell):
                self.save(*ROWS[:2], (), (5, 1, cell))
                refused = self.refused(Lots.open, self.path)
                self.assertEqual((refused.number, refused.line), (89 if cell is None else 92, 4))
                self.assertTrue(str(refused).startswith(f"{self.path}:4: "))

    def test_files_that_are_no_workbooks(self):
        for data in (b"", b"section,lot,acres\n", b"PK\x03\x04" + bytes(100)):
            self.path.write_bytes(data)
            with self.subTest(data=data), self.assertRaisesRegex(OSError, "this is not a workbook, or it is damaged"):
                Lots.open(self.path)
        self.path.unlink()
        with self.assertRaises(FileNotFoundError):
            Lots.open(self.path)


class WithoutOpenpyxl(unittest.TestCase):
    def test_says_what_to_install(self):
        with unittest.mock.patch.dict("sys.modules", {"openpyxl": None}):
            with self.assertRaisesRegex(OSError, "python3-openpyxl"):
                Lots.open("lots.xlsx")


if __name__ == "__main__":
    unittest.main()
