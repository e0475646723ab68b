"""Lists as spreadsheets write them: each file of the folder `excel` is the same list, saved in another way."""
import csv
import io
import sys
import unittest
from importlib.util import find_spec
from pathlib import Path
from unittest import mock

from batches import ADDED, HEADING, NOTES, BatchCase, WorkbookCase, records

EXCEL = Path(__file__).parent / "excel"
EXCEL_ROWS = Path(__file__).parent / "excel_rows.csv"

HEAD = ["id", "description", "county"]

#: The records of each list, with their answers.
ANSWERED = [
    [*HEAD, *ADDED],
    ["1", "sec. 5, lot 1.", "Lane", "40.45", "", "", "", "", HEADING + "sec. 5, lot 1."],
    ["2", "sec. 14, N½.", "Doña Ana", "320.00", "", "", "", "", HEADING + "sec. 14, N1/2."],
    ["3", "sec. 14, NE1/4 and N1/2.", "Linn", "", "67", "19", "this land was named before", "", ""],
    ["4", "sec. 14;\nsec. 15.", 'Lane "east"', "1280.00", "", "", "", "", HEADING + "sec. 14, all; sec. 15, all."],
]

#: The character between the fields of each file, which the answers have as well.
SEPARATORS = {
    "csv-macintosh-line-ends.csv": ",",
    "csv-semicolons-windows-1252.csv": ";",
    "csv-semicolons.csv": ";",
    "csv-utf-8-without-mark.csv": ",",
    "csv-utf-8.csv": ",",
    "csv-windows-1252.csv": ",",
    "sep-bar.csv": "|",
    "sep-semicolon.csv": ";",
    "text-tabs.txt": "\t",
    "unicode-big-endian.txt": "\t",
    "unicode-text.txt": "\t",
    "unicode-without-mark.txt": "\t",
}


#: The files that begin with a byte order mark, as a file of the answers then does.
WITH_MARK = ("csv-semicolons.csv", "csv-utf-8.csv", "sep-semicolon.csv", "unicode-big-endian.txt", "unicode-text.txt")

MARK = b"\xef\xbb\xbf"


def is_in_windows_1252(name):
    """Whether a file has no mark, and is not UTF-8."""
    return "1252" in name or name == "text-tabs.txt"


class Habits(BatchCase):
    def test_each_file_has_its_row(self):
        self.assertEqual(sorted(file.name for file in EXCEL.iterdir()), sorted(SEPARATORS))

    def test_each_file(self):
        for name, separator in SEPARATORS.items():
            with self.subTest(name=name):
                flag = ("--encoding", "windows-1252") if is_in_windows_1252(name) else ()
                run = self.run_words("batch", NOTES, EXCEL / name, *flag)
                self.assertEqual((run.returncode, run.stderr), (1, b""))
                text = io.StringIO(run.stdout.decode(), newline="")
                self.assertEqual(list(csv.reader(text, delimiter=separator)), ANSWERED)
                made = self.folder / "answers.csv"
                self.run_words("batch", NOTES, EXCEL / name, *flag, "--output", made)
                mark = MARK if name in WITH_MARK else b""
                self.assertEqual(made.read_bytes(), mark + run.stdout)

    def test_each_file_on_standard_input(self):
        for name in ("unicode-text.txt", "csv-utf-8.csv"):
            run = self.run_words("batch", NOTES, "-", input=(EXCEL / name).read_bytes())
            self.assertEqual((run.returncode, run.stdout.count(b"\n")), (1, 6))

    def test_a_mark_wins_over_the_flag(self):
        run = self.run_words("batch", NOTES, EXCEL / "csv-utf-8.csv", "--encoding", "windows-1252")
        self.assertEqual(records(run.stdout), ANSWERED)

    def test_mark_line_ends_and_empty_lines(self):
        rows = self.batch(MARK + b"description\r\n\r\nsec. 14.\r\n", status=0)
        self.assertEqual([row[:2] for row in rows], [["description", "acres"], ["sec. 14.", "640.00"]])

    def test_answers_can_be_answered_again(self):
        # As a list from Excel that was answered is opened and saved there, and answered again.
        for name in WITH_MARK:
            made, again = self.folder / "answers.csv", self.folder / "again.csv"
            self.run_words("batch", NOTES, EXCEL / name, "--output", made)
            run = self.run_words("batch", NOTES, made, "--prefix", "second_", "--output", again)
            self.assertEqual((run.returncode, run.stderr), (1, b""))
            self.assertTrue(again.read_bytes().startswith(MARK + b"id"))

    def test_mark_of_a_resumed_output(self):
        made = self.folder / "answers.csv"
        words = ("batch", NOTES, EXCEL / "csv-utf-8.csv", "--output", made)
        self.run_words(*words)
        whole = made.read_bytes()
        for end in (0, 2, 3, 5, whole.index(b"\n") + 1, len(whole) - 1, len(whole)):
            with self.subTest(end=end):
                made.write_bytes(whole[:end])
                self.assertEqual(self.run_words(*words, "--resume").returncode, 1)
                self.assertEqual(made.read_bytes(), whole)

    def test_short_lists(self):
        for data in (b"", b"\xef\xbb\xbf", b"\xff\xfe", b"a", b"a\0", b"\xef\xbb"):
            with self.subTest(data=data):
                self.assertIn("no column `description`", self.stopped(data))

    def test_blocks_of_16_rows(self):
        # In each block of 16 rows, Excel writes the fields up to the last one that is not empty in any of them.
        run = self.run_words("batch", NOTES, EXCEL_ROWS)
        self.assertEqual((run.returncode, run.stderr), (0, b""))
        rows = records(run.stdout)
        self.assertEqual([row[0] for row in rows[1:]], [str(number) for number in range(1, 33)])
        self.assertEqual({(len(row), row[3]) for row in rows[1:]}, {(3 + len(ADDED), "160.00")})
        self.assertEqual([row[0] for row in rows[1:] if row[2]], ["2", "31"])

    def test_sep_line_is_obeyed(self):
        said = self.stopped("sep=;\ndescription,county\nsec. 14.,Lane\n")
        self.assertIn("list.csv:2: the heading has no column `description`", said)
        self.assertIn("The heading is: `description,county`", said)

    def test_heading_that_is_not_the_wanted_one_is_shown_by_its_fields(self):
        said = self.stopped("ID;Legal;County\n7;sec. 14.;Lane\n")
        self.assertIn("The heading is: `ID`, `Legal`, `County`", said)


@unittest.skipUnless(find_spec("openpyxl"), "openpyxl isn't installed")
class Workbooks(WorkbookCase):
    def test_workbook_to_csv(self):
        listed = self.workbook(*([int(row[0]) if row[0].isdigit() else row[0], *row[1:3]] for row in ANSWERED))
        run = self.run_words("batch", NOTES, listed)
        self.assertEqual((run.returncode, run.stderr), (1, b""))
        self.assertEqual(records(run.stdout), ANSWERED)

    def test_csv_to_workbook(self):
        made = self.folder / "answers.xlsx"
        run = self.run_words("batch", NOTES, EXCEL / "csv-utf-8.csv", "--output", made)
        self.assertEqual((run.returncode, run.stdout, run.stderr), (1, b"", b""))
        rows = self.rows_of(made)
        self.assertEqual(rows[0], ANSWERED[0])
        wanted = ["sec. 5, lot 1.", "Lane", 40.45, None, None, None, None, HEADING + "sec. 5, lot 1."]
        self.assertEqual(rows[1][1:], wanted)
        self.assertEqual(rows[3][3:], [None, 67, 19, "this land was named before", None, None])

    def test_workbook_to_workbook(self):
        listed = self.workbook(["id", "description"], [7, "sec. 14."], [None, None], [8.5, "sec. 15."])
        made = self.folder / "answers.xlsx"
        run = self.run_words("batch", NOTES, listed, "--output", made)
        self.assertEqual((run.returncode, run.stderr), (0, b""))
        self.assertEqual([row[:3] for row in self.rows_of(made)[1:]], [[7, "sec. 14.", 640], [8.5, "sec. 15.", 640]])

    def test_texts_are_never_formulas(self):
        import openpyxl

        made = self.folder / "answers.xlsx"
        listed = self.put('description,formula,bell\nsec. 14.,=1+1,"\a"\n')
        self.assertEqual(self.run_words("batch", NOTES, listed, "--output", made).returncode, 0)
        [_, row] = openpyxl.load_workbook(made).active.iter_rows()
        self.assertEqual([(cell.value, cell.data_type) for cell in row[1:3]], [("=1+1", "s"), ("\\x07", "s")])

    def test_cells_after_the_heading(self):
        listed = self.workbook(["description", None], ["sec. 14", " NE1/4."], ["sec. 15."], [None, None, "x"])
        run = self.run_words("batch", NOTES, listed)
        rows = records(run.stdout)
        self.assertEqual([row[1] for row in rows[1:]], ["", "640.00", ""])
        self.assertEqual(rows[1][4], "row 2 has 2 cells, but the heading has 1")

    def test_no_workbook(self):
        for data in (b"", b"description\nsec. 14.\n", b"PK\x03\x04"):
            run = self.run_words("batch", NOTES, self.put(data, "list.xlsx"))
            self.assertEqual((run.returncode, run.stdout), (3, b""))
            self.assertRegex(run.stderr, rb"\Atownship: cannot read [^\n]*list.xlsx: this is not a workbook\n\Z")

    def test_workbook_that_is_not_there(self):
        run = self.run_words("batch", NOTES, self.folder / "none.xlsx")
        self.assertEqual(run.returncode, 3)
        self.assertIn(b"No such file", run.stderr)


class WithoutOpenpyxl(BatchCase):
    def test_the_package_is_named(self):
        listed, workbook = self.put("description\n"), self.put(b"", "list.xlsx")
        for words in ((workbook,), (listed, "--output", self.folder / "answers.xlsx")):
            with mock.patch.dict(sys.modules, {"openpyxl": None}):
                run = self.run_words("batch", NOTES, *words)
            self.assertEqual((run.returncode, run.stdout), (3, b""))
            self.assertIn(b"python3-openpyxl", run.stderr)


if __name__ == "__main__":
    unittest.main()
