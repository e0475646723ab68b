"""Workbooks as other programs write them, damaged ones, and workbooks that cannot hold or be given the answers."""
import datetime
import os
import re
import resource
import signal
import subprocess
import unittest
import warnings
import zipfile
from importlib.util import find_spec
from unittest import mock

from batches import ADDED, HEADING, NOTES, BatchCase, WorkbookCase, command, records

SHEET = "xl/worksheets/sheet1.xml"

#: A batch whose files cannot have more than 100,000 bytes, as on a disk that is almost full.
LIMIT = 100_000


def limited():
    resource.setrlimit(resource.RLIMIT_FSIZE, (LIMIT, LIMIT))


class DamagedCase(WorkbookCase):
    def changed(self, path, change):
        """A workbook whose sheet's XML is changed, or left out."""
        made = self.folder / "changed.xlsx"
        with zipfile.ZipFile(path) as before, zipfile.ZipFile(made, "w") as after:
            for name in before.namelist():
                data = before.read(name)
                if name == SHEET:
                    data = change(data)
                if data is not None:
                    after.writestr(name, data)
        return made


@unittest.skipUnless(find_spec("openpyxl"), "openpyxl isn't installed")
class Lists(DamagedCase):
    def test_cells_as_excel_shows_them(self):
        # A number that Excel computed as 0.1 + 0.2, a well's number, a day, and a time of a day.
        cells = [0.1 + 0.2, 30015123450000.0, datetime.date(2026, 1, 31), datetime.datetime(2026, 1, 31, 9, 30), True]
        listed = self.workbook(["description", *"abcde"], ["sec. 14.", *cells])
        run = self.run_words("batch", NOTES, listed)
        self.assertEqual((run.returncode, run.stderr), (0, b""))
        wanted = ["0.3", "30015123450000", "2026-01-31", "2026-01-31T09:30:00", "TRUE"]
        self.assertEqual(records(run.stdout)[1][1:6], wanted)

    def test_row_that_is_too_wide_keeps_its_cells(self):
        day = datetime.date(2026, 1, 31)
        listed = self.workbook(["id", "description"], [7, "sec. 14", 8.0, day, 'a "b", c'], [9, "sec. 14."])
        made = self.folder / "answers.xlsx"
        self.assertEqual(self.run_words("batch", NOTES, listed, "--output", made).returncode, 1)
        rows = self.rows_of(made)
        self.assertEqual(rows[1][:3], [7, 'sec. 14,8,2026-01-31,"a ""b"", c"', None])
        self.assertEqual(rows[1][5], "row 2 has 5 cells, but the heading has 2")
        self.assertEqual([row[:2] for row in rows[2:]], [[9, "sec. 14."]])
        run = self.run_words("batch", NOTES, listed)
        self.assertEqual(records(run.stdout)[1][:2], ["7", 'sec. 14,8,2026-01-31,"a ""b"", c"'])

    def test_days_stay_days(self):
        import openpyxl

        made = self.folder / "answers.xlsx"
        listed = self.workbook(["description", "signed"], ["sec. 14.", datetime.date(2026, 1, 31)])
        self.assertEqual(self.run_words("batch", NOTES, listed, "--output", made).returncode, 0)
        cell = openpyxl.load_workbook(made).active["B2"]
        self.assertEqual((cell.value, cell.number_format), (datetime.datetime(2026, 1, 31), "yyyy-mm-dd"))

    def test_size_that_is_wrong(self):
        # Some programs write that a sheet has one cell.
        listed = self.workbook(["id", "description"], [7, "sec. 14."], [8, "sec. 15."])
        for size in (b"A1", b"A1:B2", b"B1:B9"):
            with self.subTest(size=size):
                made = self.changed(listed, lambda xml: re.sub(b'(<dimension ref=")[^"]*', b"\\g<1>" + size, xml))
                run = self.run_words("batch", NOTES, made)
                wanted = [["id", "description", "acres"], ["7", "sec. 14.", "640.00"], ["8", "sec. 15.", "640.00"]]
                self.assertEqual([row[:3] for row in records(run.stdout)], wanted)

    def test_workbook_that_opens_with_a_chart(self):
        import openpyxl
        from openpyxl.chart import BarChart

        book = openpyxl.Workbook()
        book.active.append(["description"])
        book.active.append(["sec. 14."])
        book.create_chartsheet("chart", 0).add_chart(BarChart())
        book.active = 0
        book.save(self.folder / "list.xlsx")
        run = self.run_words("batch", NOTES, self.folder / "list.xlsx")
        self.assertEqual((run.returncode, run.stderr), (0, b""))
        self.assertEqual(records(run.stdout)[1][:2], ["sec. 14.", "640.00"])

    def test_sheet_that_is_open(self):
        import openpyxl

        book = openpyxl.Workbook()
        book.active.append(["other"])
        book.active = book.create_sheet("list")
        book.active.append(["description"])
        book.active.append(["sec. 14."])
        book.save(self.folder / "list.xlsx")
        words = ("batch", NOTES, self.folder / "list.xlsx")
        for run in (self.run_words(*words), self.run_words(*words, "--sheet", "LIST")):
            self.assertEqual(records(run.stdout)[1][:2], ["sec. 14.", "640.00"])
        # The package keeps a sheet that is not read to its end open for a while, and a test would show a warning.
        run = self.run_command(*words, "--sheet", "Sheet")
        self.assertEqual(run.returncode, 3)
        said = r"\Atownship: \S+list.xlsx, sheet `Sheet`, row 1: the heading has no column `desc.*: `other`\n\Z"
        self.assertRegex(run.stderr.decode(), said)
        run = self.run_command(*words, "--sheet", "no\a")
        self.assertEqual(run.returncode, 3)
        said = r"\Atownship: \S+list.xlsx: there is no sheet `no\\x07`; the sheets are: `Sheet`, `list`\n\Z"
        self.assertRegex(run.stderr.decode(), said)

    def test_sheet_of_a_list_that_is_no_workbook(self):
        run = self.run_words("batch", NOTES, self.put("description\n"), "--sheet", "Sheet")
        self.assertEqual((run.returncode, run.stdout), (2, b""))

    def test_warnings_of_the_package_are_not_shown(self):
        # Excel writes such an element where a cell offers a list of values, and the package warns of it.
        extension = b'<extLst><ext uri="{CCE6A557-97BC-4b89-ADB6-D9C93CAAB3DF}"/></extLst></worksheet>'
        listed = self.workbook(["description"], ["sec. 14."])
        made = self.changed(listed, lambda xml: xml.replace(b"</worksheet>", extension))
        run = self.run_command("batch", NOTES, made)
        self.assertEqual((run.returncode, run.stderr), (0, b""))

    def test_damaged_workbooks(self):
        listed = self.workbook(["description"], *([f"sec. {k}."] for k in range(8, 36)))
        for change, said in (
            (lambda xml: xml[: len(xml) // 2], "the workbook is damaged"),
            (lambda xml: xml.replace(b"<c ", b"<c r='?' "), "the workbook is damaged"),
            (lambda xml: b"", "this is not a workbook"),
            (lambda xml: None, "there is no sheet of cells in this workbook"),
        ):
            with self.subTest(said=said):
                run = self.run_command("batch", NOTES, self.changed(listed, change))
                self.assertEqual(run.returncode, 3)
                self.assertRegex(run.stderr.decode(), f"\\Atownship: [^\n]*changed.xlsx: {said}\n\\Z")

    def test_workbook_with_a_password(self):
        run = self.run_words("batch", NOTES, self.put(b"\xd0\xcf\x11\xe0\xa1\xb1\x1a\xe1" + bytes(512), "list.xlsx"))
        self.assertEqual((run.returncode, run.stdout), (3, b""))
        said = rb"\Atownship: cannot read [^\n]*list.xlsx: it has a password, or is an old workbook [^\n]*\n\Z"
        self.assertRegex(run.stderr, said)

    def test_bytes_that_are_damaged(self):
        data = bytearray(self.workbook(["description"], ["sec. 14."]).read_bytes())
        # Wherever a byte is changed, the workbook is read as it was, or is refused in one line.
        for at in range(0, len(data), 97):
            with self.subTest(at=at):
                damaged = self.put(bytes([*data[:at], data[at] ^ 0x55, *data[at + 1 :]]), "damaged.xlsx")
                with warnings.catch_warnings():
                    warnings.simplefilter("ignore", ResourceWarning)
                    run = self.run_words("batch", NOTES, damaged)
                self.assertIn(run.returncode, (0, 1, 3))
                wanted = rb"\A(township: [^\n]*\n)\Z" if run.returncode == 3 else rb"\A\Z"
                self.assertRegex(run.stderr, wanted)


class OtherFormats(BatchCase):
    def test_files_that_are_not_lists(self):
        for head in (b"PK\x03\x04\x14\0", b"\xd0\xcf\x11\xe0\xa1\xb1\x1a\xe1", b"%PDF-1.7\n"):
            for name, given in (("list.ods", b""), ("-", head)):
                with self.subTest(head=head, name=name):
                    listed = "-" if name == "-" else self.put(head, name)
                    run = self.run_words("batch", NOTES, listed, input=given)
                    self.assertEqual((run.returncode, run.stdout), (3, b""))
                    self.assertRegex(run.stderr, rb"\Atownship: [^\n]*: this is not CSV; save the list as [^\n]*\n\Z")


@unittest.skipUnless(find_spec("openpyxl"), "openpyxl isn't installed")
class Answers(WorkbookCase):
    def test_text_too_long_for_a_cell(self):
        # What is left of a text that is cut off could be other land.
        made = self.folder / "answers.xlsx"
        for length, shown in ((32_767, "x" * 32_767), (32_768, "[32,768 characters: too long for a cell]")):
            listed = self.put(f"description,remark\nsec. 14.,{'x' * length}\n")
            self.assertEqual(self.run_words("batch", NOTES, listed, "--output", made).returncode, 0)
            self.assertEqual(self.rows_of(made)[1][1:3], [shown, 640])

    def test_more_rows_than_a_sheet_has(self):
        made = self.folder / "answers.xlsx"
        listed = self.put("description\n" + "sec. 14.\n" * 5)
        with mock.patch("township._batch.workbook_sink.ROWS_MOST", 4):
            run = self.run_words("batch", NOTES, listed, "--output", made)
        self.assertEqual(run.returncode, 3)
        said = rb"\Atownship: [^\n]*answers.xlsx: a workbook has at most 4 rows; write [^\n]*\n\Z"
        self.assertRegex(run.stderr, said)
        self.assertEqual([row[:2] for row in self.rows_of(made)[1:]], [["sec. 14.", 640]] * 3)

    def test_folder_that_is_not_there(self):
        # It is found out before the list is answered, and even before it is read to its end.
        with mock.patch("township._batch.answers.Answers.added_to", side_effect=AssertionError):
            listed = self.put("description\nsec. 14.\n")
            run = self.run_words("batch", NOTES, listed, "--output", self.folder / "no" / "x.xlsx")
        self.assertEqual(run.returncode, 3)
        self.assertRegex(run.stderr, rb"\Atownship: cannot write [^\n]*x.xlsx: No such file or directory\n\Z")

    def test_full_disk(self):
        # Numbers that look random, so that the workbook is large although it is compressed.
        rows = "".join(f"sec. 14.,{k * 0x9E3779B97F4A7C15 % 2**64}\n" for k in range(10_000))
        listed = self.put("description,number\n" + rows)
        made = self.folder / "answers.xlsx"
        run = self.run_command("batch", NOTES, listed, "--output", made, preexec_fn=limited)
        self.assertEqual((run.returncode, run.stdout), (3, b""))
        said = rb"\Atownship: cannot write [^\n]*answers.xlsx: its temporary file cannot be [^\n]*\n\Z"
        self.assertRegex(run.stderr, said)

    @unittest.skipUnless(os.path.exists("/dev/full"), "there is no /dev/full")
    def test_full_disk_of_the_workbook_alone(self):
        listed = self.put("description\nsec. 14.\n")
        made = self.folder / "answers.xlsx"
        made.symlink_to("/dev/full")
        run = self.run_command("batch", NOTES, listed, "--output", made)
        self.assertEqual((run.returncode, run.stdout), (3, b""))
        self.assertRegex(run.stderr, rb"\Atownship: cannot write [^\n]*answers.xlsx: No space left on device\n\Z")

    def test_ctrl_c_saves_what_was_answered(self):
        made = self.folder / "answers.xlsx"
        words = command(NOTES, "-", "--output", made)
        process = subprocess.Popen(words, stdin=subprocess.PIPE, stderr=subprocess.PIPE)
        self.addCleanup(process.kill)
        process.stdin.write(b"description\n" + b"sec. 14.\n" * 5000)
        process.stdin.flush()
        while not made.exists():
            self.assertIsNone(process.poll())
        process.send_signal(signal.SIGINT)
        said = process.stderr.read()
        self.assertEqual(process.wait(timeout=60), 130)
        self.assertRegex(said, rb"\Atownship: interrupted after [0-9]+ records\n\Z")
        rows = self.rows_of(made)
        self.assertEqual(len(rows) - 1, int(said.split()[3]))
        for row in rows[1:]:
            self.assertEqual((row[:2], row[1 + ADDED.index("canonical")]), (["sec. 14.", 640], HEADING + "sec. 14, all."))
        process.stdin.close()
        process.stderr.close()


if __name__ == "__main__":
    unittest.main()
