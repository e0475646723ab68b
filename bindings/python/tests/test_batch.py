"""`python -m township batch`, as it is run from a command line."""
import os
import unittest

import township
from batches import ADDED, HEADING, NOTES, BatchCase


class Batch(BatchCase):
    def test_all_accepted(self):
        rows = self.batch('id,description,county\n7,"sec. 5, lot 1.",Lane\n8,sec. 36.,"Li""nn"\n', status=0)
        self.assertEqual(rows[0], ["id", "description", "county", *ADDED])
        self.assertEqual(rows[1], ["7", "sec. 5, lot 1.", "Lane", "40.45", "", "", "", "", HEADING + "sec. 5, lot 1."])
        self.assertEqual(rows[2], ["8", "sec. 36.", 'Li"nn', "640.00", "", "", "", "", HEADING + "sec. 36, all."])
        self.assertEqual(len(rows), 3)

    def test_some_refused(self):
        rows = self.batch('description\n"sec. 14, NE1/4 and N1/2."\nsec. 14.\n', status=1)
        self.assertEqual(rows[1][1:], ["", "67", "19", "this land was named before", "", ""])
        self.assertEqual(rows[2][1:], ["640.00", "", "", "", "", HEADING + "sec. 14, all."])

    def test_sentences_are_whole(self):
        # The program shows this one on two lines.
        [_, row] = self.batch('description\n"sec. 14,"\n', status=1)
        self.assertTrue(row[4].endswith("expected a part of the section, or another section's number"), row[4])

    def test_canonical_texts_of_the_same_land(self):
        rows = self.batch('description\n"sec. 14, S½, N½; sec. 15."\n"sec. 15; sec. 14."\n', status=0)
        self.assertEqual(rows[1][6], HEADING + "sec. 14, all; sec. 15, all.")
        self.assertEqual(rows[2][6], rows[1][6])
        [_, again] = self.batch(f'description\n"{rows[1][6]}"\n', status=0)
        self.assertEqual(again[1], "1280.00")

    def test_notes(self):
        # 40 acres as one part; the NE1/4 and the SE1/4 are 320.
        rows = self.batch('description\n"sec. 14, NE1/4 SE1/4."\n"sec. 14, NE1/4, SE1/4."\n', status=0)
        wanted = ("NE1/4 SE1/4 is read as one part of 40.00 acres, the NE1/4 of the SE1/4; if two parts were meant, "
                  "write a comma after NE1/4 (320.00 acres)")
        self.assertEqual([(row[1], row[5]) for row in rows[1:]], [("40.00", wanted), ("320.00", "")])

    def test_by_the_plat(self):
        listed = 'description\n"sec. 7, lots 1 to 4."\n'
        self.assertEqual(self.batch(listed, "--account", "plat", status=0)[1][1], "156.42")
        self.assertEqual(self.batch(listed, "--account", "exact", status=0)[1][1], "156.40")

    def test_heading_alone(self):
        self.assertEqual(self.batch("description\n", status=0), [["description", *ADDED]])

    def test_standard_input(self):
        run = self.run_command("batch", NOTES, "-", input=b"description\nsec. 14.\n")
        self.assertEqual((run.returncode, run.stderr), (0, b""))
        self.assertTrue(run.stdout.endswith(b'\nsec. 14.,640.00,,,,,"T. 2 N., R. 3 W., sec. 14, all."\n'))

    def test_options_between_the_names(self):
        listed = self.put('land\n"sec. 7, lots 1 to 4."\n')
        for words in (
            (NOTES, "--account", "plat", listed, "--column", "land"),
            ("--account=plat", "--column=land", NOTES, listed),
            (NOTES, listed, "--column", "land", "--account", "plat"),
        ):
            run = self.run_words("batch", *words)
            self.assertEqual((run.returncode, run.stdout.splitlines()[1].split(b",")[2]), (0, b"156.42"))

    def test_bytes_that_are_not_utf_8_are_kept(self):
        run = self.run_words("batch", NOTES, self.put(b"description,who\nsec. 14\xbd,Pe\xf1a\n"))
        self.assertEqual(run.returncode, 1)
        self.assertIn(b"\nsec. 14\xbd,Pe\xf1a,,42,7,", run.stdout)
        self.assertEqual(run.stderr, b"township: 1 of the descriptions is not UTF-8; if the list is in "
                                     b"Windows-1252, add --encoding windows-1252\n")

    def test_description_of_several_lines(self):
        for end in ("\n", "\r\n", "\r"):
            with self.subTest(end=end):
                rows = self.batch(f'description\n"sec. 14;{end}sec. 15."\n', status=0)
                self.assertEqual([row[:2] for row in rows[1:]], [[f"sec. 14;{end}sec. 15.", "1280.00"]])

    def test_long_description(self):
        # It is longer than Python's own limit for a field.
        run = self.run_words("batch", NOTES, self.put("description\n" + " " * 200_000 + "\n"))
        self.assertEqual(run.returncode, 1)
        self.assertIn(b" ,,41,65536,", run.stdout)


class Faults(BatchCase):
    """Faults of a record, which never stop the others."""

    def faults(self, data):
        """The records of a list, by the fields that they have, their acres, and what is wrong."""
        width = data.split("\n")[0].count(",") + 1
        rows = self.batch(data, status=1)
        self.assertEqual({len(row) for row in rows}, {width + len(ADDED)})
        for row in rows[1:]:
            self.assertEqual(row[width + 1 : width + 3], ["", ""])
        return [(row[:width], row[width], row[width + 3]) for row in rows[1:]]

    def test_comma_without_quotes_is_never_read_in_part(self):
        rows = self.faults("description\nsec. 14.\nsec. 14, NE1/4.\nsec. 15.\n")
        quotes = "put a description that contains a separator in quotation marks"
        self.assertEqual(rows, [
            (["sec. 14."], "640.00", ""),
            (["sec. 14, NE1/4."], "", f"line 3 has 2 fields, but the heading has 1; {quotes}"),
            (["sec. 15."], "640.00", ""),
        ])

    def test_record_that_is_too_wide_keeps_its_fields(self):
        # The fields after the last of the heading are in it, as they would be in a record.
        data = 'id,description\n7,sec. 14, NE1/4,"a ""b"", c",\n8,sec. 14.\n9, sec. 14,",", \n'
        rows = self.faults(data)
        self.assertEqual([row[0] for row in rows], [
            ["7", 'sec. 14, NE1/4,"a ""b"", c",'], ["8", "sec. 14."], ["9", ' sec. 14,",", '],
        ])
        self.assertEqual([row[1] for row in rows], ["", "640.00", ""])
        for row in rows[::2]:
            self.assertIn(f"the heading has 2; put a description that contains a separator", row[2])

    def test_separator_of_the_fields_that_are_too_many(self):
        run = self.run_words("batch", NOTES, self.put('id;description\n7;a;b,c;"d;e"\n'))
        self.assertEqual(run.stdout.decode().splitlines()[1][:24], '7;"a;b,c;""d;e""";;;;"li')

    def test_too_few_fields(self):
        rows = self.faults("id,description\n7\n8,sec. 14.\n")
        self.assertEqual(rows[0], (["7", ""], "", "line 2 has 1 field, but the heading has 2"))
        self.assertEqual(rows[1], (["8", "sec. 14."], "640.00", ""))

    def test_empty_fields_that_excel_leaves_out(self):
        # It does so in blocks of 16 rows, if all fields of a column at the end are empty there.
        data = 'id,description,by,remark\n7,"sec. 14, N1/2",x,y\n8,sec. 15.,x\n9,"sec. 16;\nsec. 17."\n'
        rows = self.batch(data, status=0)
        self.assertEqual([row[:5] for row in rows[1:]], [
            ["7", "sec. 14, N1/2", "x", "y", "320.00"],
            ["8", "sec. 15.", "x", "", "640.00"],
            ["9", "sec. 16;\nsec. 17.", "", "", "1280.00"],
        ])

    def test_rows_without_text_are_skipped(self):
        # Excel writes its empty rows so.
        rows = self.batch("id,description\n,\n7,sec. 14.\n,\n\n,,,\n8,sec. 15.\n,\n", status=0)
        self.assertEqual([row[:3] for row in rows[1:]], [["7", "sec. 14.", "640.00"], ["8", "sec. 15.", "640.00"]])
        self.assertEqual(self.batch('id,description\n7,\n," "\n', status=1)[1][3], "44")

    def test_description_that_may_go_on_in_the_next_line(self):
        rows = self.batch("id,description,by,remark\n7,sec. 14\nNE1/4,x,y\n8,sec. 15.,x,y\n", status=1)
        said = "line 2 has 2 fields, but the heading has 4; put the description in quotation marks if it is whole"
        self.assertEqual(rows[1][:8], ["7", "sec. 14", "", "", "", "", "", said])
        self.assertEqual([row[4] for row in rows[1:]], ["", "", "640.00"])

    def test_text_after_a_closing_quotation_mark(self):
        rows = self.faults('id,description\n7,"sec. 14."x\n8,sec. 14.\n')
        self.assertEqual(rows[0], (["", '7,"sec. 14."x'], "", "the quotation marks of line 2 are not well formed"))
        self.assertEqual(rows[1], (["8", "sec. 14."], "640.00", ""))
        # All of the line is kept, with the spaces around it.
        rows = self.faults('id,description\n 7,"sec. 14."x \n')
        self.assertEqual(rows[0][0], ["", ' 7,"sec. 14."x '])

    def test_quotation_mark_that_is_not_closed(self):
        rows = self.faults('description\nsec. 13.\n"sec. 14.\nsec. 15.\n\nsec. 16.\nsec. 17.\n')
        self.assertEqual([row[1] for row in rows], ["640.00", "", "640.00", "640.00", "640.00"])
        self.assertEqual(rows[1], (['"sec. 14.'], "", "the quotation marks of line 3 are not well formed"))

    def test_lines_are_counted_after_a_fault(self):
        rows = self.faults('id,description\n1,"sec. 13;\nsec. 14."\n2,"sec. 15."x\n\n3\n')
        self.assertEqual([row[2][:35] for row in rows[1:]],
                         ["the quotation marks of line 4 are n", "line 6 has 1 field, but the heading"])

    def test_quotation_mark_lost_in_a_long_list(self):
        # A field ends after a megabyte at the latest, so that memory is bounded; all that follows is answered.
        count = 100_000
        rows = self.faults('description\n"sec. 14.\n' + "sec. 15.\n" * count)
        self.assertEqual(len(rows), count + 1)
        self.assertEqual(rows[0][1], "")
        self.assertEqual({row[1] for row in rows[1:]}, {"640.00"})


class Columns(BatchCase):
    def test_named_column(self):
        rows = self.batch("description,Legal\nsee Legal,sec. 14.\n", "--column", "Legal", status=0)
        self.assertEqual(rows[1][2], "640.00")

    def test_capitals_and_spaces_make_no_difference(self):
        rows = self.batch("ID, Description \n7,sec. 14.\n", status=0)
        self.assertEqual(rows[1][2], "640.00")

    def test_exact_name_is_first(self):
        rows = self.batch("Description,description\nsec. 37.,sec. 14.\n", status=0)
        self.assertEqual(rows[1][2], "640.00")

    def test_heading_without_the_column(self):
        said = self.stopped("land,county\nsec. 14.,Lane\n")
        self.assertIn("list.csv:1: the heading has no column `description`; name the column with --column", said)
        self.assertIn("The heading is: `land`, `county`", said)

    def test_heading_is_shown_as_a_terminal_can(self):
        said = self.stopped("\x1b[31mred\a,\u202eland,é," + "x" * 41 + "," + "y" * 40 + "\nsec. 14.\n")
        shown = ("\\x1b[31mred\\x07", "\\u202eland", "é", "x" * 40 + "..", "y" * 40)
        self.assertTrue(said.endswith("The heading is: " + ", ".join(f"`{name}`" for name in shown) + "\n"), said)

    def test_column_that_is_not_the_only_one(self):
        said = self.stopped("description,id,Description ,description\na,b,c,d\n")
        self.assertIn("the heading has 3 columns `description`, 1 and 3 and 4; name one of them by its number, as in "
                      "--column 1\n", said)

    def test_column_by_its_number(self):
        data = "description,description\nsec. 14.,\"sec. 14, N1/2\"\n"
        for number, acres in (("1", "640.00"), ("2", "320.00")):
            rows = self.batch(data, "--column", number, status=0)
            self.assertEqual(rows[0][:3], ["description", "description", "acres"])
            self.assertEqual(rows[1][:3], ["sec. 14.", "sec. 14, N1/2", acres])
        for number in ("0", "3", "-1", "1.0", "01x", "9" * 5000):
            with self.subTest(number=number[:9]):
                self.assertIn(f"the heading has no column `{number}`", self.stopped(data, f"--column={number}"))

    def test_name_that_is_a_number(self):
        rows = self.batch("1,2,description\nsec. 13,sec. 14.,sec. 15\n", "--column", "2", status=0)
        self.assertTrue(rows[1][-1].endswith("sec. 14, all."), rows[1])
        rows = self.batch("2,1\n\"sec. 14, N1/2\",sec. 14.\n", "--column", "1", status=0)
        self.assertEqual(rows[1][2], "640.00")

    def test_empty_list(self):
        for data in ("", "\n\n"):
            with self.subTest(data=data):
                said = self.stopped(data)
                self.assertIn("no column `description`", said)
                self.assertIn("The heading is: empty", said)

    def test_heading_with_a_column_that_is_added(self):
        said = self.stopped("description,acres\nsec. 14.,640\n")
        self.assertIn("list.csv:1: the heading already has a column `acres`", said)

    def test_prefix(self):
        rows = self.batch("description,acres\nsec. 14.,639\n", "--prefix", "exact_", status=0)
        self.assertEqual(rows[0], ["description", "acres", *("exact_" + name for name in ADDED)])
        self.assertEqual(rows[1][:3], ["sec. 14.", "639", "640.00"])


class Failures(BatchCase):
    def test_notes_refused(self):
        notes = self.put(b"line\n", "notes.csv")
        run = self.run_words("batch", notes, self.put("description\nsec. 14.\n"))
        self.assertEqual((run.returncode, run.stdout), (1, b""))
        self.assertTrue(run.stderr.startswith(f"township: {notes}:1: ".encode()), run.stderr)

    def test_files_that_cannot_be_read(self):
        there, missing = self.put("description\n"), self.folder / "none\n.csv"
        for words in ((missing, there), (NOTES, missing), (self.folder, there), (NOTES, self.folder)):
            with self.subTest(words=words):
                run = self.run_words("batch", *words)
                self.assertEqual((run.returncode, run.stdout), (3, b""))
                self.assertRegex(run.stderr, rb"\Atownship: cannot read [^\n]*\n\Z")

    @unittest.skipUnless(os.path.exists("/dev/full"), "there is no /dev/full")
    def test_output_that_cannot_be_written(self):
        # It fails once when the output is closed, and once when it is written, because a buffer is smaller than a row.
        for length in (1, 100_000):
            listed = self.put(f"id,description\n{'x' * length},sec. 14.\n")
            with open("/dev/full", "wb") as full:
                run = self.run_command("batch", NOTES, listed, stdout=full)
            self.assertEqual(run.returncode, 3)
            self.assertRegex(run.stderr, rb"\Atownship: cannot write: [^\n]*\n\Z")
            run = self.run_words("batch", NOTES, listed, "--output", "/dev/full")
            self.assertEqual(run.returncode, 3)
            self.assertRegex(run.stderr, rb"\Atownship: cannot write /dev/full: [^\n]*\n\Z")

    def test_output_that_is_closed(self):
        listed = self.put("description\nsec. 14.\n")
        with open(listed, "rb") as given:
            run = self.run_command("batch", NOTES, "-", stdin=given, stdout=None, preexec_fn=lambda: os.close(1))
        self.assertEqual((run.returncode, run.stderr[:24]), (3, b"township: cannot write: "))

    def test_wrong_usage(self):
        for words in ((), ("batch",), ("batch", NOTES), ("batch", NOTES, "x", "y"), ("other",),
                      ("batch", NOTES, "x", "--account", "printed"), ("batch", "--plats", "x"),
                      ("batch", NOTES, "x", "--plats", "y"), ("batch", NOTES, "x", "--resume"),
                      ("batch", NOTES, "x", "--resume", "--output", "y.xlsx"),
                      ("batch", NOTES, "x", "--resume", "--output", "-"),
                      ("batch", NOTES, "x", "--encoding", "latin")):
            with self.subTest(words=words):
                run = self.run_words(*words)
                self.assertEqual((run.returncode, run.stdout), (2, b""))
                self.assertIn(b"usage: python -m township", run.stderr)

    def test_help_and_version(self):
        for words in (("--help",), ("batch", "--help"), ("--version",)):
            with self.subTest(words=words):
                run = self.run_words(*words)
                self.assertEqual((run.returncode, run.stderr), (0, b""))
        build = "" if township.__version__ == township.version() else f" (build {township.__version__})"
        self.assertEqual(run.stdout.decode(), f"township {township.version()}{build}\n")

    def test_help_has_each_column_and_status(self):
        help_text = self.run_words("batch", "--help").stdout.decode()
        for name in ADDED:
            self.assertRegex(help_text, rf"(?m)^  {name} +\S")
        for status in (0, 1, 2, 3, 130, 141):
            self.assertRegex(help_text, rf"(?m)^  {status} +\S")


if __name__ == "__main__":
    unittest.main()
