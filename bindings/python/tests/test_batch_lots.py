"""Batches by lot tables: by one, and over the townships of a folder of lot tables and field notes."""
import unittest

from batches import ADDED, EVEN_NOTES, HEADING, LOTS, NOTES, BatchCase, records


def on_one_line(text):
    """A message without the breaks of its lines, which depend on the length of a file's name."""
    return b" ".join(text.split()) + b" "


class Tables(BatchCase):
    """Lot tables, in a file or in a folder beside field notes."""

    DATA = 'township,description\nT2N R3W,"sec. 5, lot 1."\nT3S R4E,"sec. 5, lot 1."\nT4N R3W,"sec. 5, lot 1."\n'

    def setUp(self):
        super().setUp()
        self.put_notes("plats/b1.csv")
        self.put_notes("plats/south.csv", "T,3,S,4,E", EVEN_NOTES)
        self.put(LOTS, "plats/lots.csv")
        self.put(LOTS.replace("T,2,N", "T,4,N").replace("41.23", "39.01"), "plats/north.csv")

    def answers(self, *words, data=DATA, status=0):
        run = self.run_words("batch", "--plats", self.folder / "plats", self.put(data), *words)
        self.assertEqual(run.returncode, status, run.stderr)
        return [(row[2] or row[5], row[8]) for row in records(run.stdout)[1:]], run.stderr.decode()

    def test_table_controls(self):
        wanted = [("41.23", "lots.csv"), ("40.00", "south.csv"), ("39.01", "north.csv")]
        for words in ((), ("--jobs", "2"), ("--account", "plat")):
            self.assertEqual(self.answers(*words), (wanted, ""))

    def test_account_is_that_of_field_notes(self):
        (self.folder / "plats" / "lots.csv").unlink()
        data = 'township,description\nT2N R3W,"sec. 7, lots 1 to 4."\nT4N R3W,"sec. 5, lot 1."\n'
        for account, acres in (("exact", "156.40"), ("plat", "156.42")):
            found, _ = self.answers("--account", account, data=data)
            self.assertEqual(found, [(acres, "b1.csv"), ("39.01", "north.csv")])

    def test_lot_that_the_table_lacks(self):
        listed = self.put('township,description\nT2N R3W,"sec. 5."\n')
        run = self.run_words("batch", "--plats", self.folder / "plats", listed)
        self.assertEqual(run.returncode, 1)
        sentence = "the lot table has no record for lot 2 of section 5"
        self.assertEqual(records(run.stdout)[1][2:], ["", "94", "502", sentence, "", "", "lots.csv"])

    def test_files_are_recognized_by_their_headings(self):
        # Names say nothing, and neither do marks and quotation marks.
        for name in ("b1.csv", "south.csv", "lots.csv", "north.csv"):
            self.put((self.folder / "plats" / name).read_bytes(), f"swapped/{name[::-1]}.csv")
        table = self.folder / "swapped" / "vsc.stol.csv"
        table.write_bytes(b'\xef\xbb\xbf\r\n"section","lot",acres\r\n' + table.read_bytes().partition(b"\n")[2])
        run = self.run_words("batch", "--plats", self.folder / "swapped", self.put(self.DATA))
        self.assertEqual((run.returncode, run.stderr), (0, b""))
        self.assertEqual([row[2] for row in records(run.stdout)[1:]], ["41.23", "40.00", "39.01"])

    def test_names_of_files_are_quoted(self):
        name = 'T. 2 N., "R. 3 W.".csv'
        (self.folder / "plats" / "lots.csv").rename(self.folder / "plats" / name)
        # A record in whose description a quotation mark is not doubled is read by another module.
        for data in (self.DATA, self.DATA + 'T2N R3W,"sec. 5"x\n'):
            found, _ = self.answers(data=data, status=int(data != self.DATA))
            self.assertEqual(found[:2], [("41.23", name), ("40.00", "south.csv")])

    def test_two_tables_of_one_township(self):
        self.put(LOTS, "plats/again.csv")
        self.assertEqual(self.answers()[0][0], ("41.23", "again.csv"))
        self.put(LOTS.replace("41.23", "41.24"), "plats/other.csv")
        found, _ = self.answers(status=1)
        again, other = self.folder / "plats" / "again.csv", self.folder / "plats" / "other.csv"
        said = f"two files have different lot tables for T. 2 N., R. 3 W.: {again} and {other}"
        self.assertEqual(found[0], (said, ""))
        self.assertEqual(found[1:], [("40.00", "south.csv"), ("39.01", "north.csv")])

    def test_different_field_notes_beside_a_table(self):
        # One of them is not of this township: so the table may not be, either.
        self.put_notes("plats/even.csv", notes=EVEN_NOTES)
        found, _ = self.answers(status=1)
        said = r"two files have different field notes for T. 2 N., R. 3 W.: \S+b1.csv and \S+even.csv"
        self.assertRegex(found[0][0], said)

    def test_files_that_are_refused(self):
        neither = b"this is neither field notes nor a lot table: field notes begin with `line,between,and,"
        heading = b":1: the heading must be `section,lot,acres`, or `section,lot,acres,land`: "
        for text, said in (
            (LOTS + "5,5,40.00\n", b":4: there is no lot 5: section 5 has lots 1 to 4"),
            ("section;lots;acres\nT;2;N;3;W\n", heading),
            ("SECTION,LOT,ACRES\n", heading),
            ("line;between;and\n", b":1: the heading must be `line,between,and,quarter,corner`"),
            (LOTS + " " * 65_536, b": the lot table is longer than 65,536 bytes"),
            ("township,description\n", b":1: " + neither),
            ("", b":1: " + neither),
            ("\0" * 9, b":1: " + neither),
        ):
            with self.subTest(text=text[:40]):
                bad = self.put(text, "plats/bad.csv")
                _, errors = self.answers(status=1)
                self.assertEqual(errors.count("township: "), 1)
                self.assertTrue(on_one_line(errors.encode()).startswith(b"township: " + bytes(bad) + said), errors)

    def test_list_and_answers_in_the_folder(self):
        folder = self.folder / "plats"
        words = ("batch", "--plats", folder, self.put(self.DATA, "plats/list.csv"), "--output", folder / "answers.csv")
        for _ in range(2):
            run = self.run_words(*words)
            self.assertEqual((run.returncode, run.stderr), (0, b""))
            self.assertEqual([row[2] for row in records((folder / "answers.csv").read_bytes())[1:]],
                             ["41.23", "40.00", "39.01"])
        # Any other list is a mistake.
        run = self.run_words(*words[:-1], folder / "again.csv")
        self.assertEqual(run.returncode, 1)
        said = rb"\Atownship: \S+/answers.csv:1: this is neither field notes nor a lot table[^\n]*\n\Z"
        self.assertRegex(run.stderr, said)

    def test_folder_of_refused_files_alone(self):
        self.put("section\n", "bad/lots.csv")
        run = self.run_words("batch", "--plats", self.folder / "bad", self.put(self.DATA))
        self.assertEqual(run.returncode, 1)
        said = b"bad/lots.csv:1: the heading must be `section,lot,acres`, or `section,lot,acres,land`: it has 1 field "
        self.assertIn(said, on_one_line(run.stderr))

    def test_one_table(self):
        table = self.put(LOTS, "lots.csv")
        lands = ("sec. 5, lot 1, S1/2NE1/4.", "sec. 5, lots 1 and 2.", "sec. 14, NE1/4 SE1/4.", "sec. 5, lot 5.")
        listed = self.put("description\n" + "".join(f'"{land}"\n' for land in lands))
        for words in (("--lots", table, listed), (listed, "--lots", table), ("--lots", table, listed, "--jobs", "2")):
            run = self.run_words("batch", *words)
            self.assertEqual((run.returncode, run.stderr), (1, b""))
            rows = records(run.stdout)
            self.assertEqual(rows[0], ["description", *ADDED])
            self.assertEqual([row[1:4] for row in rows[1:]],
                             [["121.23", "", ""], ["", "94", "502"], ["40.00", "", ""], ["", "64", "12"]])
            self.assertEqual(rows[1][6], HEADING + "sec. 5, lot 1, S1/2NE1/4.")
            self.assertEqual(rows[2][4:], ["the lot table has no record for lot 2 of section 5", "", ""])
            self.assertTrue(rows[3][5].startswith("NE1/4 SE1/4 is read as one part of 40.00 acres"), rows[3])
            self.assertEqual(rows[4][4], "section 5 has lots 1 to 4")

    def test_table_of_a_spreadsheet(self):
        table = self.put(LOTS.replace(",", ";").replace("\n", ";;\n"), "lots.csv")
        run = self.run_words("batch", "--lots", table, self.put('description\n"sec. 5, lot 1."\n'))
        self.assertEqual((run.returncode, run.stderr), (0, b""))
        self.assertEqual(records(run.stdout)[1][1], "41.23")
        # In a folder, too.
        self.put(table.read_text(), "plats/lots.csv")
        self.assertEqual(self.answers()[0][0], ("41.23", "lots.csv"))

    def test_workbook_that_is_none(self):
        table = self.put(LOTS, "lots.xlsx")
        run = self.run_words("batch", "--lots", table, self.put("description\nsec. 14.\n"))
        self.assertEqual((run.returncode, run.stdout), (3, b""))
        self.assertRegex(run.stderr, rb"\Atownship: cannot read \S+/lots.xlsx: [^\n]+\n\Z")

    def test_readings_by_a_table(self):
        data = 'description\n"Lot 1, Sec 5"\n"Lot 2, Sec 5"\n'
        run = self.run_words("batch", "--lots", self.put(LOTS, "lots.csv"), self.put(data), "--suggest")
        self.assertEqual([row[7:] for row in records(run.stdout)[1:]],
                         [["sec. 5, Lot 1.", "1", "", "41.23", ""], ["sec. 5, Lot 2.", "1", "", "", ""]])

    def test_one_table_that_is_refused(self):
        listed = self.put("description\nsec. 14.\n")
        for name, text, status, said in (
            ("lots.csv", LOTS + "5,1,40.00\n", 1, b"\n  record 3 at line 3 is also for this lot\n"),
            ("notes.csv", NOTES.read_text(), 1, b"\n  these are field notes, not a lot table\n  this file contains field notes\n"),
            ("other.csv", "line,between\n", 1, b"\n  these are field notes, not a lot table\n"),
            ("none.csv", None, 3, b"none.csv: No such file or directory\n"),
        ):
            if text:
                self.put(text, name)
            run = self.run_words("batch", "--lots", self.folder / name, listed)
            self.assertEqual((run.returncode, run.stdout), (status, b""))
            self.assertTrue(run.stderr.endswith(said), run.stderr)

    def test_table_in_place_of_field_notes(self):
        run = self.run_words("batch", self.put(LOTS, "lots.csv"), self.put("description\nsec. 14.\n"))
        self.assertEqual((run.returncode, run.stdout), (1, b""))
        self.assertIn(b"/lots.csv:1: the heading must be `line,between,and,quarter,corner`", run.stderr)
        self.assertTrue(run.stderr.endswith(b"\n  this file is a lot table\n"), run.stderr)

    def test_command_lines_that_are_not_valid(self):
        table, listed = self.put(LOTS, "lots.csv"), self.put("description\nsec. 14.\n")
        for words, said in (
            (("--lots", table, "--account", "exact", listed), b"with --lots there is only one account"),
            (("--lots", table, "--plats", self.folder / "plats", listed), b"name a lot table with --lots, or a folder"),
            (("--lots", table), b"with --lots, name only the list"),
            (("--lots", table, NOTES, listed), b"with --lots, name only the list"),
            (("--plats", self.folder / "plats", NOTES, listed), b"with --plats, name only the list"),
            ((listed,), b"name the field notes and the list"),
        ):
            with self.subTest(said=said):
                run = self.run_words("batch", *words)
                self.assertEqual((run.returncode, run.stdout), (2, b""))
                self.assertIn(said, run.stderr)

    def test_table_is_never_overwritten(self):
        table = self.put(LOTS, "lots.csv")
        run = self.run_words("batch", "--lots", table, self.put("description\nsec. 14.\n"), "--output", table)
        self.assertEqual((run.returncode, table.read_text()), (3, LOTS))
        self.assertIn(b"the output must not be one of the inputs", run.stderr)

    def test_list_that_has_a_column_plat(self):
        data = self.DATA.replace("township,description", "township,description,plat").replace('1."\n', '1.",7\n')
        run = self.run_words("batch", "--plats", self.folder / "plats", self.put(data))
        self.assertEqual(run.returncode, 3)
        self.assertIn(b"the heading already has a column `plat`; rename it", run.stderr)
        run = self.run_words("batch", "--plats", self.folder / "plats", self.put(data), "--prefix", "t_")
        self.assertEqual(records(run.stdout)[0][3:], [*(f"t_{name}" for name in ADDED), "t_plat"])


if __name__ == "__main__":
    unittest.main()
