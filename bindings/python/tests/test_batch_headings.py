"""Batches of descriptions that begin with their townships, of which each can have several."""
import itertools
import unittest
from importlib.util import find_spec

from batches import ADDED, EVEN_NOTES, BatchCase, WorkbookCase, records

#: A lot table of T. 3 N., R. 3 W.
TABLE = "section,lot,acres\nT,3,N,3,W\n31,1,38.97\n31,2,39.01\n"

#: 81.00 acres by the notes, and 77.98 and 320 by the table.
TEXT = "T. 2 N., R. 3 W., sec. 5, lots 1 and 2; T. 3 N., R. 3 W., sec. 31, lots 1 and 2; sec. 32, S1/2."


def listed(*descriptions):
    """A list of these descriptions, which are quoted."""
    return "description\n" + "".join('"' + each.replace('"', '""') + '"\n' for each in descriptions)


class Headings(BatchCase):
    def setUp(self):
        super().setUp()
        self.put_notes("plats/b1.csv")
        self.put(TABLE, "plats/3N.csv")

    def over(self, data, *words, status=1, folder="plats", missing=()):
        """The records that result from a list over the folder. These lines are on standard error."""
        run = self.run_words("batch", "--plats", self.folder / folder, "--headings", self.put(data), *words)
        said = "".join(f"township: {line}\n" for line in missing).replace("FOLDER", str(self.folder / folder))
        self.assertEqual((run.returncode, run.stderr.decode()), (status, said))
        return records(run.stdout)

    def answer(self, description, **named):
        """What is added to the only record of a list."""
        [heading, row] = self.over(listed(description), **named)
        self.assertEqual(heading, ["description", *ADDED, "plat", "by_township"])
        return row[1:]

    def test_several_townships(self):
        self.assertEqual(self.answer(TEXT, status=0), [
            "478.98", "", "", "", "",
            "T. 2 N., R. 3 W., sec. 5, lots 1, 2. T. 3 N., R. 3 W., sec. 31, lots 1, 2; sec. 32, S1/2.",
            "b1.csv; 3N.csv",
            "T. 2 N., R. 3 W.: 81.00; T. 3 N., R. 3 W.: 397.98",
        ])

    def test_one_township(self):
        self.assertEqual(self.answer("T3N R3W sec. 31, lot 1", status=0), [
            "38.97", "", "", "", "", "T. 3 N., R. 3 W., sec. 31, lot 1.", "3N.csv", "T. 3 N., R. 3 W.: 38.97",
        ])
        noted = self.answer("T2N R3W sec. 14, NE1/4 SE1/4.", status=0)
        self.assertEqual(noted[0], "40.00")
        self.assertTrue(noted[4].startswith("NE1/4 SE1/4 is read as one part of 40.00 acres"), noted)
        self.assertEqual(noted[6:], ["b1.csv", "T. 2 N., R. 3 W.: 40.00"])

    def test_the_total_is_rounded_once(self):
        # 39.18 and 39.03 acres, each rounded.
        row = self.answer("T2N R3W sec. 7, lot 1; T3N R3W sec. 14; T2N R3W sec. 7, lot 4", status=0)
        self.assertEqual((row[0], row[7]), ("718.20", "T. 2 N., R. 3 W.: 78.20; T. 3 N., R. 3 W.: 640.00"))

    def test_accounts(self):
        text = "T2N R3W sec. 7, lots 1 to 4; T3N R3W sec. 31, lot 1"
        for words, acres in (((), "195.37"), (("--account", "plat"), "195.39")):
            self.assertEqual(self.over(listed(text), *words, status=0)[1][1], acres)

    def test_note_in_a_part(self):
        row = self.answer("T3N R3W sec. 31, lot 1; T2N R3W sec. 14, NE1/4 SE1/4", status=0)
        self.assertTrue(row[4].startswith("T. 2 N., R. 3 W.: NE1/4 SE1/4 is read as one part of 40.00 acres"), row)

    def test_refusals(self):
        for description, number, at, sentence in (
            ("T2N R3W sec. 14; T3N R3W sec. 37", 62, 30,
             "T. 3 N., R. 3 W.: there is no section 37: sections are 1 to 36"),
            ("T2N R3W sec. 37", 62, 13, "there is no section 37: sections are 1 to 36"),
            ("T2N R3W sec. 14; T3N sec. 31", 33, 21,
             "township: unexpected `sec. 31`; expected the range, as in R. 3 W."),
            ("sec. 14", 31, 0, "township: unexpected `sec. 14`; expected the township number, 1 to 99"),
            ("", 31, 0, "township: the township is missing"),
            ("sec. 14; T3N R3W sec. 31", 38, 9, "the land before this heading has no heading"),
            ("T2N R3W sec. 14; T2N R3W sec. 14, NE1/4", 67, 17, "land of this part was named before"),
            ("T2N R3W sec. 14; T3N R3W sec. 31, lot 3", 94, 3103,
             "T. 3 N., R. 3 W.: the lot table has no record for lot 3 of section 31"),
            ("T3N R3W sec. 31, lot 3", 94, 3103, "the lot table has no record for lot 3 of section 31"),
        ):
            with self.subTest(description=description):
                row = self.over(f'id,description\n7,"{description}"\n')[1][2:]
                self.assertEqual(row[:6], ["", str(number), str(at), sentence, "", ""])
                self.assertEqual(row[7], "")

    def test_long_descriptions(self):
        for description, number, at in (
            ("T2N R3W sec. 14".ljust(65_537), 36, 65_536),
            ("T2N R3W sec. 14; T3N R3W sec. 31".ljust(70_000), 36, 65_536),
        ):
            self.assertEqual(self.answer(description)[1:3], [str(number), str(at)])

    def test_townships_without_plats(self):
        said = "there are no field notes and no lot table for T. {} N., R. 3 W. in FOLDER"
        rows = self.over(
            listed("T2N R3W sec. 14; T4N R3W sec. 1", "T5N R3W sec. 1; T4N R3W sec. 1", "T4N R3W sec. 1", TEXT),
            missing=[f"{said.format(4)}: 3 records", f"{said.format(5)}: 1 record"],
        )
        named = [said.replace("FOLDER", str(self.folder / "plats")).format(number) for number in (4, 5)]
        self.assertEqual([row[1:5] for row in rows[1:4]], [
            ["", "", "", named[0]], ["", "", "", "; ".join(named)], ["", "", "", named[0]],
        ])
        self.assertEqual([row[7:] for row in rows[1:]], [
            ["missing", ""], ["missing", ""], ["missing", ""],
            ["b1.csv; 3N.csv", "T. 2 N., R. 3 W.: 81.00; T. 3 N., R. 3 W.: 397.98"],
        ])

    def test_different_files_of_a_township(self):
        self.put_notes("plats/even.csv", notes=EVEN_NOTES)
        row = self.answer("T3N R3W sec. 14; T2N R3W sec. 14")
        said = r"^two files have different field notes for T. 2 N., R. 3 W.: \S+b1.csv and \S+even.csv$"
        self.assertRegex(row[3], said)
        self.assertEqual((row[0], row[6:]), ("", ["", ""]))

    def test_lists_of_many_records(self):
        descriptions = [
            TEXT, "T2N R3W sec. 14", "T3N R3W sec. 37", "sec. 14", "T4N R3W sec. 1",
            "T. 0002 N., R. 3 W., sec. 5, lot 1.",
            "T2N R3W sec. 14, NE1/4 SE1/4", 'T2N R3W sec. 14, "NE1/4"',
        ]
        wanted = [self.over(listed(each), status=0 if index in (0, 1, 5, 6) else 1, missing=missing)[1]
                  for index, (each, missing) in enumerate(zip(descriptions, self.missing_of(descriptions)))]
        many = listed(*itertools.islice(itertools.cycle(descriptions), 4_000))
        missing = [line.replace("1 record", "500 records") for line in self.missing_of(descriptions)[4]]
        for words in ((), ("--jobs", "3")):
            rows = self.over(many, *words, missing=missing)[1:]
            self.assertEqual(len(rows), 4_000)
            for index, row in enumerate(rows):
                self.assertEqual(row, wanted[index % len(wanted)])

    def missing_of(self, descriptions):
        said = "there are no field notes and no lot table for T. 4 N., R. 3 W. in FOLDER: 1 record"
        return [[said] if each.startswith("T4N") else [] for each in descriptions]

    def test_resumed(self):
        many, made = self.put(listed(*[TEXT, "T4N R3W sec. 1; T2N R3W sec. 1"] * 1_000)), self.folder / "made.csv"
        words = ("batch", "--plats", self.folder / "plats", "--headings", many, "--output", made)
        whole = self.run_words(*words)
        self.assertTrue(whole.stderr.endswith(b": 1,000 records\n"), whole.stderr)
        answers = made.read_bytes()
        made.write_bytes(answers[:-300])
        self.assertEqual(self.run_words(*words, "--resume").stderr, whole.stderr)
        self.assertEqual(made.read_bytes(), answers)

    def test_readings(self):
        rows = self.over(
            listed("T2N-R3W Sec 5: Lots 1 & 2; T3N-R3W Sec 32: S2", "NENE, S2NE4 Sec 14-2N-3W",
                   "T2N R3W sec. 14: NE¼NE¼ SW¼SW¼; T3N R3W sec. 31", "T2N R3W the old mill; T3N R3W sec. 32", TEXT,
                   "T4N-R3W Sec 14: NE/4"),
            "--suggest",
            missing=["there are no field notes and no lot table for T. 4 N., R. 3 W. in FOLDER: 1 record"],
        )
        self.assertEqual(rows[0][9:], ["reading", "readings", "assumes", "reading_acres", "unread"])
        first, second, third, fourth, fifth, last = [row[9:] for row in rows[1:]]
        self.assertEqual(first, [
            "T2N R3W Sec 5, Lots 1 and 2; T3N R3W Sec 32, S1/2.", "1", "", "401.00", "",
        ])
        self.assertEqual((second[0], second[1], second[3]), (
            "T. 2 N., R. 3 W., sec. 14, NE1/4NE1/4, S1/2NE1/4.", "1", "120.00",
        ))
        self.assertEqual(third, ["", "2", "", "", ""])
        self.assertEqual(fourth[:2], ["", "0"])
        self.assertEqual(fourth[4], "not understood: `old mill`")
        self.assertEqual(fifth, [TEXT, "1", "", "478.98", ""])
        self.assertEqual(last[:4], ["T4N R3W Sec 14, NE1/4.", "1", "", ""])
        # The columns before them are the same without readings.
        plain = self.over(listed(*(row[0] for row in rows[1:])), missing=[
            "there are no field notes and no lot table for T. 4 N., R. 3 W. in FOLDER: 1 record"])
        self.assertEqual([row[:9] for row in rows], plain)

    def test_meridians(self):
        self.put_notes("meridians/Boise/b1.csv")
        self.put_notes("meridians/Willamette/b0.csv", notes=EVEN_NOTES)
        self.put_notes("meridians/Willamette/3N.csv", "T,3,N,3,W", notes=EVEN_NOTES)
        rows = self.over(
            'meridian,description\nBoise,"T2N R3W sec. 5, lot 1"\nWillamette,"T2N R3W sec. 5, lot 1; T3N R3W sec. 14"\n'
            'Ute,"T2N R3W sec. 5; T3N R3W sec. 14"\n,T2N R3W sec. 14\n',
            folder="meridians",
            missing=["there is no folder for the principal meridian `Ute` in FOLDER: 1 record"],
        )
        self.assertEqual([row[2] for row in rows[1:]], ["40.45", "680.00", "", ""])
        self.assertEqual([row[8] for row in rows[1:]], [
            "Boise/b1.csv", "Willamette/b0.csv; Willamette/3N.csv", "missing", "",
        ])
        self.assertEqual(rows[4][5], "the principal meridian is missing")

    def test_records_with_faults(self):
        rows = self.over('id,description\n1,"T2N R3W sec. 14, NE1/4"\n2,T2N R3W sec. 14, NE1/4\n3,"T2N R3W sec. 14\n')
        self.assertEqual([row[2] for row in rows[1:]], ["160.00", "", ""])
        self.assertTrue(rows[2][5].startswith("line 3 has 3 fields, but the heading has 2"), rows)

    def test_bytes_that_are_not_characters(self):
        run = self.run_words("batch", "--plats", self.folder / "plats", "--headings",
                             self.put(b"description\nT2N R3W sec. 14 \xbd; T3N R3W sec. 1\nT2N R3W sec. 14 \xbd\n"))
        self.assertIn(b"2 of the descriptions are not UTF-8", run.stderr)

    def test_command_lines_that_are_not_valid(self):
        data = self.put(listed(TEXT))
        for words, said in (
            (("--headings", self.folder / "plats" / "b1.csv", data), b"--headings needs a folder, which --plats names"),
            (("--headings", "--plats", self.folder / "plats", "--township", "twp", data),
             b"with --headings there is no column of the township"),
        ):
            run = self.run_words("batch", *words)
            self.assertEqual((run.returncode, run.stdout), (2, b""))
            self.assertIn(said, run.stderr)

    def test_added_column_that_the_heading_has(self):
        run = self.run_words("batch", "--plats", self.folder / "plats", "--headings",
                             self.put("by_township,description\n1,T2N R3W sec. 14\n"))
        self.assertEqual(run.returncode, 3)
        self.assertIn(b"the heading already has a column `by_township`", run.stderr)


@unittest.skipUnless(find_spec("openpyxl"), "openpyxl isn't installed")
class Workbooks(WorkbookCase):
    def test_several_townships(self):
        self.put_notes("plats/b1.csv")
        self.put(TABLE, "plats/3N.csv")
        book, made = self.workbook(["description"], [TEXT], ["T2N R3W sec. 14"]), self.folder / "made.xlsx"
        run = self.run_words("batch", "--plats", self.folder / "plats", "--headings", book, "--output", made)
        self.assertEqual((run.returncode, run.stderr), (0, b""))
        _, first, second = self.rows_of(made)
        self.assertEqual((first[1], first[8]), (478.98, "T. 2 N., R. 3 W.: 81.00; T. 3 N., R. 3 W.: 397.98"))
        self.assertEqual((second[1], second[8]), (640, "T. 2 N., R. 3 W.: 640.00"))


if __name__ == "__main__":
    unittest.main()
