"""Batches over the townships of a folder."""
import unittest

from batches import ADDED, EVEN_NOTES, HEADING, LOTS, BatchCase, records


class Folders(BatchCase):
    def setUp(self):
        super().setUp()
        self.put_notes("plats/b1.csv")
        self.put_notes("plats/other.CSV", "T,3,S,4,E", EVEN_NOTES)
        self.put("no notes", "plats/readme.txt")
        self.put("no notes", "plats/.hidden.csv")

    def over(self, data, *words, status=1, folder="plats", missing=()):
        """The records that result from a list over the folder. These lines are on standard error."""
        run = self.run_words("batch", "--plats", self.folder / folder, self.put(data), *words)
        said = "".join(f"township: {line}\n" for line in missing).replace("FOLDER", str(self.folder / folder))
        self.assertEqual((run.returncode, run.stderr.decode()), (status, said))
        return records(run.stdout)

    def acres(self, data, *words, **named):
        """The acres of each record, or what is wrong with it."""
        rows = self.over(data, *words, **named)
        width = len(rows[0]) - len(ADDED) - 1
        return [row[width] or row[width + 3] for row in rows[1:]]

    def plats(self, data, *words, **named):
        """The file by which each record is answered."""
        return [row[-1] for row in self.over(data, *words, **named)[1:]]

    def test_each_record_is_on_its_own_plat(self):
        rows = self.over(
            'township,description\n"T. 2 N., R. 3 W.","sec. 5, lot 1."\n"T. 3 S., R. 4 E.","sec. 5, lot 1."\n', status=0
        )
        self.assertEqual(rows[1][2:], ["40.45", "", "", "", "", HEADING + "sec. 5, lot 1.", "b1.csv"])
        self.assertEqual(rows[2][2:], ["40.00", "", "", "", "", "T. 3 S., R. 4 E., sec. 5, lot 1.", "other.CSV"])

    def test_accepted_spellings(self):
        for spelling in ("T. 2 N., R. 3 W.", "T. 2 N., R. 3 W.,", "T2N R3W", "t2n r3w", "T. 2 N. R. 3 W.",
                         "T 2 N, R 3 W", "  T2N R3W ", "T.2N.,R.3W.", "T2N\tR3W", "2N3W", "2N-3W", "2N/3W",
                         "T-2-N, R-3-W", "0020N 0030W", "Twp. 2 North, Rge. 3 West", "\u00a02N-3W\u00a0",
                         "Township Two North, Range Three West"):
            with self.subTest(spelling=spelling):
                data = f'township,description\n"{spelling}","sec. 5, lot 1."\n'
                self.assertEqual(self.acres(data, status=0), ["40.45"])

    def test_what_is_no_township(self):
        for spelling, said in (
            ("", (31, 0, "1:1: the township is missing")),
            ("2N R3W", (33, 3, "1:4: unexpected `R3W`; expected the range, as in R. 3 W.")),
            ("T. 2 N.", (33, 7, "1:8: incomplete township: expected the range, as in R. 3 W.")),
            ("sec. 5;", (31, 0, "1:1: unexpected `sec. 5;`; expected the township number, 1 to 99")),
            ("T. 2 N., R. 3 W., sec. 14, NE1/4;",
             (35, 18, "1:19: unexpected `sec. 14, NE1/4;`; expected nothing after the township")),
            ("T. 5 N., R. 3 W., sec. 14;",
             (35, 18, "1:19: unexpected `sec. 14;`; expected nothing after the township")),
            ("T. 0 N., R. 3 W.",
             (31, 3, "1:4: unexpected `0 N., R. 3 W.`; expected the township number, 1 to 99")),
            ("T2N R3W sec. 37;", (35, 8, "1:9: unexpected `sec. 37;`; expected nothing after the township")),
        ):
            with self.subTest(spelling=spelling):
                [_, row] = self.over(f'township,description\n"{spelling}",sec. 14.\n')
                number, at, sentence = said
                self.assertEqual(row[2:], ["", str(number), str(at), f"township:{sentence}", "", "", ""])

    def test_township_without_a_plat(self):
        data = "township,description\nT5N R3W,sec. 14.\nT2N R3W,sec. 14.\nT2N,sec. 14.\n"
        said = f"there are no field notes and no lot table for T. 5 N., R. 3 W. in {self.folder / 'plats'}"
        rows = self.over(data, missing=[f"{said}: 1 record"])
        self.assertEqual(rows[1][2:], ["", "", "", said, "", "", "missing"])
        # A text that is no township has no plat, but none is missing.
        self.assertEqual([row[-1] for row in rows], ["plat", "missing", "b1.csv", ""])

    def test_townships_without_plats_are_counted(self):
        rows = [f"T{number}N R3W,sec. 14.\n" for number in (*range(20, 31), 31, 31, 20, 2)]
        said = "there are no field notes and no lot table for T. {} N., R. 3 W. in FOLDER: {}"
        missing = [said.format(20, "2 records"), *(said.format(number, "1 record") for number in range(21, 30))]
        for jobs in ("1", "2"):
            found = self.plats("township,description\n" + "".join(rows), "--jobs", jobs,
                               missing=[*missing, ".. and so for 2 more: 3 records"])
            self.assertEqual(found, ["missing"] * 14 + ["b1.csv"])

    def test_missing_plats_are_counted_in_several_processes(self):
        # Each process is given some 65,536 characters at a time.
        listed = self.put("township,description\n" + "T5N R3W,sec. 14.\n" * 15_000)
        run = self.run_words("batch", "--plats", self.folder / "plats", listed, "--jobs", "2")
        self.assertEqual(run.returncode, 1)
        self.assertTrue(run.stderr.endswith(b": 15,000 records\n"), run.stderr)
        self.assertEqual(run.stderr.count(b"\n"), 1)

    def test_missing_plats_are_counted_in_a_resumed_batch(self):
        listed, made = self.put("township,description\n" + "T5N R3W,sec. 14.\n" * 1500), self.folder / "made.csv"
        words = ("batch", "--plats", self.folder / "plats", listed, "--output", made)
        whole = self.run_words(*words)
        self.assertTrue(whole.stderr.endswith(b": 1,500 records\n"), whole.stderr)
        made.write_bytes(made.read_bytes()[:-300])
        self.assertEqual(self.run_words(*words, "--resume").stderr, whole.stderr)

    def test_one_fault_never_stops_the_rest(self):
        found = self.acres('township,description\nT2N,sec. 14.\nT2N R3W,sec. 14.,NE1/4\nT2N R3W,sec. 37.\n"T2N R3W\n'
                           "T2N R3W,sec. 14.\n")
        self.assertEqual([each[:8] for each in found], ["township", "line 3 h", "there is", "the quot", "640.00"])

    def test_heading_of_a_description_must_be_its_township(self):
        rows = self.over('township,description\nT3S R4E,"T. 2 N., R. 3 W., sec. 14."\n')
        self.assertEqual(rows[1][3:5], ["61", "0"])

    def test_named_columns(self):
        data = "TWP,Legal\nT2N R3W,sec. 14.\n"
        self.assertEqual(self.acres(data, "--township", "TWP", "--column", "Legal", status=0), ["640.00"])

    def test_list_without_a_township(self):
        listed = self.put("description\nsec. 14.\n")
        run = self.run_words("batch", "--plats", self.folder / "plats", listed)
        self.assertEqual((run.returncode, run.stdout), (3, b""))
        self.assertIn(b"no column `township`; name the column with --township. The heading is: `desc", run.stderr)

    def test_field_notes_that_are_refused(self):
        # A township in the other files is still answered, and the status shows that there was an error.
        bad = self.put("line\n", "plats/bad.csv")
        run = self.run_words("batch", "--plats", self.folder / "plats", self.put("township,description\nT2N R3W,sec. 14.\n"))
        self.assertEqual(run.returncode, 1)
        self.assertEqual(records(run.stdout)[1][2], "640.00")
        self.assertTrue(run.stderr.startswith(f"township: {bad}:1: ".encode()), run.stderr)

    def test_files_of_the_folder_are_never_overwritten(self):
        listed = self.put("township,description\nT2N R3W,sec. 14.\n")
        # The last one is refused, and is an input nevertheless.
        for name, text in (("b1.csv", None), ("lots.csv", LOTS), ("bad.csv", "line\n")):
            file = self.put(text, f"plats/{name}") if text else self.folder / "plats" / name
            before = file.read_bytes()
            run = self.run_words("batch", "--plats", self.folder / "plats", listed, "--output", file)
            self.assertEqual((run.returncode, file.read_bytes()), (3, before))
            self.assertIn(b"the output must not be one of the inputs", run.stderr)

    def test_two_files_for_one_township(self):
        self.put_notes("plats/again.csv")
        data = "township,description\nT2N R3W,sec. 14.\n"
        self.assertEqual(self.acres(data, status=0), ["640.00"])
        self.put_notes("plats/even.csv", notes=EVEN_NOTES)
        [found] = self.acres(data)
        self.assertRegex(found, r"two files have different field notes for T. 2 N., R. 3 W.: \S+again.csv and \S+even.csv")

    def test_folders_that_cannot_be_used(self):
        (self.folder / "empty").mkdir()
        listed = self.put("township,description\nT2N R3W,sec. 14.\n")
        for folder, said in (
            ("empty", b"there are no field notes and no lot tables"), ("none", b"No such file"), ("list.csv", b"Not a dir")
        ):
            run = self.run_words("batch", "--plats", self.folder / folder, listed)
            self.assertEqual((run.returncode, run.stdout), (3, b""))
            self.assertIn(said, run.stderr)


class Meridians(Folders):
    """The tests of folders, with the field notes in the only folder for a meridian."""

    def setUp(self):
        super().setUp()
        self.put_notes("meridians/Boise Meridian/b1.csv")
        self.put_notes("meridians/Willamette/b0.csv", notes=EVEN_NOTES)

    def test_townships_of_two_meridians_are_never_mixed(self):
        found = self.acres(
            'meridian,township,description\nBoise meridian,T2N R3W,"sec. 5, lot 1."\nWillamette,T2N R3W,"sec. 5, lot 1."\n'
            "Ute,T2N R3W,sec. 14.\n,T2N R3W,sec. 14.\n",
            folder="meridians",
            missing=["there is no folder for the principal meridian `Ute` in FOLDER: 1 record"],
        )
        self.assertEqual(found[:2], ["40.45", "40.00"])
        self.assertTrue(found[2].startswith("there is no folder for the principal meridian `Ute` in "), found)
        self.assertEqual(found[3], "the principal meridian is missing")

    def test_named_column(self):
        data = 'pm,township,description\nWILLAMETTE,T2N R3W,"sec. 5, lot 1."\n'
        self.assertEqual(self.acres(data, "--meridian", "PM", status=0, folder="meridians"), ["40.00"])

    def test_named_column_that_is_not_there(self):
        listed = self.put("township,description\nT2N R3W,sec. 14.\n")
        run = self.run_words("batch", "--plats", self.folder / "plats", listed, "--meridian", "pm")
        self.assertEqual(run.returncode, 3)
        self.assertIn(b"no column `pm`; name the column with --meridian", run.stderr)

    def test_list_without_a_meridian(self):
        listed = self.put("township,description\nT2N R3W,sec. 14.\n")
        run = self.run_words("batch", "--plats", self.folder / "meridians", listed)
        self.assertEqual((run.returncode, run.stdout), (3, b""))
        self.assertIn(b"folders by principal meridian; name the column of the meridian with --meridian", run.stderr)

    def test_only_one_meridian(self):
        self.put_notes("one/Boise/b1.csv")
        data = 'township,description\nT2N R3W,"sec. 5, lot 1."\n'
        self.assertEqual(self.acres(data, status=0, folder="one"), ["40.45"])

    def test_files_beside_the_folders_are_on_no_meridian(self):
        self.put_notes("meridians/local.csv", "T,9,N,9,E")
        data = "meridian,township,description\n,T9N R9E,sec. 14.\nBoise Meridian,T9N R9E,sec. 14.\n"
        said = "there are no field notes and no lot table for T. 9 N., R. 9 E. in FOLDER: 1 record"
        found = self.acres(data, folder="meridians", missing=[said])
        self.assertEqual((found[0], found[1][:24]), ("640.00", "there are no field notes"))

    def test_names_of_files_in_folders_of_meridians(self):
        data = "meridian,township,description\nBoise Meridian,T2N R3W,sec. 14.\nUte,T2N R3W,sec. 14.\n"
        said = "there is no folder for the principal meridian `Ute` in FOLDER: 1 record"
        found = self.plats(data, folder="meridians", missing=[said])
        self.assertEqual(found, ["Boise Meridian/b1.csv", "missing"])

    def test_two_columns_of_the_meridian(self):
        listed = self.put("meridian,Meridian,township,description\nBoise,Ute,T2N R3W,sec. 14.\n")
        # The first one has exactly the name.
        run = self.run_words("batch", "--plats", self.folder / "one", listed)
        self.put_notes("one/Boise/b1.csv")
        run = self.run_words("batch", "--plats", self.folder / "one", listed)
        self.assertEqual((run.returncode, run.stderr), (0, b""))
        listed = self.put("meridian,meridian,township,description\nBoise,Ute,T2N R3W,sec. 14.\n")
        run = self.run_words("batch", "--plats", self.folder / "one", listed)
        self.assertEqual((run.returncode, run.stdout), (3, b""))
        self.assertIn(b"the heading has 2 columns `meridian`, 1 and 2; name one of them by its number", run.stderr)
        run = self.run_words("batch", "--plats", self.folder / "one", listed, "--meridian", "1")
        self.assertEqual((run.returncode, run.stderr), (0, b""))

    def test_folder_without_meridians_is_of_one(self):
        found = self.acres(
            "meridian,township,description\n,T2N R3W,sec. 14.\nBoise,T2N R3W,sec. 14.\nBOISE,T3S R4E,sec. 14.\n"
            "Ute,T3S R4E,sec. 14.\nBoise,T2N R3W,sec. 14.\n"
        )
        self.assertEqual([*found[:3], found[4]], ["640.00"] * 4)
        self.assertIn("on another principal meridian, `Ute` and not `Boise`", found[3])


if __name__ == "__main__":
    unittest.main()
