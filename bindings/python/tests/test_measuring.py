"""`python -m township acres` and `python -m township compare`, as they are run from a command line."""
import unittest
from importlib.util import find_spec

from batches import NOTES, BatchCase, WorkbookCase
from samples import TOP

TRACTS = TOP / "samples" / "tracts.csv"
TABLE = "section,lot,acres\nT,2,N,3,W\n5,1,40.45\n5,2,40.50\n"


class MeasuringCase(BatchCase):
    def assertAnswers(self, output, *words, status=0, errors="", **named):
        """The command with these words writes this."""
        run = self.run_words(*words, **named)
        self.assertEqual((run.returncode, run.stdout.decode(), run.stderr.decode()), (status, output, errors))

    def assertMisused(self, message, *words):
        """The command with these words is not valid, and says so."""
        run = self.run_words(*words)
        self.assertEqual((run.returncode, run.stdout), (2, b""))
        self.assertIn(message, run.stderr.decode())


class Acres(MeasuringCase):
    def test_by_field_notes(self):
        description = self.put("sec. 7, lots 1 to 4, inclusive.\n", "land.txt")
        self.assertAnswers("156.40 acres\n", "acres", NOTES, description)
        self.assertAnswers("156.40 acres\n", "acres", NOTES, "--account", "exact", description)
        self.assertAnswers("156.42 acres\n", "acres", "--account=plat", NOTES, description)

    def test_by_a_lot_table(self):
        # Two returned lots, and two quarter-quarters of 40 acres.
        description = self.put("sec. 5, lots 1 and 2, S1/2NE1/4.\n", "land.txt")
        self.assertAnswers("160.95 acres\n", "acres", "--lots", self.put(TABLE), description)
        self.assertAnswers("160.95 acres\n", "acres", description, "--lots", self.put(TABLE))

    def test_standard_input(self):
        description = self.put("sec. 14.", "land.txt")
        self.assertAnswers("640.00 acres\n", "acres", NOTES, "-", input=b"sec. 14.")
        self.assertAnswers("640.00 acres\n", "acres", "-", description, input=NOTES.read_bytes())
        self.assertAnswers("640.00 acres\n", "acres", "--lots", "-", description, input=TABLE.encode())

    def test_refused(self):
        description = self.put("sec. 14, NE1/4 and N1/2.\n", "land.txt")
        explanation = (f"township: {description}:1:20: this land was named before\n"
                       "  1 | sec. 14, NE1/4 and N1/2.\n"
                       "    |                    ^^^^\n"
                       "  `NE1/4` at 1:10 overlaps it; both include sec. 14, NE1/4.\n")
        for words in ((NOTES, description), ("--lots", self.put(TABLE), description)):
            self.assertAnswers("refused 67 at 19\n", "acres", *words, status=1, errors=explanation)
        run = self.run_words("acres", NOTES, "-", input=b"sec. 5, lot 5.")
        self.assertTrue(run.stderr.startswith(b"township: standard input:1:13: section 5 has lots 1 to 4\n"), run.stderr)

    def test_place_that_can_be_read_in_two_ways(self):
        # A quarter of a quarter has 40 acres, and two quarters have 320.
        joined = self.put("sec. 14, NE1/4 SE1/4.\n", "joined.txt")
        note = (f"township: {joined}:1:16: note: NE1/4 SE1/4 is read as one part of 40.00 acres, the NE1/4 of the SE1/4; "
                "if two parts were meant, write a comma after NE1/4 (320.00 acres)")
        for words in ((NOTES, joined), ("--lots", self.put(TABLE), joined)):
            run = self.run_words("acres", *words)
            self.assertEqual((run.returncode, run.stdout), (0, b"40.00 acres\n"))
            said, _, excerpt = run.stderr.decode().partition("\n  1 | ")
            self.assertEqual(" ".join(said.split()), note)
            self.assertEqual(excerpt.splitlines()[0], "sec. 14, NE1/4 SE1/4.")
        # A refusal says nothing of what is accepted.
        run = self.run_words("compare", NOTES, joined, self.put("sec. 37.", "wrong.txt"))
        self.assertNotIn(b"note", run.stderr)

    def test_refused_notes(self):
        run = self.run_words("acres", TRACTS, self.put("sec. 37.", "land.txt"))
        self.assertEqual((run.returncode, run.stdout), (1, b"refused 3 at 1\n"))
        self.assertTrue(run.stderr.startswith(f"township: {TRACTS}:1".encode()), run.stderr)

    def test_refused_lot_table(self):
        lots, description = self.put(TABLE + "5,3,40.455\n"), self.put("sec. 5, lots 1 to 4.", "land.txt")
        run = self.run_words("acres", "--lots", lots, description)
        self.assertEqual((run.returncode, run.stdout), (1, b"refused 92 at 5\n"))
        said, _, excerpt = run.stderr.decode().partition("\n  5 | ")
        acres = "`40.455` is not an acreage: write 0.01 to 999.99, with two decimals, as in `40.45`"
        self.assertEqual(" ".join(said.split()), f"township: {lots}:5: {acres}")
        self.assertEqual(excerpt, "5,3,40.455\n    |     ^^^^^^\n")
        said = (
            "township: land: the lot table has no record for lot 3 of section 5\n"
            "  of section 5, it has these lots: 1, 2\n"
        )
        self.assertAnswers("refused 94 at 503\n", "acres", "--lots", self.put(TABLE), description, status=1, errors=said)

    def test_files_that_cannot_be_read(self):
        run = self.run_words("acres", NOTES, self.folder / "none.txt")
        self.assertEqual((run.returncode, run.stdout), (3, b""))
        self.assertEqual(run.stderr.decode(), f"township: cannot read {self.folder / 'none.txt'}: No such file or directory\n")

    def test_too_long(self):
        self.assertAnswers("640.00 acres\n", "acres", NOTES, "-", input=b"sec. 14.".ljust(65_536))
        run = self.run_words("acres", NOTES, "-", input=b"sec. 14.".ljust(65_537))
        self.assertEqual((run.returncode, run.stdout), (1, b"refused 41 at 65536\n"))

    def test_misused(self):
        self.assertMisused("name the field notes and a description", "acres", NOTES)
        self.assertMisused("name a description", "acres", "--lots", NOTES)
        self.assertMisused("name a description", "acres", "--lots", NOTES, NOTES, NOTES)
        self.assertMisused("with --lots there is only one account", "acres", "--lots", NOTES, "--account", "plat", NOTES)
        self.assertMisused("only one file can be standard input", "acres", "-", "-")
        self.assertMisused("invalid choice", "acres", "--account", "printed", NOTES, NOTES)

    def test_full_disk(self):
        with open("/dev/full", "wb") as full:
            run = self.run_command("acres", NOTES, self.put("sec. 14.", "land.txt"), stdout=full)
        self.assertEqual((run.returncode, run.stderr), (3, b"township: cannot write: No space left on device\n"))


class Compare(MeasuringCase):
    HEADING = "T. 2 N., R. 3 W.,\n"

    def setUp(self):
        super().setUp()
        self.one = self.put("sec. 14, N1/2; sec. 5, lot 1.", "one.txt")
        self.other = self.put("sec. 14, E1/2; sec. 5, lots 1 and 2.", "other.txt")

    def test_by_field_notes(self):
        # Lot 1 has 40.45 acres and lot 2 has 40.55, and each quarter section 160.
        self.assertAnswers(
            f"both: 200.45 acres\n{self.HEADING}sec. 5, lot 1;\nsec. 14, NE1/4.\n"
            f"only {self.one}: 160.00 acres\n{self.HEADING}sec. 14, NW1/4.\n"
            f"only {self.other}: 200.55 acres\n{self.HEADING}sec. 5, lot 2;\nsec. 14, SE1/4.\n",
            "compare", NOTES, self.one, self.other,
        )

    def test_by_a_lot_table(self):
        run = self.run_words("compare", "--lots", self.put(TABLE), self.one, self.other)
        self.assertEqual([line for line in run.stdout.decode().splitlines() if line.endswith("acres")],
                         ["both: 200.45 acres", f"only {self.one}: 160.00 acres", f"only {self.other}: 200.50 acres"])

    def test_the_same_land(self):
        self.assertAnswers(
            f"both: 640.00 acres\n{self.HEADING}sec. 14, all.\n"
            f"only {self.put('sec. 14, N1/2, S1/2.', 'halves.txt')}: 0.00 acres\nonly standard input: 0.00 acres\n",
            "compare", NOTES, self.folder / "halves.txt", "-", input=b"sec. 14.",
        )

    def test_refused(self):
        wrong = self.put("sec. 14, NE1/4 and N1/2.", "wrong.txt")
        for words in ((wrong, self.one), (self.one, wrong)):
            run = self.run_words("compare", NOTES, *words)
            self.assertEqual((run.returncode, run.stdout), (1, b"refused 67 at 19\n"))
            self.assertTrue(run.stderr.startswith(f"township: {wrong}:1:20: this land was named before\n".encode()))

    def test_misused(self):
        self.assertMisused("name the field notes and description A and description B", "compare", NOTES, self.one)
        self.assertMisused("name description A and description B", "compare", "--lots", NOTES, self.one)


@unittest.skipUnless(find_spec("openpyxl"), "openpyxl isn't installed")
class Workbooks(WorkbookCase):
    def test_lot_table(self):
        table = self.workbook(("section", "lot", "acres"), ("T", 2, "N", 3, "W"), (5, 1, 40.5), name="lots.xlsx")
        land, lease = self.put("sec. 5, lot 1.", "land.txt"), self.put("Lot 1, Sec 5", "lease.txt")
        for words, said in ((("acres", land), b"40.50 acres\n"), (("compare", land, land), b"both: 40.50 acres\n"),
                            (("suggest", lease), b"40.50 acres\n")):
            with self.subTest(words=words[0]):
                run = self.run_words(words[0], "--lots", table, *words[1:])
                self.assertEqual((run.returncode, run.stderr), (0, b""))
                self.assertIn(said, run.stdout)

    def test_refused(self):
        table = self.workbook(("section", "lot", "acres"), ("T", 2, "N", 3, "W"), (5, 1, 40.455), name="lots.xlsx")
        run = self.run_words("acres", "--lots", table, self.put("sec. 5, lot 1.", "land.txt"))
        self.assertEqual((run.returncode, run.stdout), (1, b"refused 92 at 3\n"))
        self.assertTrue(run.stderr.startswith(f"township: {table}:3: ".encode()), run.stderr)

    def test_files_that_are_no_workbooks(self):
        for table in (self.put(TABLE, "lots.xlsx"), self.folder / "none.xlsx"):
            run = self.run_words("acres", "--lots", table, self.put("sec. 5, lot 1.", "land.txt"))
            self.assertEqual((run.returncode, run.stdout), (3, b""))
            self.assertTrue(run.stderr.startswith(f"township: cannot read {table}: ".encode()), run.stderr)


class Help(BatchCase):
    def test_help(self):
        for words in (("--help",), ("acres", "--help"), ("compare", "--help")):
            run = self.run_words(*words)
            self.assertEqual((run.returncode, run.stderr), (0, b""))
            self.assertIn(b"compare" if words == ("--help",) else words[0].encode(), run.stdout)

    def test_no_command(self):
        for words in ((), ("plat",), (NOTES,)):
            self.assertEqual(self.run_words(*words).returncode, 2)


if __name__ == "__main__":
    unittest.main()
