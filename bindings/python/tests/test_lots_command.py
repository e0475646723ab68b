"""`python3 -m township lots new`: a lot table to fill in."""
import unittest

from batches import BatchCase
from township import Lots


class New(BatchCase):
    def test_table(self):
        for spelling in ("T. 2 N., R. 3 W.", "T2N R3W"):
            run = self.run_words("lots", "new", spelling)
            self.assertEqual((run.returncode, run.stderr), (0, b""))
            self.assertEqual(run.stdout.decode(), Lots.new((2, "N", 3, "W")).csv())

    def test_table_that_is_filled_in(self):
        table = self.run_words("lots", "new", "T. 2 N., R. 3 W.").stdout.replace(b"\n5,1,40.00\n", b"\n5,1,40.45\n")
        run = self.run_words("acres", "--lots", self.put(table, "lots.csv"), "-", input=b"sec. 5, lots 1 and 2.")
        self.assertEqual((run.returncode, run.stdout), (0, b"80.45 acres\n"))

    def test_command_lines_that_are_not_valid(self):
        for words, said in (
            (("new",), b"TOWNSHIP"),
            ((), b"new"),
            (("old", "T2N R3W"), b"invalid choice: 'old'"),
            (("new", "2N R3W"), b"township:1:4: unexpected `R3W`; expected the range, as in R. 3 W."),
            (("new", "T. 100 N., R. 3 W."),
             b"township:1:4: unexpected `100 N., R. 3 W.`; expected the township number, 1 to 99"),
            (("new", "T2N R3W", "more"), b"unrecognized arguments: more"),
        ):
            with self.subTest(words=words):
                run = self.run_words("lots", *words)
                self.assertEqual((run.returncode, run.stdout), (2, b""))
                self.assertIn(said, run.stderr)

    def test_output_that_cannot_be_written(self):
        with open("/dev/full", "wb") as full:
            run = self.run_command("lots", "new", "T2N R3W", stdout=full)
        self.assertEqual(run.returncode, 3)
        self.assertRegex(run.stderr, rb"\Atownship: cannot write: [^\n]*\n\Z")


if __name__ == "__main__":
    unittest.main()
