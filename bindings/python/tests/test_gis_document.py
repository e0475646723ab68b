"""The commands in `docs/GIS.md` print what is shown below them."""
import os
import re
import shlex
import unittest

from batches import BatchCase
from samples import TOP
from township import Lots
from township._cadnsdi import COLUMNS

PAGE = (TOP / "docs" / "GIS.md").read_text()
BLOCKS = ["".join(line[4:] for line in block.splitlines(True)) for block in re.findall(r"(?m)(?:^    .*\n)+", PAGE)]
IMPORT, SAID, TABLE, REPORT, FILES, PARTS, ROWS, LAKE_PARTS, LAKE_ROWS, PARTS_BY_ID, ROWS_BY_ID = BLOCKS

#: What a command begins with.
BEGIN = ["python3", "-m", "township"]


class Page(BatchCase):
    def setUp(self):
        super().setUp()
        came_from = os.getcwd()
        self.addCleanup(os.chdir, came_from)
        os.chdir(self.folder)
        os.symlink(TOP / "samples", "samples")

    def run_line(self, line):
        """The program run by a line of the page, without what the shell does."""
        words = shlex.split(line)
        self.assertEqual(words[:3], BEGIN)
        return self.run_words(*words[3 : words.index(">") if ">" in words else None])

    def test_import(self):
        run = self.run_line(IMPORT)
        self.assertEqual((run.returncode, run.stdout.decode(), run.stderr.decode()), (1, REPORT, SAID))
        self.assertEqual((self.folder / "plats" / "2N-3W.csv").read_text(), TABLE)
        self.assertTrue((self.folder / "plats" / "3N-3W.csv.incomplete").exists())

    def test_parts(self):
        names, texts = zip(*(line.split(maxsplit=1) for line in FILES.splitlines()))
        self.assertEqual(names, ("lots.csv", "land.txt"))
        self.put(Lots.new("T. 2 N., R. 3 W.").csv(), names[0])
        self.put(texts[1], names[1])
        for line, rows in ((PARTS, ROWS), (PARTS_BY_ID, ROWS_BY_ID)):
            run = self.run_line(line)
            self.assertEqual((run.returncode, run.stdout.decode(), run.stderr), (0, rows, b""))

    def test_parts_of_the_imported_table(self):
        self.run_line(IMPORT)
        [description] = re.findall(r"For `lake.txt`, which contains `([^`]*)`", " ".join(PAGE.split()))
        self.put(description, "lake.txt")
        run = self.run_line(LAKE_PARTS)
        self.assertEqual((run.returncode, run.stdout.decode(), run.stderr), (0, LAKE_ROWS, b""))

    def test_columns(self):
        rows = re.findall(r"(?m)^\| `(--[a-z-]+)` \| `([A-Z]+)` \|", PAGE)
        self.assertEqual(rows, [(column.option, column.usual) for column in COLUMNS])


if __name__ == "__main__":
    unittest.main()
