"""The county at the beginning of `docs/BATCH.md`: its commands print what is shown below them."""
import doctest
import os
import re
import shlex
import subprocess
import sys
import unittest
from importlib.util import find_spec

from batches import BatchCase, records
from samples import TOP

BATCH = (TOP / "docs" / "BATCH.md").read_text()

#: The section, its indented blocks in order, and the table of answers.
SECTION = BATCH[BATCH.index("## A county\n") : BATCH.index("## Which method to use\n")]
BLOCKS = ["".join(line[4:] for line in block.splitlines(True)) for block in re.findall(r"(?m)(?:^    .*\n)+", SECTION)]
FILES, NEW, TABLE, LIST, BATCHED, SAID, TOTALS, WITH_PANDAS = BLOCKS
ANSWERS = [[cell.strip() for cell in line.strip("|").split("|")] for line in re.findall(r"(?m)^\|.*\|$", SECTION)]


class County(BatchCase):
    def setUp(self):
        super().setUp()
        came_from = os.getcwd()
        self.addCleanup(os.chdir, came_from)
        os.chdir(self.folder)
        self.put(LIST, "leases.csv")
        for name, what in (line.split(maxsplit=1) for line in FILES.splitlines()):
            if what.startswith("the lot table"):
                self.put(TABLE, name)
            else:
                # Both townships have the field notes of the sample.
                self.put_notes(name, f"T,{name[7]},N,3,W")

    def run_line(self, line):
        """The program run by a line of the document, without what is written to a file by the shell."""
        program, _, words = line.strip().partition("python3 -m township ")
        self.assertEqual(program, "")
        words, _, written = words.partition(" > ")
        run = self.run_words(*(quoted or word for quoted, word in re.findall(r'"([^"]*)"|(\S+)', words)))
        if written:
            self.put(run.stdout, written)
        return run

    def test_files(self):
        self.assertEqual(len(FILES.splitlines()), 3)

    def test_table_to_fill_in(self):
        run = self.run_line(NEW)
        self.assertEqual((run.returncode, run.stderr), (0, b""))
        made = (self.folder / "county" / "3N-3W.csv").read_text()
        self.assertEqual(made.splitlines()[:2], TABLE.splitlines()[:2])
        lots = [line.rpartition(",")[0] for line in TABLE.splitlines()[2:]]
        found = [line for line in made.splitlines() if line.startswith("31,")]
        self.assertEqual(found, [f"{lot},40.00" for lot in lots])

    def test_first_command_in_the_repository(self):
        path = re.search("`export PYTHONPATH=([^`]*)`", SECTION)[1]
        command, _, _ = NEW.strip().partition(" > ")
        self.assertLess(SECTION.index(path), SECTION.index(command))
        command = command.replace("python3", shlex.quote(sys.executable), 1)
        environment = {**os.environ, "PYTHONPATH": path}
        run = subprocess.run(command, shell=True, cwd=TOP, env=environment, capture_output=True)
        self.assertEqual((run.returncode, run.stderr), (0, b""))
        self.assertTrue(run.stdout.startswith(b"section,lot,acres\nT,3,N,3,W\n"), run.stdout)

    def test_answers(self):
        run = self.run_line(BATCHED)
        self.assertEqual((run.returncode, run.stdout, run.stderr.decode()), (1, b"", SAID))
        heading, *rows = records((self.folder / "answers.csv").read_bytes())
        shown, rule, *wanted = ANSWERS
        self.assertEqual((rule, len(heading)), (["---"] * len(shown), 2 + 8))
        columns = [heading.index(name) for name in shown]
        self.assertEqual([[row[column] for column in columns] for row in rows], wanted)

    def run_examples(self, text, number):
        """Examples run as they are shown, of which there are so many."""
        self.run_line(BATCHED)
        examples = doctest.DocTestParser().get_doctest(text, {}, "BATCH.md", None, None)
        self.assertEqual(len(examples.examples), number)
        output = []
        failed, _ = doctest.DocTestRunner().run(examples, out=output.append)
        self.assertEqual(failed, 0, "".join(output))

    def test_totals(self):
        self.run_examples(TOTALS, 6)

    @unittest.skipUnless(find_spec("pandas"), "pandas isn't installed")
    def test_with_pandas(self):
        self.run_examples(WITH_PANDAS, 5)


if __name__ == "__main__":
    unittest.main()
