"""What the tests of `python -m township batch` share: how it is run, in this process or from a command line."""
import contextlib
import csv
import io
import os
import subprocess
import sys
import tempfile
import unittest
from pathlib import Path

from samples import TOP
from township import _command

NOTES = TOP / "samples" / "b1.csv"
EVEN_NOTES = TOP / "samples" / "b0.csv"

#: A lot table of T. 2 N., R. 3 W., by which lot 1 of section 5 has another acreage than by any notes.
LOTS = "section,lot,acres\nT,2,N,3,W\n5,1,41.23\n"

#: The columns that are added.
ADDED = ["acres", "refusal", "at", "sentence", "note", "canonical"]

#: The canonical text of all of a section of the samples' township, such as 14.
HEADING = "T. 2 N., R. 3 W., "


def command(*words):
    """The command line of a batch with these words."""
    return [sys.executable, "-m", "township", "batch", *map(str, words)]


def records(data):
    """The records of a CSV file with commas."""
    return list(csv.reader(io.StringIO(data.decode("utf-8", "surrogateescape"), newline="")))


def feed(pipe):
    """Writes a list that never ends, until nobody reads it."""
    try:
        pipe.write(b"id,description\n")
        while True:
            pipe.write(b"7,sec. 14.\n" * 1000)
    except BrokenPipeError:
        pass
    finally:
        try:
            pipe.close()
        except BrokenPipeError:
            pass


class BatchCase(unittest.TestCase):
    """A test of the real command, in a folder of its own."""

    def setUp(self):
        folder = tempfile.TemporaryDirectory()
        self.addCleanup(folder.cleanup)
        self.folder = Path(folder.name)

    def put(self, data, name="list.csv"):
        """A file in the folder, with these bytes."""
        path = self.folder / name
        path.parent.mkdir(parents=True, exist_ok=True)
        path.write_bytes(data if isinstance(data, bytes) else data.encode())
        return path

    def put_notes(self, name, township="T,2,N,3,W", notes=NOTES):
        """Field notes in the folder: those of a sample, changed to this township."""
        lines = notes.read_text().splitlines(True)
        return self.put("".join([lines[0], township + "\n", *lines[2:]]), name)

    def run_words(self, *words, input=b""):
        """The program run with these words in this process: its status, output, and errors."""
        output, errors = io.StringIO(), io.StringIO()
        with self.redirected(input) as written:
            with contextlib.redirect_stdout(output), contextlib.redirect_stderr(errors):
                try:
                    status = _command.main(list(map(str, words)))
                except SystemExit as ended:
                    status = ended.code
            written.seek(0)
            shown = output.getvalue().encode() + written.read()
        said = errors.getvalue().encode("utf-8", "backslashreplace")
        return subprocess.CompletedProcess(words, int(status), shown, said)

    @contextlib.contextmanager
    def redirected(self, given):
        """Standard input from these bytes, and standard output to a file."""
        with tempfile.TemporaryFile() as source, tempfile.TemporaryFile() as written:
            source.write(given)
            source.seek(0)
            before = os.dup(0), os.dup(1)
            os.dup2(source.fileno(), 0)
            os.dup2(written.fileno(), 1)
            try:
                yield written
            finally:
                for number, descriptor in enumerate(before):
                    os.dup2(descriptor, number)
                    os.close(descriptor)

    def run_command(self, *words, **named):
        """The program run with these words as a process: its status, output, and errors."""
        program = [sys.executable, "-m", "township", *map(str, words)]
        return subprocess.run(program, stderr=subprocess.PIPE, **{"stdout": subprocess.PIPE, **named})

    def batch(self, data, *words, status):
        """The records that result from a list, with this status."""
        run = self.run_words("batch", NOTES, self.put(data), *words)
        self.assertEqual((run.returncode, run.stderr), (status, b""))
        return records(run.stdout)

    def stopped(self, data, *words, status=3):
        """The text on standard error for a list that is not valid."""
        run = self.run_words("batch", NOTES, self.put(data), *words)
        self.assertEqual(run.returncode, status)
        return run.stderr.decode()


class WorkbookCase(BatchCase):
    """A test with workbooks, which need openpyxl."""

    def workbook(self, *rows, name="list.xlsx"):
        """A workbook with these rows."""
        import openpyxl

        book = openpyxl.Workbook()
        for row in rows:
            book.active.append(row)
        path = self.folder / name
        book.save(path)
        return path

    def rows_of(self, path):
        """The rows of a workbook."""
        import openpyxl

        return [list(row) for row in openpyxl.load_workbook(path).active.iter_rows(values_only=True)]
