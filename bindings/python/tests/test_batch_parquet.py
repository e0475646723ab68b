"""Lists in Parquet files. Without pyarrow, a package of the same form reads pickled columns in their place."""
import contextlib
import datetime
import decimal
import pickle
import sys
import textwrap
import unittest
from importlib.util import find_spec
from unittest import mock

from batches import HEADING, NOTES, BatchCase, records

#: Reads pickled columns in the form of pyarrow's module, two records at a time.
READER = textwrap.dedent('''
    import pickle
    from types import SimpleNamespace

    class ParquetFile:
        def __init__(self, file):
            self.columns = pickle.loads(file.read())
            self.schema_arrow = SimpleNamespace(names=list(dict(self.columns)))

        def iter_batches(self, batch_size):
            assert batch_size > 1
            for start in range(0, len(self.columns[0][1]), 2):
                parts = [values[start : start + 2] for _, values in self.columns]
                yield SimpleNamespace(columns=[SimpleNamespace(to_pylist=lambda part=part: part) for part in parts])
''')


class Lists(BatchCase):
    def setUp(self):
        super().setUp()
        if not find_spec("pyarrow"):
            self.put("", "packages/pyarrow/__init__.py")
            self.put(READER, "packages/pyarrow/parquet.py")
            path = [str(self.folder / "packages"), *sys.path]
            self.enter(mock.patch.object(sys, "path", path))
            self.enter(mock.patch.dict(sys.modules))

    def enter(self, context):
        stack = contextlib.ExitStack()
        stack.enter_context(context)
        self.addCleanup(stack.close)

    def parquet(self, **columns):
        """A Parquet file with these columns, or what is read in its place."""
        path = self.folder / "list.parquet"
        if find_spec("pyarrow.lib"):
            import pyarrow
            from pyarrow import parquet

            parquet.write_table(pyarrow.table(columns), path)
        else:
            path.write_bytes(pickle.dumps(list(columns.items())))
        return path

    def test_records(self):
        listed = self.parquet(
            id=[7, 8, 9],
            description=["sec. 14.", "sec. 37.", "sec. 5, lot 1."],
            signed=[datetime.date(2026, 1, 31), None, None],
            price=[decimal.Decimal("1.50"), None, None],
            share=[0.5, 1.0, None],
            raw=[b"a,b", None, None],
        )
        run = self.run_words("batch", NOTES, listed)
        self.assertEqual((run.returncode, run.stderr), (1, b""))
        rows = records(run.stdout)
        self.assertEqual(rows[0][:7], ["id", "description", "signed", "price", "share", "raw", "acres"])
        self.assertEqual(rows[1][:7], ["7", "sec. 14.", "2026-01-31", "1.50", "0.5", "a,b", "640.00"])
        self.assertEqual(rows[2][:8], ["8", "sec. 37.", "", "", "1", "", "", "62"])
        self.assertEqual(rows[3][6:], ["40.45", "", "", "", "", HEADING + "sec. 5, lot 1."])

    def test_to_a_file_in_several_processes(self):
        listed, made = self.parquet(description=["sec. 14.", None, "sec. 15."] * 500), self.folder / "made.csv"
        run = self.run_words("batch", NOTES, listed, "--output", made, "--jobs", "2")
        self.assertEqual((run.returncode, run.stderr), (1, b""))
        self.assertEqual([row[1] or row[2] for row in records(made.read_bytes())[1:]], ["640.00", "44", "640.00"] * 500)

    def test_column_that_is_missing(self):
        run = self.run_words("batch", NOTES, self.parquet(land=["sec. 14."]))
        self.assertEqual((run.returncode, run.stdout), (3, b""))
        self.assertRegex(run.stderr.decode(), r"\Atownship: \S+list.parquet: the heading has no column `description`")

    def test_files_that_are_none(self):
        for name, text, said in (("x.parquet", b"description\nsec. 14.\n", b"this is not a Parquet file"),
                                 ("none.parquet", None, b"No such file or directory")):
            if text is not None:
                self.put(text, name)
            run = self.run_words("batch", NOTES, self.folder / name)
            self.assertEqual((run.returncode, run.stdout), (3, b""))
            self.assertRegex(run.stderr, b"\\Atownship: cannot read [^\n]*" + name.encode() + b": " + said + b"\n\\Z")

    def test_file_that_is_damaged(self):
        listed = self.parquet(description=["sec. 14."])
        from pyarrow import parquet

        def broken(*_, **__):
            raise ValueError("a page is damaged")

        with mock.patch.object(parquet.ParquetFile, "iter_batches", broken):
            run = self.run_words("batch", NOTES, listed)
        self.assertEqual(run.returncode, 3)
        self.assertRegex(run.stderr, rb"\Atownship: cannot read \S+list.parquet: the Parquet file is damaged\n\Z")


class WithoutThePackage(BatchCase):
    def test_it_is_named(self):
        listed = self.put(b"PAR1", "list.parquet")
        with mock.patch.dict(sys.modules, {"pyarrow": None}):
            run = self.run_words("batch", NOTES, listed)
        self.assertEqual((run.returncode, run.stdout), (3, b""))
        said = b"list.parquet: a Parquet file takes the Python package pyarrow; or save the list as CSV\n"
        self.assertIn(said, run.stderr)

    def test_parquet_by_another_name(self):
        run = self.run_words("batch", NOTES, self.put(b"PAR1....", "list.csv"))
        self.assertEqual(run.returncode, 3)
        self.assertIn(b"or as a Parquet file whose name ends in .parquet", run.stderr)


if __name__ == "__main__":
    unittest.main()
