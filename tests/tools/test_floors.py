"""Tests that descriptions without readings fail: `python3 tests/tools/test_floors.py`."""

import subprocess
import sys
import tempfile
import unittest
from pathlib import Path

sys.dont_write_bytecode = True
TESTS = Path(__file__).resolve().parents[1] / "descriptions"
sys.path.insert(0, str(TESTS))
from floors import floor_faults, floors  # noqa: E402

# A reader that has no reading of any text, and a program that refuses each text and advises nothing.
READER = "#!/bin/sh\nsed 's/.*/0/'\n"
PROGRAM = "#!/bin/sh\necho 'refused 44 at 0'\nexit 1\n"


class Floors(unittest.TestCase):
    def run_on(self, script, *words):
        """The output and the status of a script with that program and reader."""
        with tempfile.TemporaryDirectory() as folder:
            for name, text in (("township", PROGRAM), ("reader", READER)):
                Path(folder, name).write_text(text, encoding="utf-8")
                Path(folder, name).chmod(0o755)
            names = {"PROGRAM": f"{folder}/township", "READER": f"{folder}/reader"}
            command = [sys.executable, "-B", str(TESTS / script), *(names.get(it, it) for it in words)]
            ran = subprocess.run(command, capture_output=True, text=True, check=False)
        return ran.stdout, ran.returncode

    def test_each_file_has_floors(self):
        files = {it.stem for it in TESTS.glob("*.tsv") if it.read_text(encoding="utf-8").startswith("id\t")}
        self.assertEqual(set(floors()), files)
        for name, least in floors().items():
            self.assertTrue(least["read"] > 0 and least["cured"] > 0, name)

    def test_a_file_below_its_floor_fails(self):
        least = floors()["clerk"]
        self.assertEqual(floor_faults(TESTS / "clerk.tsv", **least), [])
        for column in least:
            fewer = {**least, column: least[column] - 1}
            self.assertEqual(len(floor_faults(TESTS / "clerk.tsv", **fewer)), 1, column)
        self.assertEqual(len(floor_faults(TESTS / "unknown.tsv", **least)), 1)
        self.assertEqual(floor_faults("/elsewhere/clerk.tsv", read=0), [])

    def test_no_readings_at_all(self):
        said, status = self.run_on("suggested.py", "PROGRAM", "READER", str(TESTS / "clerk.tsv"))
        self.assertEqual(status, 1)
        self.assertIn("clerk.tsv: 0 rows are read, fewer than", said)
        self.assertIn("clerk.tsv: 0 rows are asked, fewer than", said)

    def test_no_advice_at_all(self):
        said, status = self.run_on("follow.py", "PROGRAM", str(TESTS / "clerk.tsv"))
        self.assertEqual(status, 1)
        self.assertIn("clerk.tsv: 0 rows are cured, fewer than", said)


if __name__ == "__main__":
    unittest.main()
