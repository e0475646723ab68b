"""Tests how the scripts of the tests count those of others, by `gather` and `pytests` of tests/lib.sh."""
import pathlib
import subprocess
import sys
import tempfile
import unittest

HERE = pathlib.Path(__file__).resolve().parent


class Counting(unittest.TestCase):
    def counts(self, script, *words):
        """What a script prints after it has read tests/lib.sh, and then the counts of passed and failed tests."""
        script = f'. "{HERE.parent}/lib.sh"; {script}; echo "$passed $failed"'
        command = ["sh", "-c", script, str(HERE / "script"), *words]
        return subprocess.run(command, capture_output=True, text=True, check=True).stdout.splitlines()

    def test_scripts(self):
        for printed, counts in (
            ("some words\n3 passed, 1 failed\n", "3 1"),
            ("some words\n", "0 1"),
            ("0 passed, 2 failed\n", "0 2"),
            ("some words\n0 passed, 0 failed\n", "0 1"),
            ("skipped: all\n0 passed, 0 failed\n", "0 0"),
        ):
            with self.subTest(printed=printed):
                self.assertEqual(self.counts('begin part printf "$1"; gather', printed)[-1], counts)

    def test_commands(self):
        for printed, wanted in (
            ("3 passed\n", ["3 0"]),
            ("3 passed, 1 skipped (test_a.B.c)\n", ["skipped: it: test_a.B.c", "3 0"]),
            ("0 passed, 0 failed\n", ["FAILED: it", "0 1"]),
            ("0 passed, 2 skipped (a, b)\n", ["FAILED: it", "skipped: it: a, b", "0 1"]),
            ("some words\n", ["FAILED: it", "0 1"]),
        ):
            with self.subTest(printed=printed):
                shown = self.counts('count it printf "$1"', printed)
                said = [line for line in shown if line.startswith(("FAILED", "skipped"))]
                self.assertEqual([*said, shown[-1]], wanted)

    def test_skipped_in_ci(self):
        script = 'echo "skipped: all" > "$work/all"; count_skipped "$work/all"'
        for ci, counts in (("", "0 0"), ("true", "0 1")):
            with self.subTest(ci=ci):
                shown = self.counts(f"CI={ci}; {script}")
                self.assertEqual((shown[0], shown[-1]), ("skipped, as said above: 1", counts))
        self.assertEqual(self.counts('CI=true; : > "$work/all"; count_skipped "$work/all"'), ["0 0"])

    def test_pytest(self):
        passing, failing = "def test_it(): pass\n", "def test_that(): assert False\n"
        skipped = "import pytest\ndef test_other(): pytest.skip('no tool')\n"
        for text, counts in (
            (passing, "1 0"),
            (passing + failing, "1 1"),
            (passing + skipped, "1 0"),
            ("import nowhere\n", "0 1"),
            ("", "0 1"),
        ):
            with self.subTest(text=text), tempfile.TemporaryDirectory() as folder:
                pathlib.Path(folder, "test_given.py").write_text(text, encoding="utf-8")
                shown = self.counts('pytests "$1" "$2"', sys.executable, folder)
                self.assertEqual(shown[-1], counts)
                wanted = [f"skipped: {folder}: no tool (tests: 1)"] if text == passing + skipped else []
                self.assertEqual([line for line in shown if line.startswith("skipped")], wanted)


if __name__ == "__main__":
    unittest.main()
