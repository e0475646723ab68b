"""The types of the package, by mypy: of the package itself, and as a program that uses it sees them."""
import importlib.util
import subprocess
import sys
import tempfile
import unittest
from pathlib import Path

import township
from samples import TOP

PACKAGE = Path(township.__file__).parent
CONSUMER = Path(__file__).parent / "typed" / "consumer.py"


@unittest.skipUnless(importlib.util.find_spec("mypy"), "mypy isn't installed")
class Types(unittest.TestCase):
    @classmethod
    def setUpClass(cls):
        folder = tempfile.TemporaryDirectory()
        cls.addClassCleanup(folder.cleanup)
        cls.cache = folder.name

    def mypy(self, *words):
        """The output of mypy, if it finds an error."""
        settings = TOP / "bindings" / "python" / "pyproject.toml"
        command = [sys.executable, "-m", "mypy", "--strict", "--config-file", settings, "--cache-dir", self.cache, *words]
        run = subprocess.run(list(map(str, command)), capture_output=True, text=True, cwd=self.cache)
        return run.stdout + run.stderr

    def test_the_package(self):
        self.assertRegex(self.mypy(PACKAGE), r"\ASuccess: no issues found in \d+ source files\n\Z")

    def test_the_package_on_the_oldest_python(self):
        self.assertIn("Success", self.mypy("--python-version", "3.9", PACKAGE))

    def test_a_consumer(self):
        self.assertEqual(self.mypy(CONSUMER), "Success: no issues found in 1 source file\n")

    def test_the_package_says_that_it_is_typed(self):
        self.assertTrue((PACKAGE / "py.typed").exists())


if __name__ == "__main__":
    unittest.main()
