"""The man page of the command line says what its --help says."""
import subprocess
import sys
import unittest

from samples import TOP


class ManPage(unittest.TestCase):
    def test_it_is_made_from_help(self):
        command = [sys.executable, "-B", TOP / "tools" / "python_man_page.py", "--check"]
        run = subprocess.run(command, capture_output=True, text=True)
        self.assertEqual((run.stdout, run.stderr, run.returncode), ("", "", 0))


if __name__ == "__main__":
    unittest.main()
