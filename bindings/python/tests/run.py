"""Runs all tests of this folder. The last line is `N passed, M skipped`, with the names of those skipped."""
import sys
import unittest
from pathlib import Path


class Counting(unittest.TextTestResult):
    """Counts the tests that pass; a test with several failing parts counts as one failure."""

    def __init__(self, *given, **named):
        super().__init__(*given, **named)
        self.passed = 0

    def addSuccess(self, test):
        super().addSuccess(test)
        self.passed += 1


def main() -> int:
    suite = unittest.defaultTestLoader.discover(str(Path(__file__).parent))
    result = unittest.TextTestRunner(stream=sys.stdout, resultclass=Counting).run(suite)
    # A class that is skipped as a whole, or that cannot be set up, is not a test, but is reported like one.
    failed = len(result.failures) + len(result.errors) + len(result.unexpectedSuccesses)
    skipped = [test.id() for test, _ in result.skipped]
    names = f" ({', '.join(skipped)})" if skipped else ""
    failures = f"{failed} failed, " if failed else ""
    print(f"{result.passed} passed, {failures}{len(skipped)} skipped{names}")
    return 1 if failed or not result.passed else 0


if __name__ == "__main__":
    sys.exit(main())
