"""Comparisons that are counted, for scripts whose last line is 'N passed, M failed'."""
from __future__ import annotations

import sys
from typing import NoReturn

passed = failed = 0


def same(what: str, wanted: object, found: object) -> None:
    """Count a comparison."""
    global passed, failed
    if wanted == found:
        passed += 1
    else:
        failed += 1
        print(f"FAILED: {what}: wanted {wanted}, found {found}")


def ended() -> NoReturn:
    """Print the counts, and exit. Without any comparison, the script has failed."""
    print(f"{passed} passed, {failed} failed")
    sys.exit(1 if failed or not passed else 0)
