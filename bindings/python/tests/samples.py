"""Shared by the tests: the plats of the samples, and how to catch a refusal."""
import functools
import unittest
from pathlib import Path

import township

#: The top of the repository.
TOP = Path(__file__).resolve().parents[3]

#: T. 2 N., R. 3 W.; its west and north lines are uneven.
NOTES = (TOP / "samples" / "b1.csv").read_bytes()
#: The same township of exact square miles.
EVEN_NOTES = (TOP / "samples" / "b0.csv").read_bytes()
TRACTS = (TOP / "samples" / "tracts.csv").read_bytes()


@functools.lru_cache(maxsize=None)
def uneven() -> township.Plat:
    return township.Plat.read(NOTES)


@functools.lru_cache(maxsize=None)
def even() -> township.Plat:
    return township.Plat.read(EVEN_NOTES)


class RefusalCase(unittest.TestCase):
    """A test of refusals."""

    def refused(self, call, *given, **named) -> township.Refused:
        """The refusal that a call raises."""
        with self.assertRaises(township.Refused) as caught:
            call(*given, **named)
        return caught.exception
