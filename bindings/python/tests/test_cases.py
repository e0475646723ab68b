"""Worked cases of a zip that the environment variable TOWNSHIP_CASES names.

Each case is a folder with these files: `kind` (acres, plat, normal, report, or joined), `notes`, for all kinds
but plat `second` (a description, a list of tracts, or for joined both texts as they go to standard input),
for some of kind acres `account` (exact or plat), and what the program answers: `expected` and `status`.
"""
import os
import unittest
import zipfile

import township

CASES = os.environ.get("TOWNSHIP_CASES")
WHY_NOT = "TOWNSHIP_CASES names no zip of cases"

#: The most that is read from standard input: the longest description, the longest notes, and two more bytes.
JOINED_MOST = 131_074


def acres_text(notes, description, account):
    return f"{township.Plat.read(notes).acres(description, account)} acres\n"


def plat_text(notes):
    return township.Plat.read(notes).text


def normal_text(notes, description):
    return township.Plat.read(notes).normal(description)


def report_text(notes, listed):
    report = township.Plat.read(notes).report_csv(listed)
    tracts = [f"tract {tract.name}: {tract.acres} acres\n" for tract in report.tracts]
    return "".join([*tracts, f"total: {report.total} acres\n", f"remaining: {report.remaining} acres\n"])


def joined_text(stream):
    description, _, notes = stream[:JOINED_MOST].partition(b"\n")
    return acres_text(notes, description, "exact")


def answer(write, *given):
    """The text that the program writes, and its status, from a call or the refusal that it raises."""
    try:
        return write(*given).encode(), 0
    except township.Refused as refused:
        lines = [(refused.number, refused.at), *([refused.inner] if refused.inner else [])]
        return "".join(f"refused {number} at {at}\n" for number, at in lines).encode(), 1


@unittest.skipUnless(CASES, WHY_NOT)
class Cases(unittest.TestCase):
    @classmethod
    def setUpClass(cls):
        archive = zipfile.ZipFile(CASES)
        cls.addClassCleanup(archive.close)
        cls.archive = archive
        cls.files = set(archive.namelist())
        cls.names = sorted({name.partition("/")[0] for name in cls.files})

    def content(self, case, file):
        """A file of a case, or nothing if the case has no such file."""
        name = f"{case}/{file}"
        return self.archive.read(name) if name in self.files else b""

    def word(self, case, file):
        return self.content(case, file).decode().strip()

    def try_cases(self, kind, given_of, write, account=None):
        """Compares all cases of a kind, and of an account if one is given."""
        tried = 0
        for case in self.names:
            if self.word(case, "kind") != kind or account not in (None, self.word(case, "account") or "exact"):
                continue
            wanted = self.content(case, "expected"), int(self.word(case, "status"))
            found = answer(write, *given_of(case))
            tried += 1
            if found != wanted:
                self.fail(f"{case}: {found[0][:90]!r} status {found[1]}, not {wanted[0][:90]!r} status {wanted[1]}")
        self.assertGreater(tried, 0)

    def both(self, case):
        return self.content(case, "notes"), self.content(case, "second")

    def test_acres(self):
        self.try_cases("acres", lambda case: (*self.both(case), "exact"), acres_text, "exact")

    def test_acres_by_the_plat(self):
        self.try_cases("acres", lambda case: (*self.both(case), "plat"), acres_text, "plat")

    def test_plat(self):
        self.try_cases("plat", lambda case: (self.content(case, "notes"),), plat_text)

    def test_normal(self):
        self.try_cases("normal", self.both, normal_text)

    def test_report(self):
        self.try_cases("report", self.both, report_text)

    def test_joined(self):
        self.try_cases("joined", lambda case: (self.content(case, "second"),), joined_text)
