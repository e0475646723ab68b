"""The examples of docs/DESCRIPTIONS.md, "On a plat with lots of its own": the answers by the table of a township with a
lake in docs/LOTS-FORMAT.md."""
import re
import textwrap
import unittest
from typing import List

from samples import TOP, RefusalCase
from township import Lots

SECTION = "On a plat with lots of its own"


def section() -> str:
    """The section of docs/DESCRIPTIONS.md."""
    text = (TOP / "docs" / "DESCRIPTIONS.md").read_text()
    [found] = re.findall(rf"^## {SECTION}\n(.*?)^## ", text, re.M | re.S)
    return str(found)


def lake() -> Lots:
    """The table that docs/LOTS-FORMAT.md shows."""
    text = (TOP / "docs" / "LOTS-FORMAT.md").read_text().partition("## Lots wherever they lie")[2]
    [found] = re.findall(r"\n\n((?:    .*\n)+)\n1\. The \*\*heading\*\*", text)
    return Lots.read(textwrap.dedent(found))


def rows(heading: str) -> List[List[str]]:
    """The rows of the table with these names of columns."""
    [found] = re.findall(rf"^{re.escape(heading)}\n\|[-|]+\n((?:\|.*\n)+)", section(), re.M)
    return [[cell.strip() for cell in line.strip("|").split("|")] for line in found.splitlines()]


class Documented(RefusalCase):
    def test_acres(self):
        shown = rows("| land | description | acres |")
        self.assertEqual(len(shown), 7)
        for _, description, acres in shown:
            with self.subTest(description):
                self.assertEqual(f"{lake().acres(description.strip('`')):.2f}", acres)

    def test_refusals(self):
        shown = rows("| refusal | description | explanation |")
        self.assertEqual(len(shown), 6)
        for refusal, description, explanation in shown:
            with self.subTest(description):
                refused = self.refused(lake().acres, description.strip("`"))
                self.assertEqual(f"{refused.number} at {refused.at}", refusal)
                self.assertEqual(": ".join([refused.sentence, *refused.hints]), explanation)

    def test_canonical(self):
        shown = rows("| description | canonical description on this plat |")
        self.assertEqual(len(shown), 2)
        for description, canonical in shown:
            with self.subTest(description):
                self.assertEqual(" ".join(lake().normal(description).split()), canonical)

    def test_note(self):
        [note] = lake().notes("sec. 14, lot 1 and 3.")
        self.assertIn("A note on a doubtful place, such as `lot 1 and 3` of section 14, gives no acreage", section())
        self.assertTrue(note.sentence.startswith("lot 1 and 3 is read as lots 1 and 3; if lot 1 and sec. 3"), note)


if __name__ == "__main__":
    unittest.main()
