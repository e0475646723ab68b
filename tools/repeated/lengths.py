"""The limits of half miles and of closing quarter miles: the definitions say them, and sentences repeat them."""

import re
from fractions import Fraction
from typing import List

from reading import ROOT, Compared, text_of

WHAT = "lengths in sentences"

CLOSING = "crates/twp_plat/specs/Closing.antt"

SENTENCES = (
    *("docs/NOTES-FORMAT.md", "docs/REFUSALS.md", "docs/PROMISES.md", "man/township.1.in", "include/township.h"),
    *("crates/twp_plat/src/*.rt", "bindings/python/src/**/*.py", "bindings/rust/src/**/*.rs"),
)

CHAINS = r"(\d+(?:\.\d+)?)"
THOUSANDTHS = r"(\d+,\d{3})"


def compare() -> Compared:
    half_mile = 2 * defined("QUARTER_MILE")
    half = (half_mile - defined("TOLERANCE"), half_mile + defined("TOLERANCE"))
    closing = (defined("CLOSING_LEAST"), defined("CLOSING_MOST"))
    compared = 0
    differences: List[str] = []
    for path in sorted({str(file.relative_to(ROOT)) for pattern in SENTENCES for file in ROOT.glob(pattern)}):
        text = " ".join(text_of(path).replace("\\\n", "").replace("///", "").split())
        for form, allowed in (
            (rf"{CHAINS} (?:to|or longer than) {CHAINS} chains", {half, closing}),
            (rf"which is from {CHAINS} to {CHAINS}", {closing}),
            (rf"{THOUSANDTHS} to {THOUSANDTHS} thousandths", {closing}),
            (rf"(?:shorter|less) than {CHAINS}() chains", {(closing[0], 0)}),
            (rf"(?<!or )(?:longer|more) than {CHAINS}() chains", {(closing[1], 0)}),
        ):
            for least, most in re.findall(form, text):
                compared += 1
                if (thousandths_of(least), thousandths_of(most)) not in allowed:
                    differences.append(f"{path}: not a limit of a half mile, or of a closing quarter: {least} {most}")
    return compared, differences


def defined(name: str) -> int:
    """A length in the definitions, in thousandths of a chain."""
    [number] = re.findall(rf"^{name} = (\d+)$", text_of(CLOSING), re.M)
    return int(number)


def thousandths_of(length: str) -> int:
    """A length that is written in chains, or with a comma in thousandths of a chain."""
    if "," in length:
        return int(length.replace(",", ""))
    return int(Fraction(length or "0") * 1000)
